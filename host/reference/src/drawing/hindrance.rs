//! Why no sheet and list at all would be admitted with some banks.

/// What no sheet can put right, with the ground that would refuse each of them.
///
/// A depth or a need over 255 is none of them. Each byte on the stack is put there by a push or call
/// of its own, unless a routine calls itself; 256 of them fill the banks, and the one at 255 goes on.
#[derive(Clone, Copy, Debug, PartialEq, Eq)]
pub enum Hindrance {
    /// More routines are called than a list can have (3).
    TooManyRoutines,
    /// An address would have to be in two routines (7 or 16).
    TwoRoutines,
    /// An address would have to be at two depths (7 or 16).
    TwoDepths,
    /// `jmp Ra` is reached (9).
    JumpRegister,
    /// V is tested where it can't be marked (10).
    Unsettled,
    /// pop or swap is reached at depth 0 (11).
    NothingPushed,
    /// ret is reached in routine 0 (12).
    ReturnFromStart,
    /// ret is reached at a depth above 0 (12).
    ReturnWithBytes,
    /// Address 255 is reached and would go on (13).
    PastTheEnd,
    /// A routine calls itself, or is called by one that it calls (15).
    Recursion,
}

impl Hindrance {
    /// All of them.
    pub const ALL: [Hindrance; 10] = {
        use Hindrance::*;
        [
            TooManyRoutines,
            TwoRoutines,
            TwoDepths,
            JumpRegister,
            Unsettled,
            NothingPushed,
            ReturnFromStart,
            ReturnWithBytes,
            PastTheEnd,
            Recursion,
        ]
    };
}
