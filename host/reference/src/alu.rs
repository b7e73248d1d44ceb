//! The ALU: sixteen functions, their results and flags, in exact numbers cut to 8 bits.

use cesca_types::{AluAnswer, Overflow};

/// Which of the ALU functions settle V.
pub type Settles = fn(Function) -> bool;

/// The ALU functions, in the order of their four bits.
#[derive(Clone, Copy, Debug, PartialEq, Eq)]
pub enum Function {
    /// Rb.
    Mov,
    /// Ra plus Rb.
    Add,
    /// Ra minus Rb.
    Sub,
    /// Ra plus Rb plus the carry flag.
    Addc,
    /// Ra minus Rb minus the carry flag.
    Subb,
    /// Bits set in both.
    And,
    /// Bits set in either.
    Or,
    /// Bits clear in Ra.
    Not,
    /// Bits that differ.
    Xor,
    /// Bits not set in both.
    Nand,
    /// Bits set in neither.
    Nor,
    /// Bits that are equal.
    Xnor,
    /// Ra moved left, 0 coming in.
    Sll,
    /// Ra moved right, 0 coming in.
    Srl,
    /// Ra moved right, its sign coming in.
    Sra,
    /// Ra moved left, its bit 7 coming in.
    Rol,
}

impl Function {
    /// All functions in order.
    #[rustfmt::skip]
    pub const ALL: [Function; 16] = {
        use Function::*;
        [Mov, Add, Sub, Addc, Subb, And, Or, Not, Xor, Nand, Nor, Xnor, Sll, Srl, Sra, Rol]
    };

    /// The function of this number; the last one for numbers over 15.
    pub fn from_number(number: u8) -> Function {
        let index = usize::from(number);
        Function::ALL.get(index).copied().unwrap_or(Function::Rol)
    }

    /// Whether V has a value after the function.
    pub fn settles_overflow(self) -> bool {
        use Function::*;
        matches!(self, Mov | Add | Sub | Addc | Subb)
    }
}

/// The result and flags of a function on `x` (Ra), `y` (Rb) and the carry flag before.
pub fn alu(function: Function, x: u8, y: u8, c: bool) -> AluAnswer {
    let top = x >= 128;
    match function {
        Function::Mov => answer(y, false, Overflow::Clear),
        Function::Add => sum(x, y, false),
        Function::Sub => difference(x, y, false),
        Function::Addc => sum(x, y, c),
        Function::Subb => difference(x, y, c),
        Function::And => bits(x & y),
        Function::Or => bits(x | y),
        Function::Not => bits(!x),
        Function::Xor => bits(x ^ y),
        Function::Nand => bits(!(x & y)),
        Function::Nor => bits(!(x | y)),
        Function::Xnor => bits(!(x ^ y)),
        Function::Sll => answer(x << 1, top, Overflow::Unsettled),
        Function::Srl => bits(x >> 1),
        Function::Sra => bits((x as i8 >> 1) as u8),
        Function::Rol => answer(x.rotate_left(1), top, Overflow::Unsettled),
    }
}

/// The answer of an addition with a carry taken in.
fn sum(x: u8, y: u8, c: bool) -> AluAnswer {
    let exact = i16::from(x) + i16::from(y) + i16::from(c);
    let signed = i16::from(x as i8) + i16::from(y as i8) + i16::from(c);
    arithmetic(exact, signed)
}

/// The answer of a subtraction with a borrow taken in.
fn difference(x: u8, y: u8, c: bool) -> AluAnswer {
    let exact = i16::from(x) - i16::from(y) - i16::from(c);
    let signed = i16::from(x as i8) - i16::from(y as i8) - i16::from(c);
    arithmetic(exact, signed)
}

/// The answer for an exact result, of the operands without sign and of those with it.
fn arithmetic(exact: i16, signed: i16) -> AluAnswer {
    let v = if i8::try_from(signed).is_ok() { Overflow::Clear } else { Overflow::Set };
    let outside = u8::try_from(exact).is_err();
    answer(exact.rem_euclid(256) as u8, outside, v)
}

/// The answer of a function that never carries and leaves V unsettled.
fn bits(value: u8) -> AluAnswer {
    answer(value, false, Overflow::Unsettled)
}

/// An answer whose Z and S follow the result.
fn answer(value: u8, c: bool, v: Overflow) -> AluAnswer {
    AluAnswer { value, z: value == 0, c, s: value >= 128, v }
}

#[cfg(test)]
mod tests;
