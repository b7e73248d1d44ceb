//! The words in which the library and the reference answer.

/// A form and its fields, each a full byte, laid out as the library takes it.
#[repr(C)]
#[derive(Clone, Copy, Debug, Default, PartialEq, Eq)]
pub struct Fields {
    /// The row of the instruction table, from 0; over 39 is taken as 39.
    pub form: u8,
    /// The register Rd.
    pub d: u8,
    /// The register Ra.
    pub a: u8,
    /// The ALU function.
    pub f: u8,
    /// The register Rb.
    pub b: u8,
    /// The immediate value or the address.
    pub imm: u8,
}

/// The overflow flag V, with the library's numbers.
#[repr(u8)]
#[derive(Clone, Copy, Debug, PartialEq, Eq)]
pub enum Overflow {
    /// V is 0.
    Clear = 0,
    /// V is 1.
    Set = 1,
    /// V has no value that may be tested.
    Unsettled = 2,
}

/// What the ALU yields: the result and the four flags.
#[derive(Clone, Copy, Debug, PartialEq, Eq)]
pub struct AluAnswer {
    /// The result, modulo 256.
    pub value: u8,
    /// The result is 0.
    pub z: bool,
    /// Carry or borrow.
    pub c: bool,
    /// Bit 7 of the result.
    pub s: bool,
    /// Signed overflow.
    pub v: Overflow,
}

/// Where an instruction goes on, and what it does to the stack.
#[derive(Clone, Copy, Debug, PartialEq, Eq)]
pub enum Class {
    /// Goes on to the next word and leaves the stack alone.
    Next,
    /// `jmp Addr8`.
    Jump,
    /// A conditional jump.
    Branch,
    /// `jmp Ra`.
    JumpRegister,
    /// `call Addr8`.
    Call,
    /// `ret`.
    Return,
    /// `push Ra`.
    Push,
    /// `pop Rd`.
    Pop,
    /// `swap Rd, Ra`.
    Swap,
    /// `hlt`.
    Halt,
}

/// What an instruction does to V.
#[derive(Clone, Copy, Debug, PartialEq, Eq)]
pub enum Effect {
    /// V stays as it was.
    Leaves,
    /// V gets a value.
    Settles,
    /// V loses its value.
    Unsettles,
}

/// What a checker needs to know of an instruction.
#[derive(Clone, Copy, Debug, PartialEq, Eq)]
pub struct Facts {
    /// Clock cycles of one execution.
    pub cycles: u8,
    /// Where it goes on.
    pub class: Class,
    /// The address of a jump, branch or call, Ra of a push or swap, otherwise 0.
    pub operand: u8,
    /// What it does to V.
    pub overflow: Effect,
    /// It tests V.
    pub tests: bool,
    /// It writes to the roll.
    pub roll: bool,
}
