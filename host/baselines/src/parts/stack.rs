//! The stack: its bank and SP.

use cesca_types::BANK;
use std::mem;

/// Takes SP one down and puts a byte there.
#[inline(always)]
pub fn push(stack: &mut [u8; BANK], sp: &mut u8, byte: u8) {
    *sp = sp.wrapping_sub(1);
    stack[usize::from(*sp)] = byte;
}

/// The byte at SP, which goes one up.
#[inline(always)]
pub fn pop(stack: &[u8; BANK], sp: &mut u8) -> u8 {
    let byte = stack[usize::from(*sp)];
    *sp = sp.wrapping_add(1);
    byte
}

/// The byte at SP, where another is put.
#[inline(always)]
pub fn exchange(stack: &mut [u8; BANK], sp: u8, byte: u8) -> u8 {
    mem::replace(&mut stack[usize::from(sp)], byte)
}
