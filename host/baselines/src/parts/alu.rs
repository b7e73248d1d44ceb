//! The ALU on machine integers.
//!
//! A function yields its result and sets the flags where they are: handed back with it, they
//! would be packed into one number and taken apart again.

use cesca_types::{Flags, Overflow};

/// What the ALU does, the flags being set as its result asks.
pub trait Alu {
    /// The result of the function that the low four bits of a number name.
    fn alu(&mut self, function: u8, x: u8, y: u8) -> u8;

    /// The sum, a carry taken in.
    fn add(&mut self, x: u8, y: u8, c: bool) -> u8;

    /// The difference, a borrow taken in.
    fn sub(&mut self, x: u8, y: u8, c: bool) -> u8;

    /// A value without carry, V being unsettled.
    fn bits(&mut self, value: u8) -> u8;
}

impl Alu for Flags {
    #[inline(always)]
    fn alu(&mut self, function: u8, x: u8, y: u8) -> u8 {
        match function & 15 {
            0 => set(self, y, false, Overflow::Clear),
            1 => self.add(x, y, false),
            2 => self.sub(x, y, false),
            3 => self.add(x, y, self.c),
            4 => self.sub(x, y, self.c),
            5 => self.bits(x & y),
            6 => self.bits(x | y),
            7 => self.bits(!x),
            8 => self.bits(x ^ y),
            9 => self.bits(!(x & y)),
            10 => self.bits(!(x | y)),
            11 => self.bits(!(x ^ y)),
            12 => shifted(self, x << 1, x),
            13 => self.bits(x >> 1),
            14 => self.bits((x as i8 >> 1) as u8),
            _ => shifted(self, x.rotate_left(1), x),
        }
    }

    #[inline(always)]
    fn add(&mut self, x: u8, y: u8, c: bool) -> u8 {
        let (value, carry) = x.carrying_add(y, c);
        let (sum, first) = x.cast_signed().overflowing_add(y.cast_signed());
        let (_, second) = sum.overflowing_add(i8::from(c));
        set(self, value, carry, settled(first != second))
    }

    #[inline(always)]
    fn sub(&mut self, x: u8, y: u8, c: bool) -> u8 {
        let (value, borrow) = x.borrowing_sub(y, c);
        let (difference, first) = x.cast_signed().overflowing_sub(y.cast_signed());
        let (_, second) = difference.overflowing_sub(i8::from(c));
        set(self, value, borrow, settled(first != second))
    }

    #[inline(always)]
    fn bits(&mut self, value: u8) -> u8 {
        set(self, value, false, Overflow::Unsettled)
    }
}

/// The value of `x` moved left.
#[inline(always)]
fn shifted(flags: &mut Flags, value: u8, x: u8) -> u8 {
    set(flags, value, x >= 128, Overflow::Unsettled)
}

/// A value, once the flags are its.
#[inline(always)]
fn set(flags: &mut Flags, value: u8, c: bool, v: Overflow) -> u8 {
    *flags = Flags { z: value == 0, c, v, s: value >= 128 };
    value
}

/// V with a value.
#[inline(always)]
fn settled(overflow: bool) -> Overflow {
    if overflow {
        Overflow::Set
    } else {
        Overflow::Clear
    }
}
