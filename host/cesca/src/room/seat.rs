//! A seat of a room, as it is between two turns.

use super::Room;
use crate::calls::run;
use cesca_types::{Lent, State, Stop, BANK, MOST_SEATS};
use std::ops::Range;

/// A seat of a room: its state, and its parts of the room's buffers.
#[derive(Clone, Copy, Debug)]
pub struct Seat<'a> {
    room: &'a Room,
    number: usize,
}

impl<'a> Seat<'a> {
    /// The seat of this number, which the room has.
    pub(super) fn new(room: &'a Room, number: usize) -> Seat<'a> {
        Seat { room, number }
    }

    /// Its number, from 0.
    pub fn number(&self) -> usize {
        self.number
    }

    /// The state reached.
    pub fn state(&self) -> &'a State {
        &self.room.seats.states[self.number]
    }

    /// The bank of opcodes.
    pub fn opcodes(&self) -> &'a [u8; BANK] {
        self.bank(&self.room.opcodes)
    }

    /// The bank of arguments.
    pub fn arguments(&self) -> &'a [u8; BANK] {
        self.bank(&self.room.arguments)
    }

    /// The bank of data.
    pub fn data(&self) -> &'a [u8; BANK] {
        self.bank(&self.room.ram)
    }

    /// The bank of the stack.
    pub fn stack(&self) -> &'a [u8; BANK] {
        self.bank(&self.room.stack)
    }

    /// Its keys.
    pub fn keys(&self) -> &'a [u8] {
        &self.room.keys[self.part(&self.room.lengths.keys)]
    }

    /// The words written to its roll so far: a byte for data, 256 more for a command.
    pub fn roll(&self) -> &'a [u16] {
        let part = &self.room.rolls[self.part(&self.room.lengths.rolls)];
        &part[..self.room.seats.roll_positions[self.number]]
    }

    /// The words that its roll has room for, those already written included.
    pub fn roll_length(&self) -> usize {
        self.room.lengths.rolls[self.number]
    }

    /// What prevents its next step; none if it can go on.
    ///
    /// The library decides it, by a step on copies of data and stack.
    pub fn stop(&self) -> Option<Stop> {
        let (mut ram, mut stack, mut word) = (*self.data(), *self.stack(), [0]);
        let left = self.roll_length() - self.roll().len();
        let lent = Lent {
            opcodes: self.opcodes(),
            arguments: self.arguments(),
            keys: self.keys(),
            ram: &mut ram,
            stack: &mut stack,
            roll: &mut word[..left.min(1)],
        };
        let report = run(lent, 1, *self.state()).expect("a seat's banks and position are in order");
        (report.steps == 0).then_some(report.stop)
    }

    /// Its bank in a buffer of banks.
    fn bank(&self, buffer: &'a [u8]) -> &'a [u8; BANK] {
        let (banks, _) = buffer.as_chunks();
        &banks[self.number]
    }

    /// Where its part of a buffer with these lengths lies.
    fn part(&self, lengths: &[usize; MOST_SEATS]) -> Range<usize> {
        let begin = lengths[..self.number].iter().sum();
        begin..begin + lengths[self.number]
    }
}
