//! What random turns came to, so that nothing goes untested.

use crate::room::Room;
use crate::turners::Answer;
use cesca::{Stop, Turn, MOST_SEATS, MOST_SLICE};

/// How often each thing was met.
#[derive(Debug, Default)]
pub struct Tally {
    /// Turns in which a seat ran, by the seats of the room.
    pub counts: [u64; MOST_SEATS],
    /// The same by the seat.
    pub seats: [u64; MOST_SEATS],
    /// The same by the stop.
    pub stops: [u64; 4],
    /// Turns in which no seat could go on.
    pub nobody: u64,
    /// Seats that were passed over, by the stop that kept them; spent keeps none.
    pub passed: [u64; 4],
    /// Turns from a seat that there isn't, and from one over 32 bits.
    pub far: [u64; 2],
    /// Turns that spent a slice of one step, and of the most.
    pub slices: [u64; 2],
    /// Turns that wrote behind words on a roll.
    pub continued: u64,
    /// Turns that went on to another key.
    pub keys: u64,
    /// Turns of seats without keys and with some, and of seats without a roll and with one.
    pub lengths: [[u64; 2]; 2],
    /// Turns that came to be full at seats without a roll, and seats without one that were passed
    /// over as full.
    pub no_roll: [u64; 2],
    /// Refused turns by their number.
    pub refusals: [u64; 30],
}

impl Tally {
    /// Counts what a turn answered and left.
    pub fn add(&mut self, before: &Room, slice: u32, from: usize, answer: Answer, after: &Room) {
        match answer {
            Ok(Some(turn)) => {
                self.add_passed(before, from, Some(turn.seat));
                self.add_turn(before, slice, turn, after);
                self.far[0] += u64::from(from >= before.count);
                self.far[1] += u64::from(from > u32::MAX as usize);
            }
            Ok(None) => {
                self.add_passed(before, from, None);
                self.nobody += 1;
            }
            Err(number) => self.refusals[usize::from(number)] += 1,
        }
    }

    /// Counts a turn in which a seat ran.
    fn add_turn(&mut self, before: &Room, slice: u32, turn: Turn, after: &Room) {
        let Turn { seat, stop, steps, .. } = turn;
        assert!((1..=slice).contains(&steps), "{turn:?} with slice {slice}");
        self.counts[before.count - 1] += 1;
        self.seats[seat] += 1;
        self.stops[stop as usize] += 1;
        let spent = stop == Stop::Spent && steps == slice;
        self.slices[0] += u64::from(spent && slice == 1);
        self.slices[1] += u64::from(spent && slice == MOST_SLICE);
        let words = [before, after].map(|room| room.seats.roll_positions[seat]);
        self.continued += u64::from(words[0] > 0 && words[1] > words[0]);
        let [was, is] = [before, after].map(|room| room.seats.states[seat].position);
        self.keys += u64::from(is > was);
        let [keys, roll] = [before.lengths.keys, before.lengths.rolls].map(|all| all[seat]);
        self.lengths[0][usize::from(keys > 0)] += 1;
        self.lengths[1][usize::from(roll > 0)] += 1;
        self.no_roll[0] += u64::from(stop == Stop::Full && roll == 0);
    }

    /// Counts the seats that were passed over before one ran, all of them if none did: each must
    /// have a stop that keeps it from its next step, and the one that ran none.
    fn add_passed(&mut self, before: &Room, from: usize, ran: Option<usize>) {
        let round = (0..before.count).map(|far| (from % before.count + far) % before.count);
        for seat in round {
            let stop = before.board(seat).next_stop();
            if ran == Some(seat) {
                assert_eq!(stop, None, "seat {seat} ran");
                return;
            }
            let stop = stop.unwrap_or_else(|| panic!("seat {seat} was passed over"));
            self.passed[stop as usize] += 1;
            let no_roll = before.lengths.rolls[seat] == 0;
            self.no_roll[1] += u64::from(stop == Stop::Full && no_roll);
        }
        assert_eq!(ran, None);
    }
}
