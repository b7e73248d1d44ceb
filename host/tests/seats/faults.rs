//! What can be wrong with a call: each fault by itself gets a call refused that has no other.

use crate::memory::{Bank, Guarded, BANKS};
use crate::room::Room;
use cesca::{SeatLengths, MOST_SEATS, MOST_SLICE};
use std::fmt::Display;

/// A call of a turn.
#[derive(Clone, Debug, PartialEq, Eq)]
pub struct Call {
    pub room: Room,
    pub slice: u32,
    pub from: usize,
}

/// Something wrong with a call.
pub struct Fault {
    /// The number by which the call is refused.
    pub number: u8,
    /// What is wrong.
    pub name: String,
    /// Makes it wrong.
    change: Box<dyn Fn(&mut Call)>,
}

/// The lengths of either kind.
type Lengths = fn(&mut SeatLengths) -> &mut [usize; MOST_SEATS];

/// The lengths of keys and of rolls, by name.
const LENGTHS: [(&str, Lengths); 2] =
    [("keys", |lengths| &mut lengths.keys), ("rolls", |lengths| &mut lengths.rolls)];

/// Everything that can be wrong with a call for so many seats.
pub fn faults(count: usize) -> Vec<Fault> {
    let mut faults = numbers();
    faults.extend(buffers());
    for (name, lengths) in LENGTHS {
        faults.extend(sums(count, name, lengths));
        faults.extend(wraps(count, name, lengths));
    }
    faults.extend((0..count).flat_map(positions));
    faults
}

impl Fault {
    /// A fault.
    fn new(number: u8, name: String, change: impl Fn(&mut Call) + 'static) -> Fault {
        Fault { number, name, change: Box::new(change) }
    }

    /// Makes it wrong with a call.
    pub fn apply(&self, call: &mut Call) {
        (self.change)(call);
    }
}

/// Too few or too many seats, and slices that are too short or too long.
fn numbers() -> Vec<Fault> {
    let counts = [0, MOST_SEATS + 1, 10, 255, 256 + 2, (1 << 32) + 2, usize::MAX];
    let counts = counts
        .map(|count| Fault::new(28, format!("{count} seats"), move |call| call.room.count = count));
    let slices = [0, MOST_SLICE + 1, 65_536 + 5, 1 << 31, u32::MAX];
    let slices = slices
        .map(|slice| Fault::new(29, format!("slice {slice}"), move |call| call.slice = slice));
    counts.into_iter().chain(slices).collect()
}

/// Buffers that are one too short or one too long.
fn buffers() -> Vec<Fault> {
    let keys: Bank = |memory| &mut memory.keys;
    let bytes =
        BANKS.into_iter().chain([keys]).zip(["opcodes", "arguments", "ram", "stack", "keys"]);
    let mut faults = Vec::new();
    for (buffer, name) in bytes {
        faults.push(Fault::new(17, format!("{name} short"), move |call| {
            shorten(buffer(&mut call.room.memory));
        }));
        faults.push(Fault::new(17, format!("{name} long"), move |call| {
            lengthen(buffer(&mut call.room.memory));
        }));
    }
    faults.push(Fault::new(17, "rolls short".into(), |call| shorten(&mut call.room.memory.roll)));
    faults.push(Fault::new(17, "rolls long".into(), |call| lengthen(&mut call.room.memory.roll)));
    faults
}

/// Takes the last element of a buffer away, if it has one.
fn shorten<T: Copy + Display + From<u8> + PartialEq>(buffer: &mut Guarded<T>) {
    let kept = buffer.inner().len().saturating_sub(1);
    *buffer = Guarded::new(buffer.inner()[..kept].to_vec());
}

/// Puts an element behind a buffer's last.
fn lengthen<T: Copy + Display + From<u8> + PartialEq>(buffer: &mut Guarded<T>) {
    *buffer = Guarded::new([buffer.inner(), &[T::from(0)]].concat());
}

/// Lengths of which one is one too small or too large, also by 2 to the 32.
fn sums(count: usize, name: &'static str, lengths: Lengths) -> Vec<Fault> {
    let fault = move |seat: usize, more: usize| {
        let text = format!("{more} more {name} for seat {seat}");
        Fault::new(17, text, move |call| {
            let length = &mut lengths(&mut call.room.lengths)[seat];
            *length = length.wrapping_add(more);
        })
    };
    let changes = [1, usize::MAX, 1 << 32];
    (0..count).flat_map(|seat| changes.map(|more| fault(seat, more))).collect()
}

/// Lengths that add up to the buffer's modulo 2 to the 64.
fn wraps(count: usize, name: &'static str, lengths: Lengths) -> Vec<Fault> {
    let pairs = (0..count).flat_map(|one| (0..count).map(move |other| (one, other)));
    let faults = pairs.filter(|(one, other)| one != other).map(|(one, other)| {
        let text = format!("{name} of seats {one} and {other} wrap");
        Fault::new(17, text, move |call| {
            let lengths = lengths(&mut call.room.lengths);
            lengths[one] = lengths[one].wrapping_add(lengths[other]).wrapping_add(1);
            lengths[other] = usize::MAX;
        })
    });
    let even = (count > 1 && count.is_power_of_two()).then(|| {
        Fault::new(17, format!("all {name} together wrap"), move |call| {
            let more = usize::MAX / count + 1;
            lengths(&mut call.room.lengths)[..count].iter_mut().for_each(|length| *length += more);
        })
    });
    faults.chain(even).collect()
}

/// Key positions and roll positions of a seat past its end, by one and by far.
fn positions(seat: usize) -> Vec<Fault> {
    let far = [1, 2, 1 << 32, usize::MAX];
    let keys = far.map(|past| {
        Fault::new(18, format!("key position of seat {seat} {past} past"), move |call| {
            let end = call.room.lengths.keys[seat];
            call.room.seats.states[seat].position = end.saturating_add(past);
        })
    });
    let rolls = far.map(|past| {
        Fault::new(18, format!("roll position of seat {seat} {past} past"), move |call| {
            let end = call.room.lengths.rolls[seat];
            call.room.seats.roll_positions[seat] = end.saturating_add(past);
        })
    });
    keys.into_iter().chain(rolls).collect()
}
