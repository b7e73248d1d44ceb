//! Programs to draw for: chains of routines in several orders, changes that go a long way round, and
//! random ones.

use crate::kinds::{Kind, Program};
use crate::random::each_case;
use cesca::BANK;
use reference::Listing;

/// The random programs of each kind.
pub const RANDOM: usize = 3_000;

/// The addresses of a way that fills the banks but for the few words at its ends.
const LONG: u8 = 252;

/// The programs by name; those whose name has 27 in it are refused.
pub fn programs() -> Vec<(&'static str, Program)> {
    vec![
        ("listing A", Program::of(&Listing::a())),
        ("255 pushes", pushes(BANK)),
        ("10 routines", chain(&upwards(10), None)),
        ("30 routines", chain(&upwards(30), None)),
        ("60 routines", chain(&upwards(60), None)),
        ("64 routines", chain(&upwards(64), None)),
        ("64 downwards", chain(&downwards(64), None)),
        ("64 mixed", chain(&mixed(64), None)),
        ("64 to and fro", chain(&to_and_fro(64), None)),
        ("120 routines, 27", chain(&mixed(120), None)),
        ("cycle of 64, 27", chain(&to_and_fro(64), Some(0))),
        ("cycle of 120, 27", chain(&mixed(120), Some(0))),
        ("long way round", round(&to_and_fro(LONG))),
        ("round, mixed", round(&mixed(LONG))),
        ("way to itself, 27", endless(&to_and_fro(LONG))),
    ]
}

/// Random programs of a kind, the same each time.
pub fn random(kind: Kind) -> Vec<Program> {
    let mut programs = Vec::new();
    each_case(RANDOM as u64, |random| programs.push(kind.program(random)));
    programs
}

/// Pushes, and `hlt` at the last of so many addresses.
pub fn pushes(addresses: usize) -> Program {
    let mut program = halting();
    program.opcodes[..addresses - 1].fill(0x5C);
    program
}

/// Jumps to and fro between so many addresses, and `hlt` at the last that is reached.
pub fn jumps(addresses: usize) -> Program {
    let mut program = halting();
    follow(&mut program, &to_and_fro(addresses as u8));
    program
}

/// `hlt` throughout.
fn halting() -> Program {
    Program { opcodes: [0xF8; BANK], arguments: [0; BANK] }
}

/// Puts a word at an address.
fn put(program: &mut Program, at: u8, [opcode, argument]: [u8; 2]) {
    program.opcodes[usize::from(at)] = opcode;
    program.arguments[usize::from(at)] = argument;
}

/// The numbers below this one, in their order.
pub fn upwards(count: u8) -> Vec<u8> {
    (0..count).collect()
}

/// 0, and then the others from the highest.
pub fn downwards(count: u8) -> Vec<u8> {
    [0].into_iter().chain((1..count).rev()).collect()
}

/// 0, and then the highest and the lowest of the others in turn.
fn to_and_fro(count: u8) -> Vec<u8> {
    let turn = |step: u8| if step % 2 == 1 { count - step.div_ceil(2) } else { step / 2 };
    (0..count).map(turn).collect()
}

/// 0, and then the others by steps of a prime, so that they go all over the place.
pub fn mixed(count: u8) -> Vec<u8> {
    (0..count).map(|step| (u32::from(step) * 37 % u32::from(count)) as u8).collect()
}

/// A routine of two words at each of these places, which calls the one at the next place; the last
/// returns at once, or calls the one at a place of the row.
fn chain(places: &[u8], last: Option<usize>) -> Program {
    let mut program = halting();
    let nexts = places[1..].iter().copied().map(Some).chain([last.map(|place| places[place])]);
    for (place, next) in places.iter().zip(nexts) {
        let (at, ends) = (2 * place, if *place == 0 { 0xF8 } else { 0xAC });
        put(&mut program, at, next.map_or([ends, 0x00], |next| [0xA8, 2 * next]));
        put(&mut program, at + 1, [ends, 0x00]);
    }
    program
}

/// Puts a jump from each of these addresses to the next.
fn follow(program: &mut Program, way: &[u8]) {
    for pair in way.windows(2) {
        put(program, pair[0], [0xA0, pair[1]]);
    }
}

/// A comparison, and a way through the addresses behind it in this order; its end unsettles V and
/// leads back to its beginning, so that every mark on it is lost again.
fn round(order: &[u8]) -> Program {
    let way: Vec<u8> = order.iter().map(|at| at + 1).collect();
    let behind = way.len() as u8 + 1;
    let mut program = halting();
    put(&mut program, 0, [0x24, 0x05]); // cmp R0, 5
    follow(&mut program, &[&way[..], &[behind]].concat());
    put(&mut program, behind, [0x2C, 0x01]); // mask IN, 1
    put(&mut program, behind + 1, [0xA0, way[0]]);
    program
}

/// A way through the addresses in this order, at the end of which a routine calls itself.
fn endless(order: &[u8]) -> Program {
    let behind = order.len() as u8;
    let mut program = halting();
    follow(&mut program, &[order, &[behind]].concat());
    put(&mut program, behind, [0xA8, behind + 2]);
    put(&mut program, behind + 2, [0xA8, behind + 2]);
    program
}

#[cfg(test)]
mod tests {
    use super::*;
    use reference::{hindrance, Hindrance, SheetWord};

    /// Routines and addresses drawn for a program.
    fn drawn(program: &Program) -> Option<(usize, usize)> {
        let Program { opcodes, arguments } = program;
        let drawing = cesca::draw(opcodes, arguments).ok()?;
        let words =
            drawing.sheet.chunks_exact(2).map(|pair| u16::from_le_bytes([pair[0], pair[1]]));
        let described = words.filter(|word| SheetWord(*word).described()).count();
        Some((drawing.list.len() / 2, described))
    }

    #[test]
    fn the_names_tell_the_answers() {
        for (name, program) in programs() {
            let drawn = drawn(&program).map(|(routines, _)| routines);
            let count = name.split(' ').next().and_then(|word| word.parse().ok());
            let wanted = match name {
                "listing A" => Some(2),
                "255 pushes" | "long way round" | "round, mixed" => Some(1),
                _ if name.ends_with("27") => None,
                _ => count,
            };
            assert_eq!(drawn, wanted, "{name}");
        }
    }

    #[test]
    fn what_stands_in_the_way() {
        let why = |program: &Program| hindrance(&program.opcodes, &program.arguments);
        assert_eq!(why(&chain(&mixed(120), None)), Some(Hindrance::TooManyRoutines));
        assert_eq!(why(&chain(&to_and_fro(64), Some(0))), Some(Hindrance::Recursion));
        assert_eq!(why(&endless(&to_and_fro(LONG))), Some(Hindrance::Recursion));
    }

    #[test]
    fn every_order_has_all_places_once_and_0_first() {
        for order in [upwards, downwards, to_and_fro, mixed] {
            for count in [10, 64, 120, LONG] {
                let mut places = order(count);
                assert_eq!(places[0], 0);
                places.sort();
                assert_eq!(places, upwards(count));
            }
        }
    }

    #[test]
    fn so_many_addresses_are_reached() {
        for addresses in [32, 64, 128, 255] {
            assert_eq!(drawn(&pushes(addresses)), Some((1, addresses)));
            assert_eq!(drawn(&jumps(addresses)), Some((1, addresses)));
        }
        assert_eq!(drawn(&round(&mixed(LONG))), Some((1, BANK - 1)));
    }
}
