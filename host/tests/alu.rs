//! The ALU on every function, pair of operands and carry, the library beside the reference.

use cesca::{alu, AluAnswer, Overflow};
use reference::Function;

/// Every byte with every byte.
fn pairs() -> impl Iterator<Item = (u8, u8)> {
    (0..=255).flat_map(|x| (0..=255).map(move |y| (x, y)))
}

/// Every byte with every byte and both carries.
fn operands() -> impl Iterator<Item = (u8, u8, bool)> {
    pairs().flat_map(|(x, y)| [(x, y, false), (x, y, true)])
}

#[test]
fn every_function_on_all_operands() {
    for (number, function) in (0..).zip(Function::ALL) {
        for (x, y, c) in operands() {
            let wanted = reference::alu(function, x, y, c);
            let found = alu(number, x, y, c);
            assert_eq!(found, wanted, "{function:?} {x}, {y} with C {c}");
        }
    }
}

#[test]
fn mov_yields_rb_with_c_and_v_clear() {
    for (x, y, c) in operands() {
        let wanted = AluAnswer { value: y, z: y == 0, c: false, s: y > 127, v: Overflow::Clear };
        assert_eq!(alu(0, x, y, c), wanted, "mov {x}, {y} with C {c}");
    }
}

#[test]
fn functions_past_the_last_are_rol() {
    for number in 16..=255 {
        for (x, y, c) in operands().step_by(251) {
            let wanted = reference::alu(Function::Rol, x, y, c);
            let found = alu(number, x, y, c);
            assert_eq!(found, wanted, "function {number} on {x}, {y} with C {c}");
        }
    }
}

/// Function 1111 of Ra's byte, Rb's byte and the carry flag before.
type Rol = fn(u8, u8, bool) -> AluAnswer;

/// Who computes it, by name.
const ROLS: [(&str, Rol); 2] = [
    ("the library", |x, y, c| alu(15, x, y, c)),
    ("the reference", |x, y, c| reference::alu(Function::Rol, x, y, c)),
];

/// The byte after rols in a row; bit k of `flags` is the carry flag behind k of them, and Rb's byte
/// changes too.
fn rolled(rol: Rol, byte: u8, flags: u8, rols: u32) -> u8 {
    (0..rols).fold(byte, |byte, k| rol(byte, flags.rotate_left(k), flags >> k & 1 == 1).value)
}

#[test]
fn eight_rols_in_a_row_give_every_byte_back_whatever_the_carry() {
    for (name, rol) in ROLS {
        for (byte, flags) in pairs() {
            assert_eq!(rolled(rol, byte, flags, 8), byte, "{name}, C {flags:08b}");
        }
    }
}

#[test]
fn fewer_rols_turn_a_byte_by_as_many_places() {
    for (name, rol) in ROLS {
        for (byte, rols) in (0..=255u8).flat_map(|byte| (1..8).map(move |rols| (byte, rols))) {
            let found = rolled(rol, byte, byte, rols);
            assert_eq!(found, byte.rotate_left(rols), "{name}, {rols} of {byte}");
        }
    }
}

/// Checks a marked row; `set` names the flags that are set, in the order Z, C, S.
fn check(function: Function, x: u8, y: u8, carry: bool, value: u8, set: &str, v: Overflow) {
    let [z, c, s] = ['Z', 'C', 'S'].map(|flag| set.contains(flag));
    let wanted = AluAnswer { value, z, c, s, v };
    let found = alu(function as u8, x, y, carry);
    assert_eq!(found, wanted, "{function:?} {x}, {y} with C {carry}");
}

#[test]
fn marked_rows() {
    use Overflow::{Clear, Set, Unsettled};
    check(Function::Add, 127, 1, false, 128, "S", Set); // M1
    check(Function::Sub, 0, 1, false, 255, "CS", Clear); // M2
    check(Function::Sub, 128, 1, false, 127, "", Set); // M3
    check(Function::Subb, 5, 5, true, 255, "CS", Clear); // M4
    check(Function::Addc, 255, 0, true, 0, "ZC", Clear); // M5
    check(Function::Rol, 129, 0, false, 3, "C", Unsettled); // M6
    check(Function::Sra, 128, 0, false, 192, "S", Unsettled); // M7
}
