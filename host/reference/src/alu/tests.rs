//! Results and flags worked out by hand.

use super::*;
use Overflow::{Clear, Set, Unsettled};

/// Checks a function's result, C and V; Z and S must follow the result.
fn check(function: Function, x: u8, y: u8, carry: bool, value: u8, c: bool, v: Overflow) {
    let (z, s) = (value == 0, value > 127);
    let wanted = AluAnswer { value, z, c, s, v };
    let found = alu(function, x, y, carry);
    assert_eq!(found, wanted, "{function:?} {x}, {y} with C {carry}");
}

#[test]
fn every_function_on_one_pair() {
    // Ra 1100_1010, 202 or -54; Rb 1010_0110, 166 or -90; the carry flag is set before.
    let on_pair = |function, value, c, v| check(function, 0xCA, 0xA6, true, value, c, v);
    on_pair(Function::Mov, 0xA6, false, Clear);
    on_pair(Function::Add, 112, true, Set);
    on_pair(Function::Sub, 36, false, Clear);
    on_pair(Function::Addc, 113, true, Set);
    on_pair(Function::Subb, 35, false, Clear);
    on_pair(Function::And, 0b1000_0010, false, Unsettled);
    on_pair(Function::Or, 0b1110_1110, false, Unsettled);
    on_pair(Function::Not, 0b0011_0101, false, Unsettled);
    on_pair(Function::Xor, 0b0110_1100, false, Unsettled);
    on_pair(Function::Nand, 0b0111_1101, false, Unsettled);
    on_pair(Function::Nor, 0b0001_0001, false, Unsettled);
    on_pair(Function::Xnor, 0b1001_0011, false, Unsettled);
    on_pair(Function::Sll, 0b1001_0100, true, Unsettled);
    on_pair(Function::Srl, 0b0110_0101, false, Unsettled);
    on_pair(Function::Sra, 0b1110_0101, false, Unsettled);
    on_pair(Function::Rol, 0b1001_0101, true, Unsettled);
}

#[test]
fn a_carry_taken_in_counts_for_overflow() {
    check(Function::Addc, 127, 0, true, 128, false, Set);
    check(Function::Addc, 127, 255, true, 127, true, Clear);
    check(Function::Addc, 128, 255, true, 128, true, Clear);
    check(Function::Subb, 128, 0, true, 127, false, Set);
    check(Function::Subb, 0, 127, true, 128, true, Clear);
    check(Function::Subb, 0, 128, false, 128, true, Set);
    check(Function::Subb, 0, 128, true, 127, true, Clear);
}

#[test]
fn mov_clears_v_whatever_moves() {
    for carry in [false, true] {
        check(Function::Mov, 0x80, 0, carry, 0, false, Clear);
        check(Function::Mov, 0, 127, carry, 127, false, Clear);
        check(Function::Mov, 127, 128, carry, 128, false, Clear);
        check(Function::Mov, 255, 255, carry, 255, false, Clear);
    }
}

#[test]
fn v_is_settled_after_the_functions_that_give_it_a_value() {
    for function in Function::ALL {
        let settled = alu(function, 0xCA, 0xA6, true).v != Unsettled;
        assert_eq!(function.settles_overflow(), settled, "{function:?}");
    }
}

#[test]
fn zero_and_the_shifted_bit() {
    check(Function::Add, 255, 1, false, 0, true, Clear);
    check(Function::Add, 128, 128, true, 0, true, Set);
    check(Function::Sub, 5, 5, true, 0, false, Clear);
    check(Function::Sll, 128, 0, false, 0, true, Unsettled);
    check(Function::Sll, 64, 255, true, 128, false, Unsettled);
    check(Function::Srl, 1, 0, true, 0, false, Unsettled);
    check(Function::Sra, 127, 0, true, 63, false, Unsettled);
    check(Function::Rol, 64, 0, true, 128, false, Unsettled);
}

#[test]
fn numbers_over_the_last_name_the_last() {
    assert_eq!(Function::from_number(0), Function::Mov);
    assert_eq!(Function::from_number(15), Function::Rol);
    assert_eq!(Function::from_number(16), Function::Rol);
    assert_eq!(Function::from_number(255), Function::Rol);
}
