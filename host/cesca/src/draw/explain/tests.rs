//! Every reason, and every variant of those that have some.

use super::explained;
use crate::{assemble, draw};
use cesca_types::{Assembled, Refusal, BANK};

/// Checks why nothing is drawn for a source.
fn check(source: &str, reason: &str) {
    let Assembled { opcodes, arguments, .. } = assemble(source.as_bytes()).expect(source);
    let refusal = draw(&opcodes, &arguments).expect_err(source);
    let general = "27: no sheet and list at all would be admitted with these banks";
    assert_eq!(refusal.to_string(), format!("{general}: {reason}"), "{source}");
    assert_eq!((refusal.number(), refusal.place()), (27, None));
}

/// A source with this line at 255, to which line 0 jumps.
fn last(line: &str) -> String {
    format!("jmp 255\n{}{line}\n", "hlt\n".repeat(254))
}

/// A routine a line, each calling the next, and the last returning; routine 0 halts.
fn chain(routines: usize) -> String {
    let calls = (1..routines - 1).map(|number| format!("call {}\nret\n", 2 * number + 2));
    format!("call 2\nhlt\n{}ret\n", calls.collect::<String>())
}

#[test]
fn jumps_to_a_register() {
    check("nop\njmp R2\n", "jmp R2 at 1 could go anywhere");
}

#[test]
fn pops_and_swaps() {
    check("nop\npop R1\n", "pop at 1, where routine 0 has nothing on the stack");
    let second = "swap at 2, where routine 0 has nothing on the stack";
    check("push R0\npop R0\nswap R0, R1\n", second);
    let own = "pop at 3, where the routine at 3 has nothing of its own on the stack";
    check("push R0\ncall caller\nhlt\ncaller: pop R0\npush R0\nret\n", own);
    let own = "swap at 2, where the routine at 2 has nothing of its own on the stack";
    check("call it\nhlt\nit: swap R0, R1\nret\n", own);
}

#[test]
fn returns() {
    check("nop\nret\n", "ret at 1, in routine 0");
    check("push R0\nret\n", "ret at 1, in routine 0");
    let one = "ret at 4, where the routine at 2 still has 1 byte on the stack";
    check("call nine\nhlt\nnine: push R2\nmov R2, 9\nret\n", one);
    let two = "ret at 4, where the routine at 2 still has 2 bytes on the stack";
    check("call two\nhlt\ntwo: push R0\npush R1\nret\n", two);
}

#[test]
fn the_last_address() {
    check(&last("nop"), "nop would go on past address 255");
    check(&last("jz 1"), "jz would go on past address 255 if it isn't taken");
    check(&last("call 1"), "call would go on past address 255 after its return");
    check(&last("push R0"), "push would go on past address 255");
}

#[test]
fn addresses_at_two_depths() {
    let growing = "address 0 is reached at depth 0 and, by jmp at 1, at depth 1";
    check("loop: push R0\njmp loop\n", growing);
    let skipped = "address 3 is reached at depth 1 and, by pop at 2, at depth 0";
    check("push R0\njz end\npop R0\nend: hlt\n", skipped);
}

#[test]
fn addresses_in_two_routines() {
    let fallen = "address 2 is reached in the routine at 2 and, by nop at 1, in routine 0";
    check("call it\nnop\nit: ret\n", fallen);
    let own = "address 1 is reached in routine 0 and, by call at 1, in the routine at 1";
    check("nop\ncall 1\nhlt\n", own);
    let shared = "address 6 is reached in the routine at 4 and, by jmp at 9, in the routine at 8";
    let two = "call 4\ncall 8\nhlt\nhlt\nnop\njmp 6\nret\nhlt\nnop\njmp 6\n";
    check(two, shared);
    // The depth differs too.
    let deeper = "address 3 is reached in the routine at 3 and, by push at 2, in routine 0";
    check("call it\nnop\npush R0\nit: ret\n", deeper);
}

#[test]
fn tests_of_v() {
    for name in ["jv", "jnv", "jlt", "jle"] {
        let reason = |at: u8| format!("{name} at {at} tests V, which may be unsettled there");
        check(&format!("{name} 1\nhlt\n"), &reason(0));
        check(&format!("cmp R0, 1\nmask R0, 1\n{name} 0\nhlt\n"), &reason(2));
        check(&format!("mov R0, R1\nor R0, R0, R1\n{name} 0\nhlt\n"), &reason(2));
        check(&format!("mov R0, 1\n{name} 0\nhlt\n"), &reason(1));
        check(&format!("cmp R0, 1\ncall it\n{name} 3\nhlt\nit: cmp R0, 1\nret\n"), &reason(2));
        check(&format!("cmp R0, 1\ncall it\nhlt\nit: {name} 4\nret\n"), &reason(3));
        // Settled on one way alone.
        check(&format!("jz 2\ncmp R0, 1\n{name} 3\nhlt\n"), &reason(2));
        // Unsettled around a loop alone.
        check(&format!("cmp R0, 1\nnop\n{name} 4\nhlt\nand R0, R0, R1\njmp 1\n"), &reason(2));
    }
}

#[test]
fn routines_that_call_themselves() {
    let direct = "the routine at 2 calls itself, by the call at 3";
    check("call it\nhlt\nit: nop\ncall it\nret\n", direct);
    check("nop\ncall 0\nhlt\n", "routine 0 calls itself, by the call at 1");
    let two = "the routine at 2 calls itself, by the calls at 2 and 4";
    check("call one\nhlt\none: call two\nret\ntwo: call one\nret\n", two);
    // The call of a routine that ends isn't told, nor the one that leads to the circle.
    let three = "the routine at 5 calls itself, by the calls at 6, 8 and 10";
    let source = "call first\nhlt\nfirst: call end\ncall one\nret\none: call end\ncall two\nret\n\
                  two: call three\nret\nthree: call one\nret\nend: ret\n";
    check(source, three);
}

#[test]
fn more_routines_than_a_list_has() {
    check(&chain(65), "there are 65 routines, and a list has 64 at most");
    check(&chain(120), "there are 120 routines, and a list has 64 at most");
    let Assembled { opcodes, arguments, .. } = assemble(chain(64).as_bytes()).expect("a chain");
    assert_eq!(draw(&opcodes, &arguments).map(|drawing| drawing.routines()), Ok(64));
}

#[test]
fn general_words_where_nothing_is_found() {
    let halting = [0xF8; BANK];
    for number in 1..=27 {
        let refusal = Refusal::of_call(number);
        assert_eq!(explained(refusal.clone(), &halting, &halting), refusal);
        assert_eq!(explained(refusal.clone(), &halting[1..], &halting), refusal);
    }
    let blank = [0; BANK];
    for number in 1..27 {
        let refusal = Refusal::of_call(number);
        assert_eq!(explained(refusal.clone(), &blank, &blank), refusal);
    }
}
