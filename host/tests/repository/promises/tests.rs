//! The checks on small tables.

use super::{missing, unnamed};
use crate::finding::messages;
use crate::known::tests::known;
use crate::known::Known;
use crate::source::Source;

/// A repository with something of each kind.
fn small() -> Known {
    known(&[
        ("crates/alu/src/lib.rt", "pub fn sum() {}\npub enum Flag {\n    Clear,\n}\n"),
        (
            "crates/alu/specs/Alu.antt",
            "pub record R : Type 0 where\n  pub f : R\nabbrev pub sumOf : R\n",
        ),
        ("crates/alu/proofs/Laws.antt", "sum-is : sumOf 0 ≡ 0\n"),
        ("crates/alu/must-fail/no_carry.edit", ""),
        ("crates/isa/src/lib.rt", "pub extern \"C\" fn c_decode() {}\n"),
        ("crates/isa/specs/Alu.antt", "abbrev pub rowOf : R\n"),
        ("crates/isa/must-fail/swap_d.edit", ""),
        ("crates/vectors/stdout", "nop at 255: 13\n"),
        ("crates/examples/specs/Listings.antt", "case A 13 255\n"),
        ("host/tests/run/main.rs", "mod shared;\nmod worked;\n"),
        ("host/tests/run/shared.rs", "fn shared() {}\n"),
        ("host/tests/run/worked.rs", "#[test]\nfn it_runs() {}\n"),
        ("host/tests/run/left_out.rs", "#[test]\nfn it_does_not_run() {}\n"),
        ("host/tests/run/worked.txt", "halted, budget 0: halted\nswap: halted\n"),
    ])
}

/// The text of a table with one row below this heading, on line 3.
fn table(heading: &str, cell: &str) -> Source {
    Source::new("P.md", &format!("| {heading} |\n|---|\n| {cell} |\n"))
}

/// What isn't there of a cell below this heading.
fn found(heading: &str, cell: &str) -> Vec<String> {
    messages(missing(&table(heading, cell), &small()))
}

/// Checks that just this is told of a cell below this heading.
fn check(heading: &str, cell: &str, what: &str) {
    assert_eq!(found(heading, cell), [format!("P.md:3: {what}")], "{cell}");
}

#[test]
fn an_edit_that_is_not_named_is_found() {
    let found = |text: &str| messages(unnamed(&Source::new("P.md", text), &small()));
    assert_eq!(found("`alu/no_carry`\n| a | `isa/swap_d` |"), [""; 0]);
    let wanted = ["crates/isa/must-fail/swap_d.edit:1: P.md doesn't name it"];
    assert_eq!(found("`alu/no_carry`, `swap_d`, isa/swap_d"), wanted);
    assert_eq!(found("` `alu/no_carry`\n`isa/swap_d`").len(), 1);
}

#[test]
fn what_carries_a_promise_is_there() {
    for cell in [
        "`alu`, `crates/alu/src`, `alu/proofs/Laws.antt` (`sum-is`), `host/tests/run/`",
        "`alu/no_carry`, `alu::{sum, Flag}`, `alu::Flag::Clear`, `c_decode`",
        "`R.f`, `.f`, `sumOf`, `R`, `Clear`; isa Alu: `rowOf (Clear x)`, `rowOf`",
    ] {
        for heading in ["contract", "code", "ruled out", "here"] {
            assert_eq!(found(heading, cell), [""; 0], "{heading}: {cell}");
        }
        assert_eq!(messages(missing(&Source::new("P.md", cell), &small())), [""; 0]);
    }
}

#[test]
fn a_path_that_is_gone_is_found() {
    for path in ["alu/lost_one", "crates/lost/src", "proofs/Laws.antt", "alu/src/a.rt", "run/a"] {
        check(
            "code",
            &format!("`{path}`"),
            &format!("`{path}` is no file, folder or must-fail edit"),
        );
    }
}

#[test]
fn an_item_that_is_gone_is_found() {
    for item in ["alu::lost", "isa::sum", "sum::sum", "alu::sumOf", "alu::Flag::Set", "alu::*"] {
        check("code", &format!("`{item}`"), &format!("`{item}` isn't in its crate's source"));
    }
    check("code", "`alu::{sum, lost}`", "`alu::lost` isn't in its crate's source");
}

#[test]
fn a_definition_that_is_gone_is_found() {
    for name in ["lost", "f", "sum", "no_carry", "sum-is", "u8", "R.g", "S.f", "Set"] {
        check("code", &format!("`{name}`"), &format!("`{name}` isn't defined"));
    }
    check("definition", "Alu: `rowOf`, `lost`", "`lost` isn't in Alu");
    check("definition", "isa Alu: `sumOf`", "`sumOf` isn't in isa Alu");
    check("definition", "alu Alu: `R.f`, `R.g`", "`R.g` isn't in alu Alu");
    check("definition", "Alu: `rowOf (Lost x)`", "`Lost` isn't defined");
    check("definition", "Laws: a", "no module Laws");
    check("definition", "over Alu: a", "no module over Alu");
    check("code", "`alu/proofs/Laws.antt`, `sumOf`", "`sumOf` isn't in alu/proofs/Laws.antt");
}

#[test]
fn a_definition_stands_behind_its_module() {
    for cell in ["`alu` Alu: `sumOf`, `f`, `Clear`", "Alu: `R.f`; `alu::Flag`, `alu`", "the same"] {
        assert_eq!(found("definition", cell), [""; 0], "{cell}");
    }
    check("definition", "`sumOf`", "`sumOf` stands behind no module");
    check("where it is said", "Alu: `R`; `R.f`", "`R.f` stands behind no module");
}

#[test]
fn a_test_that_is_gone_is_found() {
    let there = "run/worked.rs \"swap\", \"halted, budget 0\", vectors \"nop at 255\", `run/`";
    assert_eq!(found("test", there), [""; 0]);
    assert_eq!(found("test", "host/tests/run, run/worked.rs, run/worked.txt, vectors"), [""; 0]);
    for test in ["host", "worked.rs", "alu", "crates/alu", "run/lost.rs", "it_runs", "run/ of a"] {
        check("test", test, &format!("{test} is no test"));
    }
    check("test", "run/worked.rs \"lost\"", "run/worked.rs has no case \"lost\"");
    check("test", "run/worked.rs \"swap\", \"lost\"", "run/worked.rs has no case \"lost\"");
    check("test", "run/ \"swap\"", "run/ has no case \"swap\"");
    check("test", "\"swap\"", "swap is no test");
}

#[test]
fn a_test_that_is_not_run_is_found() {
    for test in ["run/left_out.rs", "run/shared.rs"] {
        check("test", test, &format!("{test} has no test that is run"));
    }
    assert_eq!(found("code", "`host/tests/run/shared.rs`, `host/tests/run`"), [""; 0]);
    check("code", "`host/tests/run/left_out.rs`", "`host/tests/run/left_out.rs` isn't run");
}

#[test]
fn an_answer_that_no_example_has_is_found() {
    for cell in ["13", "13 at 255, 13", "all", ""] {
        assert_eq!(found("example", cell), [""; 0], "{cell}");
    }
    check("example", "13, 12 at 3", "no example is answered 12 at 3");
}

#[test]
fn words_of_the_papers_are_no_names() {
    for heading in ["sentence", "line", "misreading", "place in 01"] {
        assert_eq!(found(heading, "\"`hlt` leaves PC\", `let .. else`, Masks: `and`"), [""; 0]);
    }
}

#[test]
fn a_cell_that_cannot_be_read_is_found() {
    check("lost", "`sumOf`", "no rule for the column \"lost\"");
    check("code", "`alu", "a backquote without another");
    check("test", "run/worked.rs \"swap", "a quote without another");
}
