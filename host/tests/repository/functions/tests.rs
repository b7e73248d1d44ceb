//! The functions of small files.

use super::{functions, Function};

/// Comments, a function of its own and two for others, one exported.
const MIXED: &str = "\
// pub fn none(
fn own() {}
#[unsafe(no_mangle)]
pub extern \"C\" fn c_f(x: u8) -> u8
{
    x
}
    pub fn f(
        x: u8,
    ) -> u8 {
        x
    }
";

/// A `requires` of a private function and one in a comment, between public ones.
const OF_OTHERS: &str = "\
pub fn f() -> u8
    // requires { x }
    ensures { result ≡ 0 }
{
    if true { 0 } else { 1 }
}

fn g(x: u8)
    requires { x < 3 }
{}
pub fn h() -> u8 {
    0
}
";

/// A function with these lines between signature and body.
fn with_contract(contract: &str) -> String {
    format!("// A function.\npub fn f(x: (u8, u8)) -> u8{contract}\n{{\n    x\n}}\n")
}

/// Name, whether exported, line and line of `requires` of each function.
fn messages(text: &str) -> Vec<(String, bool, usize, Option<usize>)> {
    let messages = |f: Function| (f.name, f.exported, f.line, f.requires);
    functions(text).into_iter().map(messages).collect()
}

#[test]
fn public_and_exported_functions_are_seen() {
    assert_eq!(messages(MIXED), [("c_f".into(), true, 4, None), ("f".into(), false, 8, None)]);
}

#[test]
fn a_requires_is_found_wherever_it_stands() {
    for (contract, line) in [
        ("\n    requires { x < 3 }\n    ensures { result ≡ x }", 3),
        ("\n    ensures { g {x} result }\n    requires { x < 3 }", 4),
        ("\n    other {\n        x\n    }\n    requires {\n        x\n    }", 6),
        (" requires { x }", 2),
        ("\n    ensures low { x }\n    requires small { x < 3 }", 4),
    ] {
        let text = with_contract(contract);
        assert_eq!(messages(&text), [("f".into(), false, 2, Some(line))], "{text}");
    }
}

#[test]
fn other_contracts_have_none() {
    for contract in ["", "\n    ensures { requires result }", "\n    // requires { x }"] {
        let text = with_contract(contract);
        assert_eq!(messages(&text), [("f".into(), false, 2, None)], "{text}");
    }
    assert_eq!(messages(OF_OTHERS), [("f".into(), false, 1, None), ("h".into(), false, 11, None)]);
}
