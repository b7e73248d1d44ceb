//! The names of small cells.

use super::{names, Kind, Name, Scope};
use Kind::{Argument, Field, Item, Path, Word};

/// The kinds of a cell's names.
fn kinds(cell: &str) -> Vec<Kind<'_>> {
    names(cell).into_iter().map(|name| name.kind).collect()
}

/// The scopes of a cell's names, but for the modules'.
fn scopes(cell: &str) -> Vec<Scope<'_>> {
    let names = names(cell).into_iter().filter(|name| name.kind != Kind::Module);
    names.map(|name| name.scope).collect()
}

#[test]
fn the_form_of_a_name_tells_its_kind() {
    assert_eq!(kinds("`isa`, b, `planOf`"), [Word("isa"), Word("planOf")]);
    assert_eq!(kinds("`isa/swap_d` `crates/isa/"), [Path("isa/swap_d"), Path("crates/isa/")]);
    assert_eq!(kinds("`sheets::grounds::first`"), [Item("sheets::grounds", "first")]);
    assert_eq!(kinds("`alu::{sum, plain}`"), [Item("alu", "sum"), Item("alu", "plain")]);
    assert_eq!(kinds("no name"), []);
}

#[test]
fn a_field_without_a_type_is_of_the_last_one() {
    let found = kinds("`Computes.add`, `Other` `.sub`; `Put.first` and `.last-fits`");
    let wanted = [
        Field("Computes", "add"),
        Word("Other"),
        Field("Computes", "sub"),
        Field("Put", "first"),
        Field("Put", "last-fits"),
    ];
    assert_eq!(found, wanted);
    assert_eq!(kinds("`.sub`"), [Field("", "sub")]);
}

#[test]
fn an_expression_has_a_name_and_arguments() {
    assert_eq!(kinds("`rowOf (StoreReg a b)`"), [Word("rowOf"), Argument("StoreReg")]);
    assert_eq!(kinds("`admitOf L ≡ 255`"), [Word("admitOf")]);
}

#[test]
fn a_module_is_a_scope_up_to_a_semicolon() {
    let (plan, state) = (Scope::Module(None, "Plan"), Scope::Module(None, "State"));
    assert_eq!(scopes("Plan: `a`, `b` and c, State: `d`"), [plan, plan, state]);
    assert_eq!(scopes("`a`; Plan: `b`: c, `d`; `e`"), [Scope::All, plan, plan, Scope::All]);
    let module = Name { kind: Kind::Module, scope: plan };
    assert_eq!(names("a, Plan: b"), [module]);
    for cell in ["plan: `a`", "Plan `a`", "`Plan`: `a`", "Plan:a `a`", "A-b: `a`"] {
        assert_eq!(scopes(cell).last(), Some(&Scope::All), "{cell}");
    }
}

#[test]
fn a_crate_may_stand_before_a_module() {
    let time = Scope::Module(Some("model"), "Time");
    for cell in ["model Time: `a`", "over model Time: `a`", "(model Time: `a`"] {
        assert_eq!(scopes(cell), [time], "{cell}");
    }
    assert_eq!(scopes("`model` Time: `a`"), [Scope::All, time]);
    for cell in ["in model, Time: `a`", "model; Time: `a`", "model (Time: `a`"] {
        assert_eq!(scopes(cell).len(), 1, "{cell}");
    }
    assert_eq!(scopes("in model, Time: `a`"), [Scope::Module(None, "Time")]);
    assert_eq!(scopes("`model`, Time: `a`"), [Scope::All, Scope::Module(None, "Time")]);
}

#[test]
fn an_antt_file_is_a_scope_too() {
    let file = Scope::File("a/proofs/B.antt");
    assert_eq!(scopes("`a/proofs/B.antt` (`c`); `d`"), [Scope::All, file, Scope::All]);
    assert_eq!(scopes("`a/src/lib.rt` (`c`)"), [Scope::All, Scope::All]);
}
