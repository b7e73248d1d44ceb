//! What small files give names to.

use super::Known;
use crate::source::Source;

/// A repository of these files, all of them read.
pub fn known(files: &[(&str, &str)]) -> Known {
    let sources = files.iter().map(|(file, text)| Source::new(file, text));
    let paths = files.iter().map(|(file, _)| file.to_string());
    Known::of(paths, &sources.collect::<Vec<_>>())
}

#[test]
fn files_folders_and_crates_have_paths() {
    let known = known(&[("crates/isa/specs/internal/A.antt", ""), ("listings/a.bin", "")]);
    for path in ["crates/isa", "isa/specs/", "isa/specs/internal/A.antt", "listings/a.bin"] {
        assert!(known.has_path(path), "{path}");
    }
    for path in ["isa/A.antt", "specs/internal/A.antt", "listings/a", "listings/b.bin", "s"] {
        assert!(!known.has_path(path), "{path}");
    }
    assert!(known.has_crate("isa") && !known.has_crate("specs") && !known.has_crate("a.bin"));
}

#[test]
fn edits_are_named_with_their_crates() {
    let known = known(&[("crates/isa/must-fail/swap_d.edit", ""), ("crates/isa/src/a.edit", "")]);
    assert_eq!(known.edits().collect::<Vec<_>>(), ["isa/swap_d"]);
    assert!(known.has_edit("isa/swap_d") && !known.has_edit("swap_d"));
}

#[test]
fn items_are_named_with_crate_and_modules() {
    let known = known(&[
        ("crates/isa/src/lib.rt", "pub extern \"C\" fn c_f() {}\nenum Class {\n    Pop,\n}\n"),
        ("crates/isa/src/inner/deep.rt", "fn f() {}\nstruct Pop;\n"),
        ("crates/desk/src/main.rt", "fn main() {}"),
    ]);
    for item in ["isa::c_f", "isa::Class::Pop", "isa::inner::deep::f", "desk::main"] {
        assert!(known.has_item(item), "{item}");
    }
    assert!(!known.has_item("isa::f") && !known.has_item("main"));
    assert!(known.has_export("c_f") && !known.has_export("f"));
    assert_eq!(known.with_type("Class").collect::<Vec<_>>(), ["isa"]);
    assert_eq!(known.with_type("Pop").count(), 2);
    assert_eq!(known.with_type("f").count(), 0);
}

#[test]
fn antt_files_are_modules() {
    let known = known(&[
        ("crates/isa/specs/internal/A.antt", "pub record R : Type 0 where\n  pub f : R\n"),
        ("crates/alu/proofs/f/Proof.antt", "law : f\n"),
    ]);
    let found = known.modules().map(|m| (m.of.as_str(), m.name.as_str(), m.is_specs));
    assert_eq!(found.collect::<Vec<_>>(), [("isa", "A", true), ("alu", "Proof", false)]);
    assert!(known.modules().all(|module| !module.definitions.names.is_empty()));
}

#[test]
fn tests_are_run_and_have_cases() {
    let known = known(&[
        ("host/tests/run/main.rs", "mod a;\nmod b;\n"),
        ("host/tests/run/a.rs", "#[test]\nfn it_runs() {}\n"),
        ("host/tests/run/b.rs", ""),
        ("host/tests/run/a.txt", "push at SP 0: halted\nnone\n"),
        ("crates/vectors/stdout", "nop at 255: 13 at 255\n"),
    ]);
    assert!(known.running().has_test("host/tests/run/a.rs"));
    assert!(!known.running().has_test("host/tests/run/b.rs"));
    assert!(known.has_case("host/tests/run/a.txt", "push at SP 0"));
    assert!(known.has_case("crates/vectors/stdout", "nop at 255"));
    assert!(!known.has_case("host/tests/run/a.txt", "none"));
    assert!(!known.has_case("host/tests/run/a.txt", "push"));
}

#[test]
fn examples_have_answers() {
    let text = "case L n p = x\n  case A 0 0\n  ∷ case (of (0 ∷ 255 ∷ [])) 13 255\n  ∷ w 4 5\n";
    let known = known(&[("crates/examples/specs/Listings.antt", text)]);
    for answer in ["0", "0 at 0", "13", "13 at 255"] {
        assert!(known.has_answer(answer), "{answer}");
    }
    assert!(!known.has_answer("255") && !known.has_answer("4") && !known.has_answer("13 at 0"));
}
