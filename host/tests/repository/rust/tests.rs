//! What small texts have.

use super::code;

/// Checks the tests of a text.
fn check(text: &str, tests: &[&str]) {
    assert_eq!(code(text).tests, tests, "{text}");
}

#[test]
fn a_function_behind_its_attribute_is_a_test() {
    check("#[test]\nfn a() {}\nfn b() {}\n#[test]\n#[should_panic]\npub fn c() {}", &["a", "c"]);
    check("#[cfg(test)]\nmod tests {\n    #[test]\n    fn a() {}\n}", &["a"]);
    check("#[allow(dead_code)]\n/// Says.\n#[test]\npub(crate) const fn a() {}", &["a"]);
    check("#![allow(dead_code)]\n#[test]\nfn a() {}", &["a"]);
}

#[test]
fn what_is_not_run_is_no_test() {
    for text in [
        "fn a() {}",
        "// #[test]\nfn a() {}",
        "/* #[test] */ fn a() {}",
        "//#[test]\n//fn a() {}",
        "#[test]\n#[ignore]\nfn a() {}",
        "#[ignore = \"slow\"]\n#[test]\nfn a() {}",
        "#[test]\n#[cfg(any())]\nfn a() {}",
        "#[test]\n#[cfg_attr(all(), ignore)]\nfn a() {}",
        "#[cfg(any())]\nmod b {\n    #[test]\n    fn a() {}\n}",
        "#![cfg(any())]\n#[test]\nfn a() {}",
        "const A: &str = \"#[test]\nfn a() {}\";",
        "#[test]\nconst A: u8 = 0;\nfn a() {}",
        "macro_rules! b {\n    () => { #[test] fn a() {} };\n}",
    ] {
        check(text, &[]);
    }
    check("#[test]\n#[ignore]\nfn a() {}\n#[test]\nfn b() {}", &["b"]);
    check("#[cfg(any())]\nmod b { fn c() {} }\n#[test]\nfn a() {}", &["a"]);
}

#[test]
fn modules_have_files_and_some_a_path() {
    let text =
        "mod a;\npub mod b;\n#[allow(x)]\n#[path = \"../c/d.rs\"]\nmod e;\npub(super) mod f;";
    let wanted = [("a", None), ("b", None), ("e", Some("../c/d.rs")), ("f", None)];
    assert_eq!(code(text).modules, wanted);
    for text in ["// mod a;", "\"\nmod a;\"", "#[cfg(any())]\nmod a;", "mod a {}", "use b::a;"] {
        assert_eq!(code(text).modules, [], "{text}");
    }
}
