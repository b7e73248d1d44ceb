//! The class's page of shifts: its functions stand in the code, and keep to the form that 02 asks
//! for.

mod worked;

use crate::finding::{expect_none, messages, Finding};
use crate::source::{read, Source};

/// The page.
const PAGE: &str = "docs/SHIFTS.md";

/// The code that it shows.
const CODE: &str = "crates/alu/src/lib.rt";

/// What begins and ends a block of code on the page.
const FENCES: [&str; 2] = ["```rattle\n", "```\n"];

/// The functions that form results and carry.
const FUNCTIONS: [&str; 6] =
    ["carry_out", "shifted_left", "shift_left", "shift_right", "shift_right_signed", "rotate_left"];

/// The arms of the ALU's table that call them, as they stand in the code.
const ARMS: [&str; 4] = [
    "12 => shifted_left(x, shift_left(x)),",
    "13 => plain(shift_right(x)),",
    "14 => plain(shift_right_signed(x)),",
    "_ => shifted_left(x, rotate_left(x)),",
];

/// What their code does without: masks, shift operators, loops.
const WITHOUT: [&str; 9] = ["&", "|", "^", "!", "<<", ">>", "for ", "while ", "loop "];

/// The blocks of code on a page, each with the line of its fence.
fn blocks(page: &str) -> Vec<(usize, &str)> {
    let [open, close] = FENCES;
    let starts = page.match_indices(open).map(|(at, _)| at);
    let blocks = starts.filter_map(|at| {
        let block = page[at + open.len()..].split_once(close)?.0;
        Some((page[..at].lines().count() + 1, block))
    });
    blocks.collect()
}

/// Whether the code of a block, without comments and contracts, has one of the things that it
/// should do without.
fn strays(block: &str) -> bool {
    let told = |line: &&str| ["//", "ensures"].iter().any(|start| line.trim().starts_with(start));
    let mut code = block.lines().filter(|line| !told(line));
    code.any(|line| WITHOUT.iter().any(|token| line.contains(token)))
}

/// What is wrong with the blocks of a page: other code, another form, a function that isn't shown.
fn block_findings(page: &Source, code: &str) -> Vec<Finding> {
    let blocks = blocks(&page.text);
    let of_block = |(line, block): &(usize, &str)| {
        let other = !code.contains(&format!("\n{block}\n"));
        let wrong = [(other, "this isn't in the code"), (strays(block), "this is another form")];
        wrong.map(|(holds, what)| holds.then(|| (*line, what.to_string())))
    };
    let shown = |function: &&str| {
        blocks.iter().any(|(_, block)| block.contains(&format!("\nfn {function}(")))
    };
    let missing = FUNCTIONS.iter().filter(|function| !shown(function));
    let missing = missing.map(|function| (1, format!("{function} isn't shown")));
    let wrong = blocks.iter().flat_map(of_block).flatten().chain(missing);
    wrong.map(|(line, what)| Finding::new(&page.file, line, what)).collect()
}

#[test]
fn the_page_shows_the_code() {
    let [page, code] = [PAGE, CODE].map(read);
    expect_none(block_findings(&page, &code.text));
    for arm in ARMS {
        assert!(code.text.contains(&format!("\n        {arm}\n")), "{arm}");
    }
}

/// A page with a block of code.
fn page(block: &str) -> Source {
    Source::new("P.md", &format!("one\n\n```rattle\n{block}```\n"))
}

#[test]
fn other_code_and_another_form_are_found() {
    let block = "// sll, not <<\nfn shift_left(x: u8) -> u8\n{\n    x * 2\n}\n";
    let code = |block: &str| format!("// a\nfn other() {{}}\n\n{block}\nend\n");
    let missing = FUNCTIONS.into_iter().filter(|function| *function != "shift_left");
    let missing: Vec<String> =
        missing.map(|function| format!("P.md:1: {function} isn't shown")).collect();
    assert_eq!(messages(block_findings(&page(block), &code(block))), missing);
    let other = messages(block_findings(&page(block), &code(&block.replace("* 2", "* 3"))));
    assert_eq!(other[0], "P.md:3: this isn't in the code");
    for body in ["x << 1", "x & 127", "(x % 128) | x", "!x", "while x < 8 {}"] {
        let block = block.replace("x * 2", body);
        let found = messages(block_findings(&page(&block), &code(&block)));
        assert_eq!(found[0], "P.md:3: this is another form", "{body}");
    }
}
