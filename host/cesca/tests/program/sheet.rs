//! `cesca sheet`.

use crate::sandbox::{expect_err, expect_out, stored, Ran, Sandbox};

/// Fails unless a refused listing's sheet is this.
fn expect_refused(found: Ran, out: &str) {
    assert_eq!(found, Ran { status: 1, out: out.to_string(), err: String::new() });
}

/// A blank line and the heading of the addresses, with a bar so wide.
fn heading(width: usize) -> String {
    format!("\n at  routine  depth  {}  V  instruction\n", " ".repeat(width))
}

#[test]
fn listing_a() {
    let sandbox = Sandbox::new("sheet-a").with_stored(&["a.bin"]);
    let out = "\
routine 0 at 0 need 2
routine 1 at 4 need 1
admitted need 2

 at  routine  depth     V  instruction
  0        0      0     -  mov R0, 5
  1        0      0     -  call 4
  2        0      0     -  mov OUT, R0
  3        0      0     -  hlt
  4        1      0     -  push R2
  5        1      1  #  -  add R0, R0, 1
  6        1      1  #  V  pop R2
  7        1      0     V  ret
";
    expect_out(sandbox.cesca(&["sheet", "a.bin"]), out);
    expect_out(sandbox.cesca_given(&["sheet", "-"], stored("a.bin")), out);
}

#[test]
fn the_address_of_a_refusal_is_marked() {
    let sandbox = Sandbox::new("sheet-refused").with_stored(&["forgotten-pop.bin", "masked.bin"]);
    let forgotten = "\
routine 0 at 0 need 2
routine 1 at 2 need 1
refused 12 at 4: ret with 1 byte of routine 1 still on the stack

 at  routine  depth     V  instruction
  0        0      0     -  call 2
  1        0      0     -  hlt
  2        1      0     -  push R2
  3        1      1  #  -  mov R2, 9
  4        1      1  #  -  ret <
";
    expect_refused(sandbox.cesca(&["sheet", "forgotten-pop.bin"]), forgotten);
    let masked = "\
routine 0 at 0 need 0
refused 16 at 2: mask leads to address 3, which marks V although V may be unsettled

 at  routine  depth    V  instruction
  0        0      0    -  mov R0, 100
  1        0      0    -  cmp R0, 50
  2        0      0    V  mask R0, 15 <
  3        0      0    V  jlt 5
  4        0      0    -  hlt
  5        0      0    -  hlt
";
    expect_refused(sandbox.cesca(&["sheet", "masked.bin"]), masked);
}

#[test]
fn the_routine_of_a_refusal_is_marked() {
    let start = "routine 0 at 1 need 0\n1 8000 F8 00 hlt";
    let entry = "routine 0 at 0 need 0\nroutine 1 at 7 need 9\nroutine 2 at 0 need 1\n\
                 0 8000 F8 00 hlt";
    let sandbox = Sandbox::new("sheet-routines");
    let sandbox = sandbox.with_listing("start.bin", start).with_listing("entry.bin", entry);
    let line = |at: u8| format!("  {at}        0      0    -  hlt\n");
    let routines = "routine 0 at 1 need 0 <\nrefused 6 at 0: routine 0 begins at 1\n";
    let out = format!("{routines}{}{}", heading(0), line(1));
    expect_refused(sandbox.cesca(&["sheet", "start.bin"]), &out);
    let routines = "routine 0 at 0 need 0\nroutine 1 at 7 need 9 <\nroutine 2 at 0 need 1\n\
                    refused 7 at 1: routine 1 begins at 7, which is not described\n";
    let out = format!("{routines}{}{}", heading(0), line(0));
    expect_refused(sandbox.cesca(&["sheet", "entry.bin"]), &out);
}

#[test]
fn a_marked_address_is_shown_though_not_described() {
    let text = "routine 0 at 0 need 9\n0 8000 F8 00 hlt\n8 8002 F8 00 hlt\n9 4005 30 05 mov R0, 5";
    let sandbox = Sandbox::new("sheet-undescribed").with_listing("mine.bin", text);
    let out = "\
routine 0 at 0 need 9
refused 4 at 9: address 9 is not described, yet its sheet word is 4005

 at  routine  depth      V  instruction
  0        0      0      -  hlt
  8        0      2  ##  -  hlt
  9        -      -      -  mov R0, 5 <
";
    expect_refused(sandbox.cesca(&["sheet", "mine.bin"]), out);
}

#[test]
fn a_routine_that_is_not_in_the_list() {
    let text = "routine 0 at 0 need 0\n0 8000 F8 00 hlt\n3 FF03 F8 00 hlt";
    let sandbox = Sandbox::new("sheet-unlisted").with_listing("mine.bin", text);
    let out = "\
routine 0 at 0 need 0
refused 5 at 3: address 3 names routine 63, and the list has 1 routine

 at  routine  depth       V  instruction
  0        0      0       -  hlt
  3       63      3  ###  V  hlt <
";
    expect_refused(sandbox.cesca(&["sheet", "mine.bin"]), out);
}

#[test]
fn deep_stacks() {
    let sandbox = Sandbox::new("sheet-deep").with_stored(&["pushes.bin"]);
    let found = sandbox.cesca(&["sheet", "pushes.bin"]);
    let lines: Vec<&str> = found.out.lines().collect();
    assert_eq!((found.status, lines.len()), (0, 5 + 256));
    let head = ["routine 0 at 0 need 255", "admitted need 255", "", "a # is 8 bytes"];
    assert_eq!(lines[..4], head);
    let bars = [(0, 0), (1, 1), (8, 1), (9, 2), (16, 2), (127, 16), (248, 31), (249, 32)];
    for (depth, characters) in bars {
        let bar = "#".repeat(characters);
        let line = format!("{depth:>3}        0    {depth:>3}  {bar:32}  -  push R0");
        assert_eq!(lines[5 + depth], line);
    }
    let hlt = "255        0    255  ################################  -  hlt";
    assert_eq!(lines[260], hlt);
}

#[test]
fn the_longest_line_is_below_80_characters() {
    let text = "routine 0 at 0 need 255\n0-254 8000+ 5C 00 push R0\n\
                255 80FF 20 41 subb NONE, R0, R1";
    let sandbox = Sandbox::new("sheet-longest").with_listing("mine.bin", text);
    let found = sandbox.cesca(&["sheet", "mine.bin"]);
    let line = "255        0    255  ################################  -  subb NONE, R0, R1 <";
    assert_eq!(found.out.lines().last(), Some(line));
    assert!(found.out.lines().all(|line| line.len() < 80));
    let refused = "refused 13 at 255: subb would go on past address 255";
    assert_eq!((found.status, found.out.lines().nth(1)), (1, Some(refused)));
}

#[test]
fn files_that_are_no_listing() {
    let sandbox =
        Sandbox::new("sheet-lengths").with("short.bin", [0; 1023]).with("long.bin", [0; 2000]);
    let short = "refused 2 at 0: the sheet has 511 bytes, not 512\n";
    expect_refused(sandbox.cesca(&["sheet", "short.bin"]), short);
    let long = "refused 3 at 0: the routine list has more than 128 bytes\n";
    expect_refused(sandbox.cesca(&["sheet", "long.bin"]), long);
    expect_err(sandbox.cesca(&["sheet", "none"]), 2, "none: No such file or directory\n");
}
