//! The stored listings beside source and text in their README. `cargo run --example store` stores
//! them.

#[path = "common/described.rs"]
mod described;
#[path = "common/formerly.rs"]
mod formerly;
#[path = "common/stored.rs"]
mod stored;

use cesca::{admit, assemble, draw, shelve_into, Assembled, Drawing, Refusal, BANK, SHELF};
use described::{described, file, Described};
use formerly::admit_formerly;
use reference::Listing;
use stored::{names, path, read, text};

/// The answer that a printed text stands for.
fn answer(printed: &str) -> Result<(), u32> {
    let Some(refused) = printed.strip_prefix("refused ") else { return Ok(()) };
    let (number, place) = refused.trim_end().split_once(" at ").expect("a number and a place");
    let [number, place] = [number, place].map(|digits| digits.parse::<u32>().expect("digits"));
    Err(number + 256 * place)
}

/// The files that are said to be admitted.
fn admitted() -> impl Iterator<Item = Described> {
    described().into_iter().filter(|file| answer(&file.printed).is_ok())
}

/// The files that are said to be refused.
fn refused() -> impl Iterator<Item = Described> {
    described().into_iter().filter(|file| answer(&file.printed).is_err())
}

/// The listing that is described under a name.
fn listing(name: &str) -> Listing {
    let mut files = described().into_iter();
    files.find(|file| file.name == name).expect(name).listing
}

/// The row of a file in the README's tables.
fn row<'a>(readme: &'a str, name: &str) -> &'a str {
    let start = format!("| [{name}.bin]");
    readme.lines().find(|line| line.starts_with(&start)).expect("a row a file")
}

/// What stands in a column of a row, the first being 0.
fn cell(row: &str, column: usize) -> &str {
    row.split(" | ").nth(column).expect("a column")
}

/// What is drawn from a listing's banks.
fn drawing(listing: &Listing) -> Result<Drawing, Refusal> {
    draw(&listing.opcodes, &listing.arguments)
}

#[test]
fn each_file_is_described() {
    let mut wanted: Vec<String> = described().into_iter().map(|file| file.name).collect();
    wanted.sort();
    assert_eq!(names(&path("../listings"), ".bin"), wanted);
    assert!(wanted.len() >= 7, "{wanted:?}");
}

#[test]
fn each_file_holds_the_listing_that_is_described() {
    for Described { name, listing, .. } in described() {
        assert!(read(&file(&name)) == listing.file(), "{name}.bin is another listing");
    }
}

#[test]
fn each_source_is_assembled_to_the_banks_of_its_file() {
    for Described { name, source, .. } in described() {
        let assembled = assemble(source.as_bytes());
        let Assembled { opcodes, arguments, words } =
            assembled.unwrap_or_else(|refusal| panic!("{name}: {refusal}"));
        let banks = [opcodes, arguments].concat();
        assert!(read(&file(&name))[..2 * BANK] == banks, "{name}.bin has other banks");
        assert_eq!(words, source.lines().count(), "{name}: each line stands for a word");
    }
    assert_eq!(names(&path("../listings"), ".txt"), ["pushes"], "others stand in the README");
}

#[test]
fn listing_a_is_the_papers() {
    assert!(read(&file("a")) == Listing::a().file());
}

#[test]
fn the_tables_show_what_is_described() {
    let readme = text(&path("../listings/README.md"));
    for Described { name, printed, .. } in described() {
        let row = row(&readme, &name);
        let last = printed.lines().last().expect("a line");
        assert!(row.ends_with(&format!("| `{last}` |")), "{row}");
        let need = printed.lines().find_map(|line| line.strip_prefix("admitted need "));
        if let Some(need) = need {
            assert_eq!(cell(row, 2), need, "{row}");
        }
    }
}

#[test]
fn the_tables_show_the_lengths_of_shelf_files() {
    let readme = text(&path("../listings/README.md"));
    let mut shorter = 0;
    for Described { name, listing, .. } in described() {
        let Listing { opcodes, arguments, sheet, list } = &listing;
        let length = shelve_into(opcodes, arguments, sheet, list, &mut [0; SHELF]);
        let length = length.expect("a listing's parts");
        let told = cell(row(&readme, &name), 3).replace(',', "");
        assert_eq!(told, length.to_string(), "{name}");
        shorter += u32::from(length < listing.file().len());
    }
    assert_eq!(shorter, 17, "all but that of pushes are shorter than the listing");
}

#[test]
fn the_references_print_what_is_described() {
    for Described { name, printed, .. } in described() {
        assert_eq!(reference::desk(&read(&file(&name))), printed, "{name}");
    }
}

#[test]
fn the_library_answers_what_is_described() {
    for Described { name, listing, printed, .. } in described() {
        let Listing { opcodes, arguments, sheet, list } = &listing;
        let found = admit(opcodes, arguments, sheet, list);
        assert_eq!(found.map_err(|refusal| refusal.answer()), answer(&printed), "{name}");
    }
}

#[test]
fn the_needs_of_what_is_admitted_are_the_least() {
    let (mut drawn, mut more_marks) = (0, 0);
    for Described { name, listing, .. } in admitted() {
        let Drawing { sheet, list } = drawing(&listing).expect(&name);
        assert_eq!(list, listing.list, "{name}");
        for (at, (found, own)) in sheet.iter().zip(&listing.sheet).enumerate() {
            // V may be marked in more places: 40 of a word's high byte.
            let more = if at % 2 == 1 && *own != 0 { 0x40 } else { 0 };
            assert_eq!(*found | more, *own | more, "{name}: byte {at} of the sheet");
            assert!(*found >= *own, "{name}: V isn't marked by byte {at}");
        }
        drawn += 1;
        more_marks += u32::from(sheet[..] != listing.sheet);
    }
    assert_eq!(drawn, 11);
    assert!(more_marks > 1, "V is marked at more addresses in {more_marks} listings");
}

#[test]
fn absolute_has_the_sheet_that_is_drawn() {
    let absolute = listing("absolute");
    assert_eq!(drawing(&absolute).expect("a drawing").sheet[..], absolute.sheet);
}

#[test]
fn exchanged_was_refused_before_request_4_and_is_admitted_without_its_marks() {
    let exchanged = listing("exchanged");
    assert_eq!(admit_formerly(&exchanged), Err(Refusal::of_listing(16, 2)));
    let unmarked = (3..=6).fold(exchanged, |listing, at| listing.with_sheet(at, 0x8000));
    assert_eq!(admit_formerly(&unmarked), Ok(()));
    let Listing { opcodes, arguments, sheet, list } = &unmarked;
    assert_eq!(admit(opcodes, arguments, sheet, list), Ok(()));
}

#[test]
fn what_is_refused_is_drawn_as_the_table_says() {
    let readme = text(&path("../listings/README.md"));
    let mut told = Vec::new();
    for Described { name, listing, .. } in refused() {
        let row = row(&readme, &name);
        let found = match drawing(&listing) {
            Ok(drawing) => format!("need {}", drawing.list[1]),
            Err(refusal) => refusal.number().to_string(),
        };
        assert_eq!(cell(row, 2), found, "{row}");
        told.push(found);
    }
    told.sort();
    assert_eq!(told, ["27", "27", "27", "27", "27", "27", "need 4"]);
}

#[test]
fn the_desk_prints_what_is_described() {
    for Described { name, printed, .. } in described() {
        assert_eq!(stored::desk(&file(&name)), printed, "{name}");
    }
}
