//! Stores the listings that `listings/README.md` tells of and the inputs of the desk's cases, as
//! files that the desk reads. The outputs beside the inputs are worked out by hand.

#[path = "../tests/desk/cases/mod.rs"]
mod cases;
#[allow(dead_code)]
#[path = "../tests/common/described.rs"]
mod described;
#[allow(dead_code)]
#[path = "../tests/common/stored.rs"]
mod stored;

use std::fs;
use std::io;

fn main() -> io::Result<()> {
    for file in described::described() {
        fs::write(described::file(&file.name), file.listing.file())?;
    }
    for (name, input) in cases::cases() {
        fs::write(stored::path("tests/desk").join(name).with_extension("in"), input)?;
    }
    Ok(())
}
