//! A loader: admits the listing in a file and runs it with the keys named behind it:
//! `cargo run --example load -- ../listings/multiply.bin 1 2 3`.

use cesca::{Listing, MOST_STEPS};
use std::env;
use std::error::Error;
use std::fs;

fn main() -> Result<(), Box<dyn Error>> {
    let mut words = env::args().skip(1);
    let file = words.next().ok_or("name a listing's file")?;
    let keys = words.map(|word| word.parse()).collect::<Result<Vec<u8>, _>>()?;
    let admitted = match Listing::from_bytes(&fs::read(file)?).and_then(|listing| listing.admit()) {
        Ok(admitted) => admitted,
        Err(refusal) => {
            println!("refused {refusal}");
            return Ok(());
        }
    };
    let report = admitted.board().run(&keys, MOST_STEPS)?;
    println!("{} after {} steps, OUT {}", report.stop, report.steps, report.state.out);
    Ok(())
}
