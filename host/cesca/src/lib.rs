//! CESCA's admission desk and machine for Rust programs, decided by the proved library.
//!
//! A loader reads a [`Listing`], has it [admitted](Listing::admit) and runs it on a [`Board`]:
//!
//! ```no_run
//! use cesca::{Listing, MOST_STEPS};
//!
//! fn main() -> Result<(), Box<dyn std::error::Error>> {
//!     let admitted = Listing::from_bytes(&std::fs::read("listing.bin")?)?.admit()?;
//!     println!("needs {} bytes of stack", admitted.need());
//!     let mut board = admitted.board();
//!     let report = board.run(&[1, 2, 3], MOST_STEPS)?;
//!     println!("{} after {} steps, OUT {}", report.stop, report.steps, report.state.out);
//!     println!("LCD {:?}", board.roll());
//!     Ok(())
//! }
//! ```
//!
//! A listing written as text, with its sheet, is read by [`Listing::from_text`]; a text that is no
//! listing gives a [`TextError`]. A [`Refusal`] has a number, a place and words. Listing A of the
//! scope paper is admitted, and it isn't with a need of 1 for routine 0:
//!
//! ```
//! # fn main() -> Result<(), Box<dyn std::error::Error>> {
//! use cesca::{Listing, Stop};
//!
//! let (mut opcodes, mut arguments, mut sheet) = ([0; 256], [0; 256], [0; 512]);
//! opcodes[..8].copy_from_slice(&[0x30, 0xA8, 0xF0, 0xF8, 0x5E, 0x10, 0x88, 0xAC]);
//! arguments[..8].copy_from_slice(&[0x05, 0x04, 0x00, 0x00, 0x00, 0x01, 0x00, 0x00]);
//! let words: [u16; 8] = [0x8000, 0x8000, 0x8000, 0x8000, 0x8100, 0x8101, 0xC101, 0xC100];
//! for (bytes, word) in sheet.chunks_mut(2).zip(words) {
//!     bytes.copy_from_slice(&word.to_le_bytes());
//! }
//!
//! let listing = |list: [u8; 4]| Listing::from_parts(opcodes, arguments, sheet, &list);
//! let admitted = listing([0, 2, 4, 1])?.admit()?;
//! assert_eq!(admitted.need(), 2);
//! let report = admitted.board().run(&[], 1_000)?;
//! assert_eq!((report.stop, report.steps, report.state.out), (Stop::Halted, 8, 6));
//!
//! let refusal = listing([0, 1, 4, 1])?.admit().unwrap_err();
//! assert_eq!((refusal.number(), refusal.place()), (15, Some(1)));
//! let words = "15 at 1: the call needs 2 bytes where routine 0 has 1 left";
//! assert_eq!(refusal.to_string(), words);
//!
//! let admit = |list: [u8; 4]| cesca::admit(&opcodes, &arguments, &sheet, &list);
//! assert_eq!(admit([0, 2, 4, 1]), Ok(()));
//! assert_eq!(admit([0, 1, 4, 1]).unwrap_err().answer(), 15 + 256);
//! # Ok(())
//! # }
//! ```
//!
//! A source, as members type it, has an instruction or macro on each line. [`assemble`] gives its
//! banks, or a [`SourceRefusal`] with number, line and words; [`print()`] spells an instruction:
//!
//! ```
//! # fn main() -> Result<(), Box<dyn std::error::Error>> {
//! use cesca::{assemble, decode, print};
//!
//! let assembled = assemble(b"mov R0, 3\nloop: dec R0\njnz loop\nhlt\n")?;
//! assert_eq!(assembled.words, 4);
//! assert_eq!(assembled.opcodes[..5], [0x30, 0x10, 0xB4, 0xF8, 0x00]);
//! assert_eq!(assembled.arguments[..5], [0x03, 0xFF, 0x01, 0x00, 0x00]);
//! assert_eq!(print(decode([0x10, 0xFF]))?, "add R0, R0, 255");
//! assert_eq!(print(decode([0xB4, 0x01]))?, "jnz 1");
//!
//! let refusal = assemble(b"mov R0, 3\nmov R1, 256\n").unwrap_err();
//! assert_eq!((refusal.number(), refusal.line()), (24, Some(2)));
//! let words = "24 at line 2: \"mov R1, 256\" is no instruction or macro: 256 is over 255";
//! assert_eq!(refusal.to_string(), words);
//!
//! let refusal = assemble(b"jnz loop\n").unwrap_err();
//! let words = "25 at line 1: \"jnz loop\" uses the label \"loop\", which no line gives";
//! assert_eq!(refusal.to_string(), words);
//! # Ok(())
//! # }
//! ```
//!
//! Banks alone become a listing by [`Listing::from_banks`]: [`draw()`] draws the sheet and the list,
//! with the least need of each routine, unless no sheet and list at all would be admitted:
//!
//! ```
//! # fn main() -> Result<(), Box<dyn std::error::Error>> {
//! use cesca::{assemble, Listing};
//!
//! let source = b"mov R0, 5\ncall bump\nhlt\nbump: push R2\ninc R0\npop R2\nret\n";
//! let banks = assemble(source)?;
//! let listing = Listing::from_banks(banks.opcodes, banks.arguments)?;
//! let routines: Vec<_> = listing.routines().iter().map(|it| (it.entry, it.need)).collect();
//! assert_eq!(routines, [(0, 2), (3, 1)]);
//! assert_eq!(listing.admit()?.need(), 2);
//!
//! let banks = assemble(b"pop R0\nhlt\n")?;
//! let refusal = Listing::from_banks(banks.opcodes, banks.arguments).unwrap_err();
//! assert_eq!((refusal.number(), refusal.place()), (27, None));
//! # Ok(())
//! # }
//! ```
//!
//! [`shelve`] gives a listing's shelf file, without the zeros behind its last word, and [`open`]
//! the listing of such a file, or a [`ShelfRefusal`] with number, byte and words:
//!
//! ```
//! # fn main() -> Result<(), Box<dyn std::error::Error>> {
//! use cesca::{assemble, open, shelve, Listing};
//!
//! let banks = assemble(b"mov R0, 5\nhlt\n")?;
//! let listing = Listing::from_banks(banks.opcodes, banks.arguments)?;
//! let file = shelve(&listing);
//! assert_eq!((file.len(), listing.to_bytes().len()), (15, 1_026));
//! assert_eq!(open(&file)?, listing);
//!
//! let refusal = open(&file[..3]).unwrap_err();
//! assert_eq!((refusal.number(), refusal.byte()), (30, Some(3)));
//! let words = "30 at byte 3: the file ends before the sheet word of address 0";
//! assert_eq!(refusal.to_string(), words);
//! # Ok(())
//! # }
//! ```
//!
//! [`Board::run_busy`] tells where the steps of a run went: how often each address executed, and a
//! page of them, the busiest first.
//!
//! A [`Room`] has up to eight boards that take turns. A turn runs one [`Seat`] for a slice of 1 to
//! 1,000 steps and passes over those that can't go on. A seat comes to what its listing comes to
//! alone:
//!
//! ```
//! # fn main() -> Result<(), Box<dyn std::error::Error>> {
//! use cesca::{assemble, Listing, Room};
//!
//! let source = b"mov R0, IN\nloop: mov OUT, R0\ndec R0\njnz loop\nhlt\n";
//! let banks = assemble(source)?;
//! let countdown = Listing::from_banks(banks.opcodes, banks.arguments)?.admit()?;
//! let mut room = Room::new();
//! for key in [3, 200] {
//!     room.add(&countdown, &[key], 0)?; // with a roll of no words
//! }
//! let mut steps = [0; 2];
//! while let Some(turn) = room.turn(100)? {
//!     steps[turn.seat] += turn.steps;
//! }
//! assert_eq!(steps, [11, 602]);
//! assert!(room.seats().all(|seat| seat.state().halted && seat.state().out == 1));
//! # Ok(())
//! # }
//! ```
//!
//! If you keep your own buffers, call [`assemble_into`], [`draw_into`], [`admit`], [`shelve_into`],
//! [`open_into`], [`run`], [`run_busy`] and [`turn`] on them, and [`decode`], [`encode`] and
//! [`put`] on single instructions:
//!
//! ```
//! use cesca::{Lent, State, Stop};
//!
//! let mov = cesca::decode([0x30, 0x05]); // mov R0, 5
//! assert_eq!((mov.form, mov.d, mov.imm), (6, 0, 5));
//! assert_eq!(cesca::encode(mov), Ok([0x30, 0x05]));
//!
//! let (mut opcodes, mut arguments) = ([0xF8; 256], [0; 256]); // hlt
//! cesca::put(mov, &mut opcodes, &mut arguments, 0).unwrap();
//! let (mut ram, mut stack) = ([0; 256], [0; 256]);
//! let lent = Lent {
//!     opcodes: &opcodes,
//!     arguments: &arguments,
//!     keys: &[],
//!     ram: &mut ram,
//!     stack: &mut stack,
//!     roll: &mut [],
//! };
//! let report = cesca::run(lent, 1_000, State::start()).unwrap();
//! assert_eq!((report.stop, report.steps, report.cycles), (Stop::Halted, 2, 5));
//! assert_eq!(report.state.regs, [5, 0, 0, 0]);
//! assert_eq!(cesca::running_time(report.cycles, 100), Ok(1)); // tenths of a second
//! ```

#![warn(missing_docs)]

mod admitted;
mod board;
mod busy;
mod calls;
mod draw;
mod explain;
mod instruction;
mod lengths;
mod listing;
mod raw;
mod room;
#[cfg(test)]
mod samples;
mod sheet;
mod shelf;
mod source;
mod text;
mod turns;

pub use admitted::Admitted;
pub use board::Board;
pub use busy::{run_busy, Busy};
pub use calls::{admit, alu, decode, encode, facts, put, run, running_time};
#[doc(inline)]
pub use cesca_types::*;
pub use draw::{draw, draw_into};
pub use listing::Listing;
pub use room::{Room, Seat};
pub use sheet::{Routine, SheetWord};
pub use shelf::{open, open_into, shelve, shelve_into, ShelfRefusal};
pub use source::{assemble, assemble_into, print, SourceRefusal};
pub use text::{instruction_text, TextError};
pub use turns::turn;
