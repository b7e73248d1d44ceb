//! The program, run on stored listings and on others. What it should print is worked out by hand
//! from the papers and from `listings/README.md`.

mod admit;
mod assemble;
mod busy;
mod draw;
mod file;
mod pipes;
mod print;
mod readme;
mod room;
mod run;
mod sandbox;
mod sheet;
mod shelf;
mod step;
mod untouched;
mod usage;
