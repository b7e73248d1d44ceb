//! What the plain and the predecoded machine share: the memory of a run, what instructions do to
//! stack, keys and roll, and the ALU.

mod alu;
mod devices;
mod memory;
mod stack;

pub use alu::Alu;
pub use devices::{key, send};
pub use memory::Memory;
pub use stack::{exchange, pop, push};
