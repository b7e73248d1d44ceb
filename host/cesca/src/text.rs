//! Instructions and listings as text.

mod count;
mod draft;
mod error;
mod instruction;
mod line;
mod numbers;
#[cfg(test)]
mod tests;

pub use count::{bytes, counted};
pub use error::TextError;
pub use instruction::{instruction_text, mnemonic};
