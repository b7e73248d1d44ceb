//! The repository's own texts: what it promises, where a promise could vanish quietly.
//!
//! Each check yields findings with file and line, and the parsers are shown texts in which there
//! is something to find.

mod applying;
mod contracts;
mod definitions;
mod finding;
mod functions;
mod ignored;
mod imports;
mod independence;
mod items;
mod known;
mod links;
mod numbers;
mod placeholders;
mod promises;
mod running;
mod rust;
mod shifts;
mod source;
mod table;
