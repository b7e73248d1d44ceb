//! Two fast machines in Rust, to measure the proved library by: [`plain`], which counts its
//! addresses if it is asked to, and [`predecoded`].

#![warn(missing_docs)]

mod parts;
pub mod plain;
pub mod predecoded;
