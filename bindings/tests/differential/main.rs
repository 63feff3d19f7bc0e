//! The compiled library against the Rust reimplementation: the same answers, and the same bytes
//! in and around every buffer that is lent.
//!
//! A seed names a file (`generate` of the reimplementation), so a failure is repeated by its seed.

mod hundredths;
mod judge;
mod line;
mod run;
mod statements;
mod support;
#[path = "../vector_file/mod.rs"]
mod vector_file;
mod vectors;
