//! The standard, docs/STANDARD.md, taken apart, so that tests can execute it.
//!
//! [`Page`] finds titles, fenced blocks and tables, [`notation`] reads dumps, code and answers, and
//! [`examples`] compares what the page says with what the calls answer, here and in the compiled
//! library.

pub mod examples;
pub mod notation;
mod page;

pub use page::{Block, Page, Table};
