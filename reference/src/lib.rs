//! A plain Rust reimplementation of the standard, docs/STANDARD.md: the station program, its judge
//! and its step machine.
//!
//! It is written from the standard's rules alone and shares nothing with the verified library, so
//! that the two can be compared on the same input, for their answers and for their speed.
//!
//! | module | the standard | refusals |
//! |---|---|---|
//! | [`refusal`] | "Who can bring a number about" | the numbers' names |
//! | [`op`] | "The file": the table of op codes | – |
//! | [`instruction`] | the same, decoded | – |
//! | [`nesting`] | "The file": places, distances, entries | – |
//! | `code` | "The file": one thread's code, read in one pass | 7, 8 |
//! | [`reader`] | "The file": header, sections, records | 1 to 6 |
//! | [`atomicity`] | "Atomicities": the algebra | – |
//! | [`lock_set`] | "Lock discipline": the set itself | – |
//! | `writers` | "Rules": which threads write an open variable | – |
//! | `access` | "Lock discipline", "Rules": the kinds of variables | – |
//! | `judging` | "Lock discipline", "Atomicities": the rules | 9 to 13, 18 |
//! | [`judge`](mod@judge) | "Atomicities": the report | 16 |
//! | [`hundredths`] | "Signed hundredths": what MULH and LESSS put | – |
//! | [`machine`] | "The step machine" | 14 to 16 |
//! | [`printout`] | "Line and bench": which line is about what | 17, 16 |
//! | `text` | "Line and bench": a line's text | – |
//! | [`generate`] | – (files and lists for tests) | – |
//! | [`standard`] | – (the page itself, for tests) | – |
//!
//! It is also the yardstick for the library's speed, so it is written to be fast as far as it
//! stays plain and safe: judge reads and judges each thread's code in the same pass, after a quick
//! search for WRITEs where there are open variables; nothing is decoded or copied first, and run
//! steps on the file's own bytes.
//!
//! After a refusal every lent buffer holds what it held before; after an answer the bytes past
//! it are kept.

#![forbid(unsafe_code)]

mod access;
pub mod atomicity;
mod code;
pub mod generate;
pub mod hundredths;
pub mod instruction;
pub mod judge;
mod judging;
pub mod lock_set;
pub mod machine;
pub mod nesting;
pub mod op;
pub mod printout;
pub mod reader;
pub mod refusal;
pub mod standard;
mod text;
mod writers;

pub use judge::{judge, report_length};
pub use machine::{run, state_length, Counts};
pub use printout::{bench, line, line_count};
pub use refusal::Refusal;
