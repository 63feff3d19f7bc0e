//! What the verified library costs beside the reimplementation, as one table.
//!
//!     cargo run --offline --release
//!
//! It prints and asserts nothing about time. The two sides take turns, so that a busy machine
//! slows both; each number is a median.

mod files;
mod programs;
mod rows;
mod times;

/// What the numbers are, and what the verified library is measured against.
const HEADER: &str = "\
verified: the compiled library target/staticlib/libhogunlas.a, and the program target/bin/bench
reimplementation: the crate in reference/ of this repository, safe Rust, one pass over each thread's code after a search for WRITEs
All rows are of one run, in which the two sides take turns; each number is a median, the ratio that of
the medians. judge, run and line: the call alone, its buffer cleared before. bench: start to end.

| call | verified | reimplementation | ratio |
|---|---|---|---|";

fn main() {
    if programs::is_reference_bench() {
        return programs::reference_bench();
    }
    println!("{HEADER}");
    rows::judge_rows();
    rows::run_rows();
    rows::line_row();
    rows::bench_rows();
}
