//! The program `bench`: reads a file from standard input and prints all lines, or the refusal.

use std::io::{self, Read, Write};

use hogunlas_reference::bench;
use hogunlas_reference::printout::BENCH_INPUT;

fn main() -> io::Result<()> {
    let mut input = Vec::with_capacity(BENCH_INPUT);
    io::stdin()
        .take(BENCH_INPUT as u64)
        .read_to_end(&mut input)?;
    io::stdout().write_all(&bench(&input))
}
