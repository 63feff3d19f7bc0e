//! judge on generated files of every kind.

use hogunlas::{Refusal, MAX_FILE, MAX_REPORT};
use hogunlas_reference::generate::{self, Rng};
use hogunlas_reference::report_length;

use crate::support::{lend, Tally};

/// On the first 20,000 of these files `reference/tests/writers.rs` shows wrong rules for open
/// variables to give other answers than the right one, and `statements.rs` wrong rules for what
/// blocks state.
const FILES: u64 = 100_000;

/// Compares one call, and answers what both said.
pub fn compare(seed: u64, file: &[u8], length: usize) -> Result<usize, Refusal> {
    let wanted = lend(seed, length, |report| {
        hogunlas_reference::judge(file, report)
    });
    let judged = lend(seed, length, |report| hogunlas::judge(file, report));
    judged.assert_is(
        &wanted,
        format_args!("judge, seed {seed}, {} bytes into {length}", file.len()),
    );
    judged.answer
}

/// The buffers to try: for an accepted file just enough, one byte short, and longer. For a refused
/// one none, few bytes, and room for a report of the whole file, in case some of it were written.
fn lengths(rng: &mut Rng, file: &[u8]) -> [usize; 3] {
    match report_length(file) {
        Ok(needed) => [needed, needed - 1, needed + rng.between(1, 40)],
        Err(_) => [0, rng.between(1, 40), file.len() / 4 + 8],
    }
}

#[test]
fn judge_agrees_on_generated_files() {
    let mut tally = Tally::default();
    for seed in 0..FILES {
        let rng = &mut Rng::new(seed);
        let file = generate::file(rng);
        for length in lengths(rng, &file) {
            tally.add(&compare(seed, &file, length));
        }
    }
    tally.assert_met((0..=13).chain([16, 18]));
}

#[test]
fn judge_agrees_at_the_limits() {
    for seed in 0..50 {
        let rng = &mut Rng::new(seed);
        let mut file = generate::largest_file(rng);
        assert_eq!(
            (file.len(), &file[..5]),
            (MAX_FILE, &[1, 16, 8, 1, 128][..])
        );
        assert_eq!(compare(seed, &file, MAX_REPORT), Ok(MAX_REPORT));
        assert_eq!(compare(seed, &file, MAX_REPORT + 9), Ok(MAX_REPORT));
        let short = compare(seed, &file, MAX_REPORT - 1);
        assert_eq!(short, refused(16, MAX_REPORT));
        file.push(rng.byte());
        assert_eq!(compare(seed, &file, MAX_REPORT), refused(5, MAX_FILE));
        file.resize(2 * MAX_FILE, 0);
        assert_eq!(compare(seed, &file, MAX_REPORT), refused(5, MAX_FILE));
        let deep = generate::deep_file(rng, 16);
        assert!(compare(seed, &deep, MAX_REPORT).is_ok(), "seed {seed}");
        let too_deep = compare(seed, &generate::deep_file(rng, 17), MAX_REPORT);
        assert_eq!(too_deep.unwrap_err().number, 8, "seed {seed}");
    }
}

fn refused(number: u32, detail: usize) -> Result<usize, Refusal> {
    Err(Refusal {
        number,
        detail: detail as u64,
    })
}

/// What follows a cut file in memory is the rest of it, so reading on would show. And the files
/// begin at addresses of every alignment.
#[test]
fn judge_agrees_on_every_file_cut_short() {
    for seed in 0..200 {
        let file = generate::accepted_file(&mut Rng::new(seed));
        let start = (seed % 16) as usize;
        let memory = [vec![0xA5; start], file].concat();
        for end in start..memory.len() {
            let cut = &memory[start..end];
            let answer = compare(seed, cut, cut.len() / 4 + 8);
            assert_eq!(answer, refused(1, cut.len()), "seed {seed}");
        }
    }
}
