//! line on generated files: all lines of each.

use hogunlas::{Refusal, LINE_BUFFER};
use hogunlas_reference::generate::{self, Rng};
use hogunlas_reference::{bench, line_count};

use crate::support::{lend, Tally};

const FILES: u64 = 20_000;

/// Compares one call, adds the line to a printout, and answers what both said.
fn compare(
    seed: u64,
    file: &[u8],
    i: u64,
    length: usize,
    printout: &mut Vec<u8>,
) -> Result<usize, Refusal> {
    let wanted = lend(seed, length, |text| hogunlas_reference::line(file, i, text));
    let printed = lend(seed, length, |text| {
        let length = hogunlas::line(file, i, text)?;
        printout.extend_from_slice(&text[..length]);
        Ok::<usize, Refusal>(length)
    });
    printed.assert_is(
        &wanted,
        format_args!("line {i}, seed {seed}, into {length}"),
    );
    printed.answer
}

/// Compares all lines of a file, joined they must be what bench prints; then what is refused.
fn compare_all(seed: u64, file: &[u8], tally: &mut Tally) {
    let count = line_count(file).unwrap_or(0);
    let mut printout = Vec::new();
    for i in 0..count {
        let length = LINE_BUFFER + (i % 3) as usize * 8;
        tally.add(&compare(seed, file, i, length, &mut printout));
    }
    for (i, length) in [
        (count / 2, LINE_BUFFER - 1),
        (count, LINE_BUFFER),
        (count, LINE_BUFFER - 1),
        (u64::MAX, 0),
    ] {
        let answer = compare(seed, file, i, length, &mut printout);
        tally.add(&answer);
        let refusal = answer.expect_err("a refusal");
        if count == 0 {
            printout = format!("{refusal}\n").into_bytes();
        }
    }
    assert!(
        printout == bench(file),
        "seed {seed}: not what bench prints"
    );
}

/// A file of any kind but the largest, each of whose lines takes a judgement of the whole.
fn file(rng: &mut Rng) -> Vec<u8> {
    match rng.below(100) {
        0..=4 => generate::sound_file(rng),
        5..=14 => generate::disciplined_file(rng),
        15..=54 => generate::accepted_file(rng),
        55..=69 => generate::small_accepted_file(rng),
        70..=89 => generate::nearly_accepted_file(rng),
        90..=97 => generate::damaged_file(rng),
        98 => generate::deep_file(rng, 16),
        _ => generate::deep_file(rng, 17),
    }
}

#[test]
fn line_agrees_on_all_lines_of_generated_files() {
    let mut tally = Tally::default();
    for seed in 0..FILES {
        let file = file(&mut Rng::new(seed));
        compare_all(seed, &file, &mut tally);
    }
    tally.assert_met((0..=13).chain([16, 17, 18]));
}

#[test]
fn line_agrees_on_all_lines_of_the_largest_files() {
    for seed in 0..3 {
        let file = generate::largest_file(&mut Rng::new(seed));
        assert_eq!(file.len(), hogunlas::MAX_FILE);
        compare_all(seed, &file, &mut Tally::default());
    }
}
