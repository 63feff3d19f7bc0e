//! run on generated files and lists.

use hogunlas::{Counts, Refusal, MAX_FILE, MAX_LIST, MAX_STATE, MAX_THREADS};
use hogunlas_reference::generate::{self, encode_file, Rng};
use hogunlas_reference::instruction::Instruction::*;
use hogunlas_reference::state_length;

use crate::support::{as_ours, assert_sums, lend, Tally};

const ACCEPTED_FILES: u64 = 100_000;
const FILES_OF_ANY_KIND: u64 = 20_000;
const FILES_AT_BOUNDARIES: u64 = 24;

/// What run answers: the counts of each thread.
pub type Answer = Result<[Counts; MAX_THREADS], Refusal>;

/// Compares one call, and answers what both said.
pub fn compare(seed: u64, file: &[u8], list: &[u8], length: usize) -> Answer {
    let wanted = lend(seed, length, |state| {
        hogunlas_reference::run(file, list, state).map(as_ours)
    });
    let ran = lend(seed, length, |state| hogunlas::run(file, list, state));
    let case = format!("run, seed {seed}, {} entries into {length}", list.len());
    ran.assert_is(&wanted, format_args!("{case}"));
    if let Ok(threads) = &ran.answer {
        assert_sums(threads, file, list, format_args!("{case}"));
    }
    ran.answer
}

/// An accepted file: mostly of some threads; some small ones full of blocks, some deep ones, and a
/// few of the largest.
fn accepted_file(rng: &mut Rng) -> Vec<u8> {
    match rng.below(1_000) {
        0..=2 => generate::largest_file(rng),
        3..=22 => generate::deep_file(rng, 16),
        23..=299 => generate::small_accepted_file(rng),
        _ => generate::accepted_file(rng),
    }
}

/// A list of any kind (bursts, round robin, random; empty, with bad numbers, 65,536 entries and
/// 65,537), or a long one.
fn list(rng: &mut Rng, threads: usize) -> Vec<u8> {
    if rng.chance(2) {
        let length = rng.between(1_000, 5_000);
        return generate::good_list(rng, threads, length);
    }
    generate::list(rng, threads)
}

/// A buffer's length: just enough, one byte short, or longer.
fn some_length(rng: &mut Rng, needed: usize) -> usize {
    match rng.below(4) {
        0 => needed,
        1 => needed.saturating_sub(1),
        _ => needed + rng.between(1, 40),
    }
}

#[test]
fn run_agrees_on_accepted_files() {
    let mut tally = Tally::default();
    let mut totals = [Counts::default(); MAX_THREADS];
    for seed in 0..ACCEPTED_FILES {
        let rng = &mut Rng::new(seed);
        let file = accepted_file(rng);
        let list = list(rng, usize::from(file[2]));
        let needed = state_length(&file).expect("an accepted file");
        let answer = compare(seed, &file, &list, some_length(rng, needed));
        tally.add(&answer);
        if let Ok(threads) = answer {
            for (total, counts) in totals.iter_mut().zip(threads) {
                *total = *total + counts;
            }
        }
    }
    tally.assert_met([0, 14, 15, 16]);
    let met = |total: &Counts| total.moved.min(total.waiting).min(total.idle);
    assert!(totals.iter().all(|total| met(total) > 10_000), "{totals:?}");
}

/// The file's and the writer's refusals come before the caller's, for every list and buffer.
#[test]
fn run_refuses_what_judge_refuses() {
    let mut tally = Tally::default();
    for seed in 0..FILES_OF_ANY_KIND {
        let rng = &mut Rng::new(seed);
        let file = generate::file(rng);
        let threads = file.get(2).map_or(1, |&n| usize::from(n).clamp(1, 8));
        let list = list(rng, threads);
        let length = some_length(rng, state_length(&file).unwrap_or(40));
        tally.add(&compare(seed, &file, &list, length));
    }
    tally.assert_met((0..=16).chain([18]));
}

#[test]
fn run_agrees_at_the_limits() {
    for seed in 0..20 {
        let rng = &mut Rng::new(seed);
        let file = generate::largest_file(rng);
        assert_eq!(file.len(), MAX_FILE);
        let mut list = generate::longest_list(rng, 8);
        assert_eq!(list.len(), MAX_LIST);
        let answer = compare(seed, &file, &list, MAX_STATE);
        assert!(answer.is_ok(), "seed {seed}");
        let short = compare(seed, &file, &list, MAX_STATE - 1);
        assert_eq!(short, refused(16, MAX_STATE));
        list[MAX_LIST - 1] = 8;
        assert_eq!(compare(seed, &file, &list, 0), refused(15, MAX_LIST - 1));
        list.push(0);
        assert_eq!(compare(seed, &file, &list, 0), refused(14, MAX_LIST));
        list.resize(3 * MAX_LIST, 0);
        assert_eq!(compare(seed, &file, &list, 0), refused(14, MAX_LIST));
    }
}

fn refused(number: u32, detail: usize) -> Answer {
    Err(Refusal {
        number,
        detail: detail as u64,
    })
}

/// Around the ends of some parts: the library runs a list in parts of 4,096 entries, and asks after
/// each whether all threads have ended.
fn around_parts() -> impl Iterator<Item = usize> {
    let ends = [4_096, 8_192, MAX_LIST].into_iter();
    let around = ends.flat_map(|end| end - 1..=end + 1);
    around.filter(|&length| length <= MAX_LIST)
}

/// Compares the list's beginnings of many lengths, and answers the whole list's counts. They are
/// all short lengths too, since the library counts names in pieces of 192 entries and a rest.
fn compare_beginnings(seed: u64, file: &[u8], list: &[u8]) -> [Counts; MAX_THREADS] {
    assert_eq!(list.len(), MAX_LIST);
    for length in (0..=600).chain(around_parts()) {
        let answer = compare(seed, file, &list[..length], MAX_STATE);
        assert!(answer.is_ok(), "seed {seed}: {answer:?}");
    }
    compare(seed, file, list, MAX_STATE).expect("an answer")
}

#[test]
fn run_agrees_where_all_threads_ended_early() {
    for seed in 0..FILES_AT_BOUNDARIES {
        let threads = 1 + seed as usize % MAX_THREADS;
        let codes: Vec<_> = (0..threads)
            .map(|moves| vec![Set { to: 0, number: 1 }; moves])
            .collect();
        let file = encode_file(0, &[], &codes);
        let list = generate::longest_list(&mut Rng::new(seed), threads);
        let counts = compare_beginnings(seed, &file, &list);
        let moved = counts.map(|counts| counts.moved as usize);
        assert!(moved[..threads].iter().copied().eq(0..threads), "{moved:?}");
    }
}

#[test]
fn run_agrees_where_one_ended_thread_is_named_again() {
    for seed in 0..FILES_AT_BOUNDARIES {
        let ended = seed as usize % MAX_THREADS;
        let mut codes = vec![vec![Set { to: 0, number: 1 }; 2]; MAX_THREADS];
        codes[ended].truncate(seed as usize / MAX_THREADS);
        let moves = codes[ended].len();
        let file = encode_file(0, &[], &codes);
        let counts = compare_beginnings(seed, &file, &[ended as u8; MAX_LIST]);
        assert_eq!(counts[ended].idle as usize, MAX_LIST - moves);
    }
}

/// One thread ends, one goes round a loop and holds k0, and one waits for k0.
#[test]
fn run_agrees_where_threads_are_idle_wait_and_move() {
    let (test, distance) = (0, 1);
    let rounds = [While { test, distance }, Again { distance }];
    let holding = [Take { lock: 0 }, Set { to: 0, number: 1 }];
    let moving = [&holding[..], &rounds, &[Give { lock: 0 }]].concat();
    let waiting = vec![Take { lock: 0 }, Give { lock: 0 }];
    let mut codes = [vec![Set { to: 0, number: 1 }], waiting, moving];
    for seed in 0..FILES_AT_BOUNDARIES {
        codes.rotate_right(1);
        let [ended, waiting, moving] = [1, 2, 3].map(|first| (first + seed as usize) % 3);
        let file = encode_file(1, &[], &codes);
        let mut list = generate::longest_list(&mut Rng::new(seed), codes.len());
        list[0] = moving as u8;
        let counts = compare_beginnings(seed, &file, &list);
        let least = [
            counts[ended].idle,
            counts[waiting].waiting,
            counts[moving].moved,
        ];
        assert!(least.iter().all(|&least| least > 10_000), "{counts:?}");
    }
}

/// The last thread to end does so around the end of a part, and the list goes on or ends there.
#[test]
fn run_agrees_where_the_last_thread_ends_with_a_part() {
    let file = encode_file(0, &[], &[vec![], vec![Set { to: 0, number: 1 }]]);
    for last in around_parts() {
        let mut list = [0; MAX_LIST];
        list[last - 1] = 1;
        let counts = compare_beginnings(last as u64, &file, &list);
        assert_eq!((counts[0].idle, counts[1].moved), (MAX_LIST as u64 - 1, 1));
    }
}
