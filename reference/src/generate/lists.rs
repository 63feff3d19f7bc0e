//! Lists (schedules) for `run`.

use super::rng::Rng;
use crate::machine::MAX_LIST;

/// A list of any kind for a program of so many threads: mostly good ones of some hundred
/// entries; some empty, with bad thread numbers, as long as allowed or one longer.
pub fn list(rng: &mut Rng, threads: usize) -> Vec<u8> {
    match rng.below(200) {
        0..=9 => Vec::new(),
        10..=29 => with_bad_numbers(rng, threads),
        30 => longest_list(rng, threads),
        31 => {
            let mut list = longest_list(rng, threads);
            list.push(rng.byte());
            list
        }
        _ => {
            let length = rng.between(1, 300);
            good_list(rng, threads, length)
        }
    }
}

/// A list of exactly so many entries that name existing threads.
pub fn good_list(rng: &mut Rng, threads: usize, length: usize) -> Vec<u8> {
    match rng.below(3) {
        0 => (0..length).map(|_| rng.below(threads) as u8).collect(),
        1 => (0..length).map(|index| (index % threads) as u8).collect(),
        _ => bursts(rng, threads, length),
    }
}

/// A list of 65,536 entries.
pub fn longest_list(rng: &mut Rng, threads: usize) -> Vec<u8> {
    good_list(rng, threads, MAX_LIST)
}

fn bursts(rng: &mut Rng, threads: usize, length: usize) -> Vec<u8> {
    let mut list = Vec::with_capacity(length);
    while list.len() < length {
        let thread = rng.below(threads) as u8;
        let burst = rng.between(1, 12).min(length - list.len());
        list.extend(std::iter::repeat_n(thread, burst));
    }
    list
}

fn with_bad_numbers(rng: &mut Rng, threads: usize) -> Vec<u8> {
    let length = rng.between(1, 100);
    let mut list = good_list(rng, threads, length);
    for _ in 0..rng.between(1, 3) {
        let at = rng.below(length);
        list[at] = rng.between(threads, 255) as u8;
    }
    list
}
