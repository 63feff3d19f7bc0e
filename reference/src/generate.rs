//! Seeded pseudo-random files and lists for tests.
//!
//! Every file comes from a [`Rng`], so a seed names a file. The kinds: sound files, accepted
//! files, nearly accepted ones, damaged ones, and files at the limits.

mod channel;
mod damage;
mod limits;
mod lists;
mod program;
mod rng;
mod statement;
mod value;
mod writer;

pub use damage::{damaged_file, nearly_accepted_file};
pub use limits::{deep_file, largest_file, limit_file};
pub use lists::{good_list, list, longest_list};
pub use program::encode_file;
pub use rng::Rng;
pub use statement::{atomics, without_statements, AtomicSite};
pub use value::operands;

use program::{Source, Style};

/// A file of any kind.
pub fn file(rng: &mut Rng) -> Vec<u8> {
    match rng.below(100) {
        0..=9 => sound_file(rng),
        10..=19 => disciplined_file(rng),
        20..=29 => small_disciplined_file(rng),
        30..=49 => accepted_file(rng),
        50..=84 => nearly_accepted_file(rng),
        85..=98 => damaged_file(rng),
        _ => limit_file(rng),
    }
}

/// A sound file: well nested, every name below its count, no regard for the discipline.
pub fn sound_file(rng: &mut Rng) -> Vec<u8> {
    Source::random(rng, Style::Careless).encode()
}

/// A file that keeps the lock discipline, but whose blocks may be T: accepted, or refused by 13.
pub fn disciplined_file(rng: &mut Rng) -> Vec<u8> {
    Source::random(rng, Style::Disciplined).encode()
}

/// An accepted file with shared variables, locks, nested constructs and true statements.
pub fn accepted_file(rng: &mut Rng) -> Vec<u8> {
    accepted_source(rng).encode()
}

/// The parts of an accepted file, still to be changed.
fn accepted_source(rng: &mut Rng) -> Source {
    Source::random(rng, Style::Careful)
}

/// An accepted file of two or three short threads with blocks that share variables and locks.
pub fn small_accepted_file(rng: &mut Rng) -> Vec<u8> {
    Source::small(rng, Style::Careful).encode()
}

/// A small file that keeps the lock discipline, but whose blocks may be T.
pub fn small_disciplined_file(rng: &mut Rng) -> Vec<u8> {
    Source::small(rng, Style::Disciplined).encode()
}
