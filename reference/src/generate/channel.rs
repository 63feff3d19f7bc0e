//! Who writes an open variable. It is settled before any code is written, so that a careful writer
//! knows what its READs will be.

use super::rng::Rng;
use crate::reader::MAX_THREADS;

/// The threads that may write an open variable, and where.
#[derive(Clone, Copy, Debug)]
pub(super) struct Channel {
    /// The threads, a bit each.
    writers: u8,
    /// Whether they write it only in code that no run reaches.
    pub unreached: bool,
}

impl Channel {
    /// Written by nobody, by one thread, or by several.
    pub fn random(rng: &mut Rng, threads: usize) -> Channel {
        let several = rng.byte() | rng.byte();
        let writers = match rng.below(10) {
            0 => 0,
            1..=5 => 1 << rng.below(threads),
            _ => several & (u8::MAX >> (MAX_THREADS - threads)),
        };
        Channel {
            writers,
            unreached: rng.chance(25),
        }
    }

    pub fn may_write(self, thread: u8) -> bool {
        self.writers & 1 << thread != 0
    }

    /// Whether no other thread may write it, so that a READ is B.
    pub fn no_other_writes(self, thread: u8) -> bool {
        self.writers & !(1 << thread) == 0
    }
}
