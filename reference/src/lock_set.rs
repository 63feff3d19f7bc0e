//! The set of locks that a thread's code holds at a place ("Lock discipline").

use crate::reader::MAX_LOCKS;

/// A set of locks, one bit each.
#[derive(Clone, Copy, Debug, PartialEq, Eq, Hash, Default)]
pub struct LockSet(u16);

impl LockSet {
    pub const LIMIT: usize = MAX_LOCKS;

    pub const fn empty() -> LockSet {
        LockSet(0)
    }

    #[inline]
    pub fn with(self, lock: u8) -> LockSet {
        LockSet(self.0 | 1 << lock)
    }

    #[inline]
    pub fn without(self, lock: u8) -> LockSet {
        LockSet(self.0 & !(1 << lock))
    }

    #[inline]
    pub fn holds(self, lock: u8) -> bool {
        self.0 & 1 << lock != 0
    }

    /// Whether every lock of the other set is in this one.
    #[inline]
    pub fn includes(self, other: LockSet) -> bool {
        other.0 & !self.0 == 0
    }
}
