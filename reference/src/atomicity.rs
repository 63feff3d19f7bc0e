//! The five atomicities and their algebra ("Atomicities").

/// How a piece of code can be moved past the moves of other threads. The values are the report
/// bytes.
#[derive(Clone, Copy, Debug, PartialEq, Eq, Hash)]
#[repr(u8)]
pub enum Atomicity {
    /// Both mover.
    B = 1,
    /// Left mover.
    L = 2,
    /// Right mover.
    R = 3,
    /// Atomic, moving neither way.
    A = 4,
    /// None of these.
    T = 5,
}

use Atomicity::*;

/// Composition, the first part choosing the row; rows and columns in the order B, L, R, A, T.
const COMPOSITION: [[Atomicity; 5]; 5] = [
    [B, L, R, A, T],
    [L, L, T, T, T],
    [R, A, R, A, T],
    [A, A, T, T, T],
    [T, T, T, T, T],
];

impl Atomicity {
    pub const ALL: [Atomicity; 5] = [B, L, R, A, T];

    /// The atomicity of this part followed by another.
    #[inline]
    pub fn then(self, next: Atomicity) -> Atomicity {
        COMPOSITION[self as usize - 1][next as usize - 1]
    }

    /// The least atomicity that is above both: that of either one part or the other.
    pub fn join(self, other: Atomicity) -> Atomicity {
        match (self, other) {
            (B, x) | (x, B) => x,
            (T, _) | (_, T) => T,
            (L, L) => L,
            (R, R) => R,
            _ => A,
        }
    }

    /// The atomicity of any number of repetitions.
    pub fn closure(self) -> Atomicity {
        match self {
            A => T,
            other => other,
        }
    }

    pub fn report_byte(self) -> u8 {
        self as u8
    }

    /// The letter for a report byte: `-` for 0, which stands at closers.
    pub fn letter(report_byte: u8) -> u8 {
        b"-BLRAT"[usize::from(report_byte)]
    }
}

#[cfg(test)]
mod tests {
    use super::*;

    fn below(x: Atomicity, y: Atomicity) -> bool {
        x.join(y) == y
    }

    #[test]
    fn order_is_the_standards() {
        for (x, y) in [(B, L), (B, R), (L, A), (R, A), (A, T)] {
            assert!(below(x, y) && !below(y, x), "{x:?} below {y:?}");
        }
        assert!(!below(L, R) && !below(R, L));
    }

    #[test]
    fn composition_is_associative_with_b_neutral() {
        for x in Atomicity::ALL {
            assert_eq!((B.then(x), x.then(B)), (x, x));
            for y in Atomicity::ALL {
                for z in Atomicity::ALL {
                    assert_eq!(x.then(y).then(z), x.then(y.then(z)));
                }
            }
        }
    }

    #[test]
    fn composition_and_closure_are_monotone() {
        for x in Atomicity::ALL {
            for y in Atomicity::ALL.into_iter().filter(|&y| below(x, y)) {
                assert!(below(x.closure(), y.closure()));
                for z in Atomicity::ALL {
                    assert!(below(x.then(z), y.then(z)) && below(z.then(x), z.then(y)));
                }
            }
        }
    }

    #[test]
    fn join_is_the_least_upper_bound() {
        for x in Atomicity::ALL {
            for y in Atomicity::ALL {
                assert_eq!(x.join(y), y.join(x));
                assert!(below(x, x.join(y)));
                for z in Atomicity::ALL {
                    let above_both = below(x, z) && below(y, z);
                    assert_eq!(above_both, below(x.join(y), z));
                }
            }
        }
    }

    #[test]
    fn closure_absorbs_repetition() {
        for x in Atomicity::ALL {
            assert_eq!(x.closure().then(x.closure()), x.closure());
            assert!(below(x, x.closure()));
        }
    }
}
