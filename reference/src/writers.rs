//! Which threads write which variables ("Rules": "a READ of an open variable is B if no other
//! thread's code has a WRITE of it, and A otherwise").
//!
//! A WRITE in the last thread counts for a READ in the first, so the code sections are searched
//! for WRITEs before any code is judged.

use crate::op::{self, Word};
use crate::reader::{Cursor, Kind, Program, MAX_THREADS, MAX_VARIABLES};

/// A set of variables, one bit each.
#[derive(Clone, Copy, Default)]
pub(crate) struct VariableSet(u64);

impl VariableSet {
    #[inline]
    pub fn contains(self, variable: usize) -> bool {
        self.0 >> (variable % MAX_VARIABLES) & 1 != 0
    }

    #[inline]
    fn union(self, other: VariableSet) -> VariableSet {
        VariableSet(self.0 | other.0)
    }

    /// The variable that a word writes, if it does. In a sound file it lies below the limit: the
    /// remainder only spares a test.
    #[inline]
    fn written_by([op, _, variable, _]: Word) -> VariableSet {
        let bit = u64::from(op == op::WRITE);
        VariableSet(bit << (usize::from(variable) % MAX_VARIABLES))
    }
}

/// The variables that each thread's code has a WRITE of. For a file that is not sound these are
/// any sets: it is refused whatever its judging finds.
pub(crate) struct Writers([VariableSet; MAX_THREADS]);

impl Writers {
    /// Searches the code from the cursor on. Only a READ of an open variable depends on it, so
    /// without open variables nothing is searched.
    pub fn find<'f>(program: &Program<'f>, cursor: Cursor<'f>) -> Writers {
        let mut writers = Writers([VariableSet::default(); MAX_THREADS]);
        let mut variables = program.variables().iter();
        if variables.any(|variable| variable.kind == Kind::Open) {
            for (written, code) in writers.0.iter_mut().zip(program.code_ahead(cursor)) {
                *written = written_in(code.words);
            }
        }
        writers
    }

    /// The variables that another thread's code has a WRITE of: "a thread's own WRITEs do not
    /// count".
    pub fn written_by_others(&self, thread: usize) -> VariableSet {
        let others = (0..MAX_THREADS).filter(|&other| other != thread);
        let sets = others.map(|other| self.0[other]);
        sets.fold(VariableSet::default(), VariableSet::union)
    }
}

/// The words that are compared with WRITE together, by vector instructions. Most groups have no
/// WRITE.
const GROUP: usize = 8;

fn written_in(words: &[Word]) -> VariableSet {
    let mut written = VariableSet::default();
    let (groups, rest) = words.as_chunks::<GROUP>();
    for group in groups {
        let is_write = group.map(|word| word[0] == op::WRITE);
        if is_write.contains(&true) {
            written = written.union(each_written_in(group));
        }
    }
    written.union(each_written_in(rest))
}

fn each_written_in(words: &[Word]) -> VariableSet {
    let sets = words.iter().map(|&word| VariableSet::written_by(word));
    sets.fold(VariableSet::default(), VariableSet::union)
}
