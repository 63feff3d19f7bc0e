//! Which accesses the lock discipline allows a thread, and what they are ("Lock discipline",
//! "Atomicities").

use crate::atomicity::Atomicity;
use crate::lock_set::LockSet;
use crate::reader::{Kind, Variable, MAX_VARIABLES};
use crate::writers::Writers;

/// When a thread may access a variable, and the access's atomicity.
#[derive(Clone, Copy)]
pub(crate) struct Rule {
    pub allowed: bool,
    pub needs: LockSet,
    pub atomicity: Atomicity,
}

/// An access that is allowed whatever is held, and is B.
const FREE: Rule = Rule {
    allowed: true,
    needs: LockSet::empty(),
    atomicity: Atomicity::B,
};

/// One thread's rules for all variables, worked out before its code is judged.
pub(crate) struct AccessRules {
    reads: [Rule; MAX_VARIABLES],
    writes: [Rule; MAX_VARIABLES],
}

impl AccessRules {
    /// What is the same for every thread; the rest is for `set_thread`.
    pub fn new(variables: &[Variable]) -> AccessRules {
        let mut rules = AccessRules {
            reads: [FREE; MAX_VARIABLES],
            writes: [FREE; MAX_VARIABLES],
        };
        for (number, variable) in variables.iter().enumerate() {
            match variable.kind {
                Kind::Guarded { lock } => {
                    let needs = LockSet::empty().with(lock);
                    rules.reads[number].needs = needs;
                    rules.writes[number].needs = needs;
                }
                Kind::Own { .. } => {}
                Kind::Fixed => rules.writes[number].allowed = false,
                Kind::Open => rules.writes[number].atomicity = Atomicity::A,
            }
        }
        rules
    }

    /// Sets what differs from thread to thread: who owns a variable, and who else writes it.
    pub fn set_thread(&mut self, thread: usize, variables: &[Variable], writers: &Writers) {
        let written_by_others = writers.written_by_others(thread);
        for (number, variable) in variables.iter().enumerate() {
            match variable.kind {
                Kind::Own { thread: owner } => {
                    let allowed = usize::from(owner) == thread;
                    self.reads[number].allowed = allowed;
                    self.writes[number].allowed = allowed;
                }
                Kind::Open => {
                    self.reads[number].atomicity = if written_by_others.contains(number) {
                        Atomicity::A
                    } else {
                        Atomicity::B
                    };
                }
                Kind::Guarded { .. } | Kind::Fixed => {}
            }
        }
    }

    /// The rule for READ. A variable lies below the limit: the remainder only spares a test.
    #[inline]
    pub fn read(&self, variable: u8) -> Rule {
        self.reads[usize::from(variable) % MAX_VARIABLES]
    }

    /// The rule for WRITE.
    #[inline]
    pub fn write(&self, variable: u8) -> Rule {
        self.writes[usize::from(variable) % MAX_VARIABLES]
    }
}
