//! Judging one thread's code while it is read: its lock discipline and its atomicities ("Lock
//! discipline", "Atomicities"; refusals 9 to 13 and 18).

use std::mem;

use crate::access::{AccessRules, Rule};
use crate::atomicity::Atomicity;
use crate::code::{Code, Visitor};
use crate::lock_set::LockSet;
use crate::nesting::LEVELS;
use crate::reader::MAX_INSTRUCTIONS;
use crate::refusal::Refusal;

/// An offence of the program's writer.
#[derive(Clone, Copy)]
pub(crate) struct Offence {
    number: u32,
    place: usize,
}

impl Offence {
    pub fn refusal(self, code: Code) -> Refusal {
        Refusal::new(self.number, code.offset_of(self.place))
    }

    /// The first of those met so far and a further one.
    #[cold]
    fn after(first: Option<Offence>, number: u32, place: usize) -> Option<Offence> {
        first.or(Some(Offence { number, place }))
    }
}

/// What an open construct keeps until its closer.
#[derive(Clone, Copy)]
struct Frame {
    /// What the enclosing sequence composes to up to the opener.
    before: Atomicity,
    /// The set at the opener; from ELSE on, the set that the then part ended with.
    held: LockSet,
    /// The then part's atomicity, from ELSE on.
    then_part: Atomicity,
    /// What a block states of itself, if it does.
    stated: Option<Atomicity>,
}

/// Judges a thread's code while it is read, with the lock set and the atomicity so far carried
/// along.
///
/// After the first offence it goes on, since the rest of the file has to be read; the offences that
/// it finds from there on are of no account.
pub(crate) struct Judging<'j> {
    rules: &'j AccessRules,
    /// Zeros at first, which stay at ELSE, AGAIN and END.
    report: &'j mut [u8; MAX_INSTRUCTIONS],
    held: LockSet,
    /// What the innermost sequence composes to so far.
    so_far: Atomicity,
    frames: [Frame; LEVELS],
    depth: usize,
    first_offence: Option<Offence>,
}

impl<'j> Judging<'j> {
    #[inline]
    pub fn new(rules: &'j AccessRules, report: &'j mut [u8; MAX_INSTRUCTIONS]) -> Self {
        let unused = Frame {
            before: Atomicity::B,
            held: LockSet::empty(),
            then_part: Atomicity::B,
            stated: None,
        };
        Judging {
            rules,
            report,
            held: LockSet::empty(),
            so_far: Atomicity::B,
            frames: [unused; LEVELS],
            depth: 0,
            first_offence: None,
        }
    }

    #[inline]
    fn require(&mut self, good: bool, number: u32, place: usize) {
        if !good {
            self.first_offence = Offence::after(self.first_offence, number, place);
        }
    }

    /// Reports an atomicity. A place lies below the limit: the remainder only spares a test.
    #[inline]
    fn put(&mut self, place: usize, atomicity: Atomicity) {
        self.report[place % MAX_INSTRUCTIONS] = atomicity.report_byte();
    }

    /// An instruction that neither opens nor closes. B is neutral and by far the most frequent,
    /// so it is not looked up in the table.
    #[inline]
    fn plain(&mut self, place: usize, atomicity: Atomicity) {
        self.put(place, atomicity);
        if atomicity != Atomicity::B {
            self.so_far = self.so_far.then(atomicity);
        }
    }

    #[inline]
    fn access(&mut self, place: usize, rule: Rule) {
        let allowed = rule.allowed & self.held.includes(rule.needs);
        self.require(allowed, Refusal::ACCESS, place);
        self.plain(place, rule.atomicity);
    }

    #[inline]
    fn innermost(&mut self) -> &mut Frame {
        &mut self.frames[self.depth % LEVELS]
    }

    /// Closes the innermost construct, whose atomicity is known now, and goes on with the
    /// enclosing sequence.
    #[inline]
    fn close(&mut self, opener: usize, whole: Atomicity) {
        self.put(opener, whole);
        self.so_far = self.innermost().before.then(whole);
        self.depth -= 1;
    }

    /// At the code's end no lock may be held. Answers the whole code's atomicity and the first
    /// offence.
    pub fn finish(mut self, end: usize) -> (Atomicity, Option<Offence>) {
        self.require(self.held == LockSet::empty(), Refusal::SETS_DIFFER, end);
        (self.so_far, self.first_offence)
    }
}

impl Visitor for Judging<'_> {
    #[inline]
    fn calculation(&mut self, place: usize) {
        self.plain(place, Atomicity::B);
    }

    #[inline]
    fn read(&mut self, place: usize, variable: u8) {
        self.access(place, self.rules.read(variable));
    }

    #[inline]
    fn write(&mut self, place: usize, variable: u8) {
        self.access(place, self.rules.write(variable));
    }

    #[inline]
    fn take(&mut self, place: usize, lock: u8) {
        self.require(!self.held.holds(lock), Refusal::TAKE_OF_HELD, place);
        self.held = self.held.with(lock);
        self.plain(place, Atomicity::R);
    }

    #[inline]
    fn give(&mut self, place: usize, lock: u8) {
        self.require(self.held.holds(lock), Refusal::GIVE_OF_NOT_HELD, place);
        self.held = self.held.without(lock);
        self.plain(place, Atomicity::L);
    }

    #[inline]
    fn open(&mut self, stated: Option<Atomicity>) {
        self.depth += 1;
        *self.innermost() = Frame {
            before: self.so_far,
            held: self.held,
            then_part: Atomicity::B,
            stated,
        };
        self.so_far = Atomicity::B;
    }

    /// The else part starts with the set at the IF; the then part's set is kept to compare.
    #[inline]
    fn turn_to_else(&mut self) {
        let frame = &mut self.frames[self.depth % LEVELS];
        mem::swap(&mut self.held, &mut frame.held);
        frame.then_part = mem::replace(&mut self.so_far, Atomicity::B);
    }

    #[inline]
    fn end_if(&mut self, place: usize, opener: usize) {
        let frame = *self.innermost();
        self.require(self.held == frame.held, Refusal::SETS_DIFFER, place);
        self.close(opener, frame.then_part.join(self.so_far));
    }

    #[inline]
    fn again(&mut self, place: usize, opener: usize) {
        let held = self.innermost().held;
        self.require(self.held == held, Refusal::SETS_DIFFER, place);
        self.close(opener, self.so_far.closure());
    }

    /// Of two offences the first is remembered: 13 comes before 18.
    #[inline]
    fn end_block(&mut self, place: usize, opener: usize) {
        let whole = self.so_far;
        let is_true = self.innermost().stated.is_none_or(|stated| stated == whole);
        self.require(whole != Atomicity::T, Refusal::BLOCK_IS_T, place);
        self.require(is_true, Refusal::FALSE_STATEMENT, place);
        self.close(opener, whole);
    }
}
