//! One thread's code, written front to back with correct distances.
//!
//! A careful writer keeps the lock discipline and knows how far its outermost block
//! has come, so that no block becomes T: right movers first, then at most one A, then left
//! movers.

use super::channel::Channel;
use super::program::{Source, Style};
use super::rng::Rng;
use crate::instruction::Instruction::{self, *};
use crate::instruction::{NOT_STATED, REGISTERS};
use crate::lock_set::LockSet;
use crate::nesting::MAX_OPEN;

/// A variable, as far as a writer has to know it.
#[derive(Clone, Copy)]
struct Variable {
    kind: u8,
    g: u8,
    channel: Channel,
}

/// What one thread's code may name, and how it is written.
pub(super) struct Scope {
    locks: u8,
    thread: u8,
    variables: Vec<Variable>,
    style: Style,
    max_depth: usize,
    /// Whether locks are only taken above those held, so that threads rarely block each other.
    ordered: bool,
}

impl Scope {
    pub(super) fn new(
        source: &Source,
        thread: u8,
        style: Style,
        max_depth: usize,
        ordered: bool,
    ) -> Scope {
        let records = source.variables.iter().zip(&source.channels);
        let variables = records.map(|(&[kind, g, ..], &channel)| Variable { kind, g, channel });
        Scope {
            locks: source.locks,
            thread,
            variables: variables.collect(),
            style,
            max_depth: max_depth.min(MAX_OPEN),
            ordered,
        }
    }
}

/// What may be written at a place, by how far its outermost block has come.
#[derive(Clone, Copy, PartialEq, Eq, PartialOrd, Ord)]
enum Phase {
    /// Outside every block: anything.
    Free,
    /// In a block that is at or below R so far: anything, but an A or L leads to `After`.
    Before,
    /// In a block past its A or first L: only both movers and left movers.
    After,
}

/// Factors of MULH: halves, what is next to a half, and what is above a whole.
const FACTORS: [u16; 6] = [49, 50, 50, 51, 101, 150];

pub(super) struct Writer<'r> {
    rng: &'r mut Rng,
    scope: Scope,
    code: Vec<Instruction>,
    /// The length past which no new item is begun.
    length: usize,
    depth: usize,
    held: LockSet,
    phase: Phase,
    /// Within a loop within a block: only both movers.
    quiet: bool,
}

impl<'r> Writer<'r> {
    pub(super) fn new(rng: &'r mut Rng, scope: Scope) -> Self {
        Writer {
            rng,
            scope,
            code: Vec::new(),
            length: 0,
            depth: 0,
            held: LockSet::empty(),
            phase: Phase::Free,
            quiet: false,
        }
    }

    /// Code of about `length` instructions; closers, the last GIVEs and a MULH behind its
    /// SET may exceed it.
    pub(super) fn write(mut self, length: usize) -> Vec<Instruction> {
        self.length = length;
        while self.code.len() < length {
            self.item(false);
        }
        self.give_all();
        self.code
    }

    /// Code that consists mostly of outermost blocks.
    pub(super) fn write_in_blocks(mut self, length: usize) -> Vec<Instruction> {
        self.length = length;
        while self.code.len() < length {
            if self.rng.chance(75) {
                self.block(false);
            } else {
                self.item(false);
            }
        }
        self.give_all();
        self.code
    }

    /// Whether the lock discipline is kept.
    fn disciplined(&self) -> bool {
        self.scope.style != Style::Careless
    }

    /// Whether only both movers may be written here, so that no block becomes T.
    fn only_both_movers(&self) -> bool {
        self.scope.style == Style::Careful && self.quiet
    }

    /// Whether nothing but both and left movers may be written here, for the same reason.
    fn only_left_movers(&self) -> bool {
        self.scope.style == Style::Careful && (self.quiet || self.phase == Phase::After)
    }

    fn give_all(&mut self) {
        for lock in (0..self.scope.locks).rev() {
            if self.disciplined() && self.held.holds(lock) {
                self.give(lock);
            }
        }
    }

    /// A few items. Balanced ones leave the lock set as it was.
    fn sequence(&mut self, balanced: bool) {
        for _ in 0..self.rng.below(5) {
            if self.code.len() >= self.length {
                return;
            }
            self.item(balanced);
        }
    }

    fn item(&mut self, balanced: bool) {
        let deeper = self.depth < self.scope.max_depth;
        match self.rng.below(20) {
            0..=1 if deeper => self.choice(balanced),
            2 if deeper => self.repetition(),
            3..=5 if deeper => self.block(balanced),
            6..=8 => self.critical_section(),
            9..=10 if !balanced => self.lock_change(),
            11..=16 => self.access(),
            _ => self.calculation(),
        }
    }

    fn register(&mut self) -> u8 {
        self.rng.below(REGISTERS) as u8
    }

    /// One or two instructions that touch registers only.
    fn calculation(&mut self) {
        let (to, left, right) = (self.register(), self.register(), self.register());
        let instruction = match self.rng.below(10) {
            0 => Copy { to, from: left },
            1..=2 => Add { to, left, right },
            3 => Sub { to, left, right },
            4 => Less { to, left, right },
            5..=6 => Lesss { to, left, right },
            7..=8 => self.some_mulh(to, left, right),
            _ => self.some_set(to),
        };
        self.code.push(instruction);
    }

    fn some_set(&mut self, to: u8) -> Instruction {
        let number = if self.rng.chance(80) {
            self.rng.below(4) as u16
        } else {
            self.rng.next_u64() as u16
        };
        Set { to, number }
    }

    /// A MULH, mostly by a factor that a SET puts just before. What registers hold otherwise is mostly
    /// so small that every product would be rounded to 0; with these factors halves on both sides of
    /// zero are met, and products of values near the ends of the signed span lie outside it.
    fn some_mulh(&mut self, to: u8, left: u8, right: u8) -> Instruction {
        if self.rng.chance(60) {
            let number = self.rng.pick(&FACTORS).unwrap_or_default();
            self.code.push(Set { to: right, number });
        }
        Mulh { to, left, right }
    }

    /// A READ or WRITE of a variable that may be accessed here, if there is one.
    fn access(&mut self) {
        let numbers = 0..self.scope.variables.len() as u8;
        let usable = numbers.filter(|&v| self.may_read(v) || self.may_write(v));
        let Some(variable) = self.rng.pick(&usable.collect::<Vec<u8>>()) else {
            return self.calculation();
        };
        if self.may_write(variable) && (!self.may_read(variable) || self.rng.chance(50)) {
            self.write_to(variable);
        } else {
            self.read_from(variable);
        }
    }

    fn variable(&self, number: u8) -> Variable {
        self.scope.variables[usize::from(number)]
    }

    fn may_read(&self, number: u8) -> bool {
        let variable = self.variable(number);
        !self.disciplined()
            || match variable.kind {
                0 => self.held.holds(variable.g),
                1 => variable.g == self.scope.thread,
                2 => true,
                _ => self.no_other_writes(variable) || !self.only_left_movers(),
            }
    }

    fn may_write(&self, number: u8) -> bool {
        let variable = self.variable(number);
        !self.disciplined()
            || match variable.kind {
                2 => false,
                3 => variable.channel.may_write(self.scope.thread) && !self.only_left_movers(),
                _ => self.may_read(number),
            }
    }

    /// Whether a READ of an open variable is B.
    fn no_other_writes(&self, variable: Variable) -> bool {
        variable.channel.no_other_writes(self.scope.thread)
    }

    fn read_from(&mut self, number: u8) {
        let (variable, to) = (self.variable(number), self.register());
        if variable.kind == 3 && !self.no_other_writes(variable) {
            self.commit();
        }
        self.code.push(Read {
            to,
            variable: number,
        });
    }

    fn write_to(&mut self, number: u8) {
        let (variable, from) = (self.variable(number), self.register());
        let write = Write {
            from,
            variable: number,
        };
        if variable.kind == 3 {
            self.commit();
        }
        if variable.kind == 3 && variable.channel.unreached && self.disciplined() {
            self.unreached(write);
        } else {
            self.code.push(write);
        }
    }

    /// An instruction in that part of an IF that is not taken, whatever the other threads do. (One
    /// entry deeper than asked for, where the limit allows it.)
    fn unreached(&mut self, instruction: Instruction) {
        if self.depth == MAX_OPEN {
            return self.calculation();
        }
        let test = self.register();
        let then_part = self.rng.chance(50);
        let number = u16::from(!then_part);
        self.code.push(Set { to: test, number });
        let (to_else, to_end) = if then_part { (2, 1) } else { (1, 2) };
        self.code.push(If {
            test,
            distance: to_else,
        });
        if then_part {
            self.code.push(instruction);
        }
        self.code.push(Else { distance: to_end });
        if !then_part {
            self.code.push(instruction);
        }
        self.code.push(End);
    }

    /// After an A or L, a block may only have left movers.
    fn commit(&mut self) {
        if self.phase == Phase::Before {
            self.phase = Phase::After;
        }
    }

    /// A lock that may be taken here.
    fn lock_to_take(&mut self) -> Option<u8> {
        let locks = 0..self.scope.locks;
        if !self.disciplined() {
            return self.rng.pick(&locks.collect::<Vec<u8>>());
        }
        if self.only_left_movers() {
            return None;
        }
        let held = self.held;
        let above = locks.clone().rev().find(|&lock| held.holds(lock));
        let lowest = match above {
            Some(highest) if self.scope.ordered => highest + 1,
            _ => 0,
        };
        let free: Vec<u8> = locks
            .filter(|&lock| lock >= lowest && !held.holds(lock))
            .collect();
        self.rng.pick(&free)
    }

    /// A lock that may be given here.
    fn lock_to_give(&mut self) -> Option<u8> {
        if self.only_both_movers() {
            return None;
        }
        let any = !self.disciplined();
        let held = self.held;
        let locks = 0..self.scope.locks;
        let usable: Vec<u8> = locks.filter(|&lock| any || held.holds(lock)).collect();
        self.rng.pick(&usable)
    }

    fn take(&mut self, lock: u8) {
        self.held = self.held.with(lock);
        self.code.push(Take { lock });
    }

    fn give(&mut self, lock: u8) {
        self.held = self.held.without(lock);
        self.commit();
        self.code.push(Give { lock });
    }

    /// A TAKE or GIVE that isn't undone here.
    fn lock_change(&mut self) {
        let give = if self.rng.chance(60) {
            self.lock_to_give()
        } else {
            None
        };
        if let Some(lock) = give {
            self.give(lock);
        } else if let Some(lock) = self.lock_to_take() {
            self.take(lock);
        }
    }

    /// TAKE, some accesses, GIVE.
    fn critical_section(&mut self) {
        let Some(lock) = self.lock_to_take() else {
            return self.access();
        };
        self.take(lock);
        if self.rng.chance(70) {
            self.access();
        }
        self.sequence(true);
        if self.rng.chance(50) {
            self.access();
        }
        self.give(lock);
    }

    /// An IF, its parts ending with equal sets; unless balanced, both may make the same change.
    fn choice(&mut self, balanced: bool) {
        let change = if balanced { None } else { self.some_change() };
        let test = self.tested_register();
        let opener = self.open(If { test, distance: 0 });
        let (held, phase) = (self.held, self.phase);
        self.part(change);
        let then_phase = self.phase;
        let middle = self.code.len();
        self.code.push(Else { distance: 0 });
        (self.held, self.phase) = (held, phase);
        self.part(change);
        self.phase = self.phase.max(then_phase);
        self.code[opener] = If {
            test,
            distance: (middle - opener) as u16,
        };
        self.code[middle] = Else {
            distance: (self.code.len() - middle) as u16,
        };
        self.close(End);
    }

    /// A TAKE or GIVE that both parts of an IF make.
    fn some_change(&mut self) -> Option<Instruction> {
        if self.rng.chance(50) {
            let lock = self.lock_to_take()?;
            return Some(Take { lock });
        }
        let lock = self.lock_to_give()?;
        Some(Give { lock })
    }

    /// A part of an IF, with the change at its start or after both movers only.
    fn part(&mut self, change: Option<Instruction>) {
        if self.rng.chance(50) {
            self.calculation();
        }
        match change {
            Some(Take { lock }) => self.take(lock),
            Some(Give { lock }) => self.give(lock),
            _ => {}
        }
        self.sequence(true);
    }

    /// A WHILE; mostly one that counts down a register, so that it ends.
    fn repetition(&mut self) {
        let counted = self.rng.chance(70);
        let test = self.tested_register();
        let one = (test + 1) % REGISTERS as u8;
        let opener = self.open(While { test, distance: 0 });
        let quiet = self.quiet;
        self.quiet = quiet || self.phase != Phase::Free;
        self.sequence(true);
        self.quiet = quiet;
        if counted {
            self.code.push(Set { to: one, number: 1 });
            let (to, left, right) = (test, test, one);
            self.code.push(Sub { to, left, right });
        }
        let distance = (self.code.len() - opener) as u16;
        self.code[opener] = While { test, distance };
        self.close(Again { distance });
    }

    /// An ATOMIC; an inner one goes on where the outer one is.
    fn block(&mut self, balanced: bool) {
        let outer = self.phase;
        let opener = self.open(Atomic {
            statement: NOT_STATED,
            distance: 0,
        });
        self.phase = outer.max(Phase::Before);
        match self.rng.below(10) {
            0..=4 if outer == Phase::Free => self.critical_section(),
            5..=7 if !balanced => self.lock_change(),
            _ => {}
        }
        self.sequence(balanced);
        if outer == Phase::Free {
            self.phase = Phase::Free;
        }
        let distance = (self.code.len() - opener) as u16;
        self.code[opener] = Atomic {
            statement: NOT_STATED,
            distance,
        };
        self.close(End);
    }

    /// A register to test, mostly set to a small number just before.
    fn tested_register(&mut self) -> u8 {
        let test = self.register();
        if self.rng.chance(70) {
            let number = self.rng.below(4) as u16;
            self.code.push(Set { to: test, number });
        }
        test
    }

    fn open(&mut self, opener: Instruction) -> usize {
        self.depth += 1;
        self.code.push(opener);
        self.code.len() - 1
    }

    fn close(&mut self, closer: Instruction) {
        self.depth -= 1;
        self.code.push(closer);
    }
}
