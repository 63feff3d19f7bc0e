//! The step machine: one entry of the list is one step of a thread ("The step machine"; refusals
//! 14 to 16).

use std::iter::Sum;
use std::ops::Add;

use crate::hundredths;
use crate::instruction::Instruction::{self, Atomic};
use crate::instruction::REGISTERS;
use crate::op::{self, Word};
use crate::reader::{Program, MAX_LOCKS, MAX_THREADS, MAX_VARIABLES};
use crate::refusal::{check_buffer, Refusal};

/// The longest list that `run` takes.
pub const MAX_LIST: usize = 65_536;

const VARIABLE_STATE: usize = 4;
const LOCK_STATE: usize = 1;
const THREAD_STATE: usize = 2 + 4 * REGISTERS;

/// How many entries of a list were of each kind: those of one thread, or a sum over threads.
#[derive(Clone, Copy, Debug, Default, PartialEq, Eq)]
pub struct Counts {
    pub moved: u64,
    pub waiting: u64,
    pub idle: u64,
}

impl Counts {
    /// How many entries they are of all kinds.
    pub fn entries(self) -> u64 {
        self.moved + self.waiting + self.idle
    }
}

impl Add for Counts {
    type Output = Counts;

    fn add(self, other: Counts) -> Counts {
        Counts {
            moved: self.moved + other.moved,
            waiting: self.waiting + other.waiting,
            idle: self.idle + other.idle,
        }
    }
}

impl Sum for Counts {
    fn sum<I: Iterator<Item = Counts>>(all: I) -> Counts {
        all.fold(Counts::default(), Add::add)
    }
}

impl<'c> Sum<&'c Counts> for Counts {
    fn sum<I: Iterator<Item = &'c Counts>>(all: I) -> Counts {
        all.copied().sum()
    }
}

/// Runs an accepted file from the start through the list, lays the end state over the front of
/// `out` and answers each thread's counts; those of absent threads are 0.
pub fn run(file: &[u8], list: &[u8], out: &mut [u8]) -> Result<[Counts; MAX_THREADS], Refusal> {
    let program = Program::read_accepted(file)?;
    check_list(&program, list)?;
    check_buffer(out, State::length(&program))?;
    let mut state = State::start(&program);
    let counts = state.run(&program, list);
    state.write(&program, out);
    Ok(counts)
}

/// The length of an accepted file's state.
pub fn state_length(file: &[u8]) -> Result<usize, Refusal> {
    let program = Program::read_accepted(file)?;
    Ok(State::length(&program))
}

fn check_list(program: &Program, list: &[u8]) -> Result<(), Refusal> {
    if list.len() > MAX_LIST {
        return Err(Refusal::new(Refusal::LIST_TOO_LONG, MAX_LIST));
    }
    // Most lists are good. The greatest number is found with vector instructions, which a search
    // that may end early can't have.
    let exists = |entry: u8| usize::from(entry) < program.thread_count();
    if exists(list.iter().copied().fold(0, u8::max)) {
        return Ok(());
    }
    match list.iter().position(|&entry| !exists(entry)) {
        Some(index) => Err(Refusal::new(Refusal::THREAD_NUMBER, index)),
        None => Ok(()),
    }
}

/// What an entry did.
#[derive(Clone, Copy, Debug, PartialEq, Eq)]
pub enum Outcome {
    Moved,
    Waiting,
    Idle,
}

/// A thread's place and registers.
#[derive(Clone, Copy, Debug, Default, PartialEq, Eq, Hash)]
pub struct Thread {
    pub place: u16,
    pub registers: [u32; REGISTERS],
}

impl Thread {
    #[inline]
    fn get(&self, register: u8) -> u32 {
        self.registers[usize::from(register) % REGISTERS]
    }

    #[inline]
    fn set(&mut self, register: u8, value: u32) {
        self.registers[usize::from(register) % REGISTERS] = value;
    }
}

/// A whole state; the elements past the program's counts stay 0.
#[derive(Clone, Debug, PartialEq, Eq, Hash)]
pub struct State {
    pub variables: [u32; MAX_VARIABLES],
    /// 0 for free, else the holder's thread number plus 1.
    pub locks: [u8; MAX_LOCKS],
    pub threads: [Thread; MAX_THREADS],
}

impl State {
    /// Initial values, locks free, places and registers 0.
    pub fn start(program: &Program) -> State {
        let mut state = State {
            variables: [0; MAX_VARIABLES],
            locks: [0; MAX_LOCKS],
            threads: [Thread::default(); MAX_THREADS],
        };
        for (value, variable) in state.variables.iter_mut().zip(program.variables()) {
            *value = variable.initial;
        }
        state
    }

    /// Steps through a list of existing threads and answers each thread's counts; those of absent
    /// threads are 0.
    pub fn run(&mut self, program: &Program, list: &[u8]) -> [Counts; MAX_THREADS] {
        let tallies = self.step_through(program, list);
        let mut counts = [Counts::default(); MAX_THREADS];
        for (thread, tally) in tallies.iter().enumerate().take(program.thread_count()) {
            counts[thread] = tally.counts(list, thread as u8);
        }
        counts
    }

    /// Steps to the list's end, or until every thread has had an idle entry: then only idle ones
    /// are left. (Never inlined, so that the loop has the processor's registers to itself.)
    #[inline(never)]
    fn step_through<'f>(&mut self, program: &Program<'f>, list: &[u8]) -> [Tally<'f>; MAX_THREADS] {
        let mut tallies = program.all_words().map(|code| Tally::new(code, list));
        let mut not_ended = program.thread_count();
        for (index, &entry) in list.iter().enumerate() {
            let tally = &mut tallies[usize::from(entry) % MAX_THREADS];
            match self.step_in(tally.code, entry) {
                Outcome::Moved => {}
                Outcome::Waiting => tally.waiting += 1,
                Outcome::Idle if index < tally.first_idle => {
                    tally.note_first_idle(index);
                    not_ended -= 1;
                    if not_ended == 0 {
                        break;
                    }
                }
                Outcome::Idle => {}
            }
        }
        tallies
    }

    /// One step of an existing thread of a sound program.
    pub fn step(&mut self, program: &Program, number: u8) -> Outcome {
        self.step_in(program.words(usize::from(number)), number)
    }

    /// One step of an existing thread in its code, read as it stands in the file. Every number in
    /// a sound file's instruction lies below its limit: the remainders only spare tests.
    #[inline]
    fn step_in(&mut self, code: &[Word], number: u8) -> Outcome {
        let thread = &mut self.threads[usize::from(number) % MAX_THREADS];
        let place = thread.place;
        let Some(&word) = code.get(usize::from(place)) else {
            return Outcome::Idle;
        };
        let [op, a, b, c] = word;
        let n = op::number(word);
        let mut next = place + 1;
        match op {
            op::SET => thread.set(a, u32::from(n)),
            op::COPY => thread.set(a, thread.get(b)),
            op::ADD => thread.set(a, thread.get(b).wrapping_add(thread.get(c))),
            op::SUB => thread.set(a, thread.get(b).wrapping_sub(thread.get(c))),
            op::LESS => thread.set(a, u32::from(thread.get(b) < thread.get(c))),
            op::MULH => thread.set(a, hundredths::multiply(thread.get(b), thread.get(c))),
            op::LESSS => thread.set(a, hundredths::less(thread.get(b), thread.get(c))),
            op::READ => thread.set(a, self.variables[usize::from(b) % MAX_VARIABLES]),
            op::WRITE => self.variables[usize::from(b) % MAX_VARIABLES] = thread.get(a),
            op::TAKE => {
                let holder = &mut self.locks[usize::from(a) % MAX_LOCKS];
                if *holder != 0 {
                    return Outcome::Waiting;
                }
                *holder = number + 1;
            }
            op::GIVE => self.locks[usize::from(a) % MAX_LOCKS] = 0,
            op::IF | op::WHILE if thread.get(a) == 0 => next += n,
            op::ELSE => next = place + n,
            op::AGAIN => next = place - n,
            // ATOMIC, END, and IF and WHILE whose register is not 0.
            _ => {}
        }
        thread.place = next;
        Outcome::Moved
    }

    /// Whether a thread stands inside one of its blocks.
    pub fn stands_inside(&self, program: &Program, thread: u8) -> bool {
        let place = usize::from(self.threads[usize::from(thread)].place);
        is_inside(&program.code(usize::from(thread)), place)
    }

    /// The bytes a program's state takes.
    pub fn length(program: &Program) -> usize {
        program.variables().len() * VARIABLE_STATE
            + program.lock_count() * LOCK_STATE
            + program.thread_count() * THREAD_STATE
    }

    /// Lays the state over the front of a buffer that is long enough.
    pub fn write(&self, program: &Program, out: &mut [u8]) {
        let (variables, rest) = out.split_at_mut(program.variables().len() * VARIABLE_STATE);
        let (locks, rest) = rest.split_at_mut(program.lock_count() * LOCK_STATE);
        write_numbers(&self.variables, variables);
        locks.copy_from_slice(&self.locks[..program.lock_count()]);
        let threads = self.threads.iter().take(program.thread_count());
        for (thread, bytes) in threads.zip(rest.chunks_exact_mut(THREAD_STATE)) {
            let (place, registers) = bytes.split_at_mut(2);
            place.copy_from_slice(&thread.place.to_be_bytes());
            write_numbers(&thread.registers, registers);
        }
    }
}

/// What is noted of a thread's entries while a list is stepped through, beside the thread's code,
/// so that one index finds both.
///
/// A thread at its end stays there, so all its entries are idle from its first idle one on. So the
/// loop counts nothing for most entries: moved and idle are worked out afterwards.
struct Tally<'f> {
    code: &'f [Word],
    waiting: u64,
    /// The index of the first idle entry; the list's length if there is none.
    first_idle: usize,
}

impl<'f> Tally<'f> {
    fn new(code: &'f [Word], list: &[u8]) -> Tally<'f> {
        Tally {
            code,
            waiting: 0,
            first_idle: list.len(),
        }
    }

    /// Cold, since a thread has only one first idle entry: so the loop is laid out for later ones.
    #[cold]
    fn note_first_idle(&mut self, index: usize) {
        self.first_idle = index;
    }

    /// The counts of the thread of this number.
    fn counts(&self, list: &[u8], thread: u8) -> Counts {
        let (before, from_first_idle) = list.split_at(self.first_idle);
        Counts {
            moved: occurrences(before, thread) - self.waiting,
            waiting: self.waiting,
            idle: occurrences(from_first_idle, thread),
        }
    }
}

/// How often a list names a thread. The entries of a piece are counted in one byte, so that the
/// compiler uses vector instructions on bytes: a piece is as long as a byte and whole vectors
/// allow.
fn occurrences(list: &[u8], thread: u8) -> u64 {
    const PIECE: usize = 224;
    let in_piece = |piece: &[u8]| {
        let named = piece.iter().map(|&entry| u8::from(entry == thread));
        u64::from(named.sum::<u8>())
    };
    let (pieces, rest) = list.as_chunks::<PIECE>();
    let in_pieces: u64 = pieces.iter().map(|piece| in_piece(piece)).sum();
    in_pieces + in_piece(rest)
}

/// Writes as many numbers as there is room for, big-endian.
fn write_numbers(numbers: &[u32], out: &mut [u8]) {
    for (number, bytes) in numbers.iter().zip(out.chunks_exact_mut(4)) {
        bytes.copy_from_slice(&number.to_be_bytes());
    }
}

/// Whether a place lies inside a block: past its ATOMIC, its END included.
pub fn is_inside(code: &[Instruction], place: usize) -> bool {
    code.iter().enumerate().any(|(w, &instruction)| {
        matches!(instruction, Atomic { distance, .. }
            if w < place && place <= w + usize::from(distance))
    })
}
