//! Helpers shared by the tests.
#![allow(dead_code)] // no test program uses all of them

use hogunlas_reference::generate::encode_file;
use hogunlas_reference::instruction::{Instruction, NOT_STATED};
use hogunlas_reference::machine::{Outcome, State};
use hogunlas_reference::reader::{Program, MAX_THREADS};
use hogunlas_reference::{judge, line, run, Counts, Refusal};

/// A buffer filled with a pattern that depends on the position, so that a shifted, kept or
/// overwritten byte shows.
pub fn pattern(length: usize) -> Vec<u8> {
    (0..length)
        .map(|at| (at * 37 + at / 256 + 11) as u8)
        .collect()
}

/// Calls with a buffer of `length` bytes. Answers what the call said and the bytes it wrote;
/// asserts that the bytes past these, and after a refusal all bytes, are kept.
pub fn call<T>(
    length: usize,
    call: impl FnOnce(&mut [u8]) -> Result<T, Refusal>,
    written: impl FnOnce(&T) -> usize,
) -> Result<(T, Vec<u8>), Refusal> {
    let mut buffer = pattern(length);
    let answer = call(&mut buffer);
    let kept_from = answer.as_ref().map_or(0, written);
    assert_eq!(
        &buffer[kept_from..],
        &pattern(length)[kept_from..],
        "bytes past the answer are kept"
    );
    buffer.truncate(kept_from);
    answer.map(|value| (value, buffer))
}

pub fn judge_in(length: usize, file: &[u8]) -> Result<Vec<u8>, Refusal> {
    call(length, |out| judge(file, out), |&used| used).map(|(_, report)| report)
}

pub fn line_in(length: usize, file: &[u8], i: u64) -> Result<Vec<u8>, Refusal> {
    call(length, |out| line(file, i, out), |&used| used).map(|(_, text)| text)
}

/// What `run` answers and writes.
pub type Ran = Result<([Counts; MAX_THREADS], Vec<u8>), Refusal>;

/// `state` is the state's length, which `run` doesn't answer.
pub fn run_in(length: usize, file: &[u8], list: &[u8], state: usize) -> Ran {
    call(length, |out| run(file, list, out), |_| state)
}

/// The counts of eight threads: moved, waiting and idle of the first ones, and 0 of the others.
pub fn counts(first: &[[u64; 3]]) -> [Counts; MAX_THREADS] {
    let mut all = [Counts::default(); MAX_THREADS];
    for (counts, &[moved, waiting, idle]) in all.iter_mut().zip(first) {
        *counts = Counts {
            moved,
            waiting,
            idle,
        };
    }
    all
}

/// The counts and the end state of an accepted file, by one step after the other: each entry is
/// counted for the thread that it names.
pub fn stepped(file: &[u8], list: &[u8]) -> ([Counts; MAX_THREADS], Vec<u8>) {
    let program = Program::read_accepted(file).expect("an accepted file");
    let mut state = State::start(&program);
    let mut counts = [Counts::default(); MAX_THREADS];
    for &entry in list {
        let counts = &mut counts[usize::from(entry)];
        match state.step(&program, entry) {
            Outcome::Moved => counts.moved += 1,
            Outcome::Waiting => counts.waiting += 1,
            Outcome::Idle => counts.idle += 1,
        }
    }
    (counts, written(&program, &state))
}

/// The bytes of a state.
pub fn written(program: &Program, state: &State) -> Vec<u8> {
    let mut bytes = vec![0; State::length(program)];
    state.write(program, &mut bytes);
    bytes
}

/// How often a list names each of eight threads.
pub fn named(list: &[u8]) -> [u64; MAX_THREADS] {
    let mut named = [0; MAX_THREADS];
    for &entry in list {
        named[usize::from(entry)] += 1;
    }
    named
}

pub fn refused<T>(number: u32, detail: u64) -> Result<T, Refusal> {
    Err(Refusal { number, detail })
}

/// An ATOMIC that states nothing.
pub const fn atomic_to(distance: u16) -> Instruction {
    stating(NOT_STATED, distance)
}

/// An ATOMIC that states a report byte.
pub const fn stating(statement: u8, distance: u16) -> Instruction {
    Instruction::Atomic {
        statement,
        distance,
    }
}

/// A file from its parts.
pub fn file(locks: u8, variables: &[[u8; 6]], code: &[&[Instruction]]) -> Vec<u8> {
    encode_file(locks, variables, code)
}

/// Bytes from hexadecimal; `-` stands for none, blanks may separate bytes.
pub fn hex(text: &str) -> Vec<u8> {
    if text == "-" {
        return Vec::new();
    }
    let digits: Vec<u8> = text
        .bytes()
        .filter(|&byte| byte != b' ')
        .map(|byte| (byte as char).to_digit(16).expect("a hexadecimal digit") as u8)
        .collect();
    assert_eq!(digits.len() % 2, 0);
    digits
        .chunks(2)
        .map(|pair| pair[0] << 4 | pair[1])
        .collect()
}
