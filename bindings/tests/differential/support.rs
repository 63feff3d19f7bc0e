//! What the comparisons share: lent memory, outcomes, and how often each refusal was met.

use std::collections::BTreeMap;
use std::fmt::{Arguments, Debug};

use hogunlas::{Counts, Refusal, MAX_THREADS};

/// The bytes before and after a lent buffer that a call must leave alone too.
const MARGIN: usize = 64;

/// What a call said, and what the memory that it was lent a part of holds afterwards.
pub struct Outcome<T> {
    pub answer: Result<T, Refusal>,
    memory: Vec<u8>,
    /// Where the lent buffer begins.
    start: usize,
}

/// Lends a call a buffer of `length` bytes between two margins. All of it is filled with a pattern
/// that depends on the position and the salt, so that a shifted, kept or overwritten byte shows;
/// the salt also moves the buffer, so that it begins at addresses of every alignment.
pub fn lend<T, R: IntoRefusal>(
    salt: u64,
    length: usize,
    call: impl FnOnce(&mut [u8]) -> Result<T, R>,
) -> Outcome<T> {
    let start = MARGIN + (salt % 16) as usize;
    let mut memory: Vec<u8> = (0..start + length + MARGIN)
        .map(|at| pattern(salt, at))
        .collect();
    let answer = call(&mut memory[start..start + length]).map_err(R::into_refusal);
    Outcome {
        answer,
        memory,
        start,
    }
}

fn pattern(salt: u64, at: usize) -> u8 {
    (at * 37 + at / 256 + 11) as u8 ^ (salt as u8).rotate_left(3)
}

/// The refusals of both sides, as the library's.
pub trait IntoRefusal {
    fn into_refusal(self) -> Refusal;
}

impl IntoRefusal for Refusal {
    fn into_refusal(self) -> Refusal {
        self
    }
}

impl IntoRefusal for hogunlas_reference::Refusal {
    fn into_refusal(self) -> Refusal {
        Refusal {
            number: self.number,
            detail: self.detail,
        }
    }
}

impl<T: Debug + PartialEq> Outcome<T> {
    /// Fails, and says where, unless answer and memory are as wanted.
    pub fn assert_is(&self, wanted: &Outcome<T>, case: Arguments) {
        if let Some(difference) = self.difference(wanted) {
            panic!("{case}: {difference}");
        }
    }

    /// What is not as wanted in answer or memory.
    pub fn difference(&self, wanted: &Outcome<T>) -> Option<String> {
        let (answer, right) = (&self.answer, &wanted.answer);
        if answer != right {
            return Some(format!("{answer:?} and not {right:?}"));
        }
        assert_eq!(self.memory.len(), wanted.memory.len(), "not tested");
        let mut bytes = self.memory.iter().zip(&wanted.memory);
        let at = bytes.position(|(byte, right)| byte != right)?;
        let (byte, right) = (self.memory[at], wanted.memory[at]);
        let index = at as i64 - self.start as i64;
        Some(format!(
            "{answer:?}, but byte {index} of the buffer is {byte} and not {right}"
        ))
    }
}

/// The reimplementation's counts, as the library's.
pub fn as_ours(threads: [hogunlas_reference::Counts; MAX_THREADS]) -> [Counts; MAX_THREADS] {
    threads.map(|counts| Counts {
        moved: counts.moved,
        waiting: counts.waiting,
        idle: counts.idle,
    })
}

/// How many entries are counted.
fn entries(counts: Counts) -> usize {
    (counts.moved + counts.waiting + counts.idle) as usize
}

/// Fails unless the counts of a run sum as the standard says: each thread's to how often the list
/// names it, and all together to the list's length. A thread that the file does not have counts 0.
pub fn assert_sums(threads: &[Counts; MAX_THREADS], file: &[u8], list: &[u8], case: Arguments) {
    for (number, &counts) in threads.iter().enumerate() {
        let named = list.iter().filter(|&&entry| usize::from(entry) == number);
        assert_eq!(entries(counts), named.count(), "{case}: thread {number}");
    }
    let absent = &threads[usize::from(file[2])..];
    assert!(
        absent.iter().all(|&counts| counts == Counts::default()),
        "{case}"
    );
    assert_eq!(entries(threads.iter().sum()), list.len(), "{case}");
}

/// How often each refusal number was met; 0 stands for answers.
#[derive(Default)]
pub struct Tally(BTreeMap<u32, u32>);

impl Tally {
    pub fn add<T>(&mut self, answer: &Result<T, Refusal>) {
        let number = answer.as_ref().map_or_else(|refusal| refusal.number, |_| 0);
        *self.0.entry(number).or_default() += 1;
    }

    /// Fails if one of the numbers was hardly met or not at all: then the files test too little.
    pub fn assert_met(&self, numbers: impl IntoIterator<Item = u32>) {
        println!("answers (0) and refusals met: {:?}", self.0);
        for number in numbers {
            let met = self.0.get(&number).copied().unwrap_or(0);
            assert!(met >= 20, "refusal {number} met {met} times: {:?}", self.0);
        }
    }
}
