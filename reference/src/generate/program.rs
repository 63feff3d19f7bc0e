//! Whole programs: header, variables, and code written thread by thread.

use super::channel::Channel;
use super::rng::Rng;
use super::statement::state_blocks;
use super::value::value;
use super::writer::{Scope, Writer};
use crate::instruction::Instruction;
use crate::reader::{MAX_LOCKS, MAX_THREADS};

/// Which rules a writer respects.
#[derive(Clone, Copy, PartialEq, Eq)]
pub(super) enum Style {
    /// Only those that make a file sound.
    Careless,
    /// The lock discipline too, and what blocks state is true; but they may be T.
    Disciplined,
    /// All: the file is accepted.
    Careful,
}

/// A file's parts, before they are written as bytes.
#[derive(Clone, Debug)]
pub(super) struct Source {
    pub locks: u8,
    pub variables: Vec<[u8; 6]>,
    /// Who writes each variable, if it is open.
    pub channels: Vec<Channel>,
    pub code: Vec<Vec<Instruction>>,
}

impl Source {
    pub(super) fn random(rng: &mut Rng, style: Style) -> Source {
        let locks = if rng.chance(5) {
            MAX_LOCKS
        } else {
            rng.between(0, 4)
        };
        let threads = if rng.chance(5) {
            MAX_THREADS
        } else {
            rng.between(1, 4)
        };
        let variables = rng.between(0, 8);
        let mut source = Source::without_code(rng, locks, threads, variables);
        let depth = rng.between(1, 8);
        let ordered = rng.chance(75);
        for thread in 0..threads {
            let length = if rng.chance(8) { 0 } else { rng.between(1, 40) };
            let scope = Scope::new(&source, thread as u8, style, depth, ordered);
            let code = Writer::new(rng, scope).write(length);
            source.code.push(code);
        }
        state_blocks(rng, &mut source, style);
        source
    }

    pub(super) fn small(rng: &mut Rng, style: Style) -> Source {
        let locks = rng.between(1, 2);
        let threads = rng.between(2, 3);
        let variables = rng.between(2, 4);
        let mut source = Source::without_code(rng, locks, threads, variables);
        for thread in 0..threads {
            let length = rng.between(4, 14);
            let scope = Scope::new(&source, thread as u8, style, 3, true);
            let code = Writer::new(rng, scope).write_in_blocks(length);
            source.code.push(code);
        }
        state_blocks(rng, &mut source, style);
        source
    }

    pub(super) fn without_code(
        rng: &mut Rng,
        locks: usize,
        threads: usize,
        variables: usize,
    ) -> Source {
        Source {
            locks: locks as u8,
            variables: (0..variables)
                .map(|_| variable(rng, locks, threads))
                .collect(),
            channels: (0..variables)
                .map(|_| Channel::random(rng, threads))
                .collect(),
            code: Vec::new(),
        }
    }

    pub(super) fn encode(&self) -> Vec<u8> {
        encode_file(self.locks, &self.variables, &self.code)
    }
}

/// A file from its parts: the locks, the variable records, and each thread's code.
pub fn encode_file<C: AsRef<[Instruction]>>(
    locks: u8,
    variables: &[[u8; 6]],
    code: &[C],
) -> Vec<u8> {
    let mut file = vec![1, locks, code.len() as u8];
    push_section(&mut file, &variables.concat());
    for thread in code {
        let words: Vec<[u8; 4]> = thread.as_ref().iter().map(|word| word.encode()).collect();
        push_section(&mut file, &words.concat());
    }
    file
}

fn push_section(file: &mut Vec<u8>, bytes: &[u8]) {
    file.extend_from_slice(&(bytes.len() as u16).to_be_bytes());
    file.extend_from_slice(bytes);
}

/// A good variable record: guarded ones if there is a lock, and some of each other kind. Initial
/// values are where a thread gets numbers from that no SET puts: below zero, and near the ends of the
/// signed span.
fn variable(rng: &mut Rng, locks: usize, threads: usize) -> [u8; 6] {
    let (kind, g) = match rng.below(12) {
        0..=4 if locks > 0 => (0, rng.below(locks)),
        0..=5 => (1, rng.below(threads)),
        6 => (2, 0),
        _ => (3, 0),
    };
    let initial = match rng.below(10) {
        0..=3 => value(rng),
        4..=5 => u32::MAX,
        _ => rng.below(4) as u32,
    };
    let [w, x, y, z] = initial.to_be_bytes();
    [kind, g as u8, w, x, y, z]
}
