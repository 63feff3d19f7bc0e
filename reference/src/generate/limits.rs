//! Files at the limits of the standard.

use super::program::{Source, Style};
use super::rng::Rng;
use super::statement::state_blocks;
use super::writer::{Scope, Writer};
use crate::instruction::Instruction::{self, *};
use crate::nesting::MAX_OPEN;
use crate::reader::{MAX_INSTRUCTIONS, MAX_LOCKS, MAX_THREADS, MAX_VARIABLES};

/// A file at one of the limits, or just past it.
pub fn limit_file(rng: &mut Rng) -> Vec<u8> {
    match rng.below(8) {
        0..=1 => largest_file(rng),
        2 => past_largest(rng),
        3 => one_more_instruction(rng),
        4 => one_more_variable(rng),
        5 => deep_file(rng, MAX_OPEN),
        6 => deep_file(rng, MAX_OPEN + 1),
        _ => one_large_thread(rng),
    }
}

/// The largest accepted file: 64 variables, 16 locks, 8 threads of 1,024 instructions.
pub fn largest_file(rng: &mut Rng) -> Vec<u8> {
    largest_source(rng).encode()
}

fn largest_source(rng: &mut Rng) -> Source {
    let mut source = Source::without_code(rng, MAX_LOCKS, MAX_THREADS, MAX_VARIABLES);
    for thread in 0..MAX_THREADS as u8 {
        let code = full_code(rng, &source, thread);
        source.code.push(code);
    }
    state_blocks(rng, &mut source, Style::Careful);
    source
}

/// Accepted code of exactly 1,024 instructions: pieces that each end with no lock held, and COPYs
/// where no further piece has room. A piece exceeds its length by closers and last GIVEs, and by a
/// MULH behind its SET.
fn full_code(rng: &mut Rng, source: &Source, thread: u8) -> Vec<Instruction> {
    let mut code = Vec::new();
    loop {
        let room = MAX_INSTRUCTIONS - code.len();
        let scope = Scope::new(source, thread, Style::Careful, MAX_OPEN, true);
        let piece = Writer::new(rng, scope).write(room / 2);
        if piece.is_empty() || piece.len() > room {
            break;
        }
        code.extend(piece);
    }
    code.resize(MAX_INSTRUCTIONS, Copy { to: 1, from: 2 });
    code
}

/// The largest file with bytes left over.
fn past_largest(rng: &mut Rng) -> Vec<u8> {
    let mut file = largest_file(rng);
    let extra = rng.between(1, 3);
    file.extend((0..extra).map(|_| rng.byte()));
    file
}

fn one_more_instruction(rng: &mut Rng) -> Vec<u8> {
    let mut source = Source::without_code(rng, 2, 1, 4);
    let mut code = full_code(rng, &source, 0);
    code.push(Set { to: 0, number: 0 });
    source.code.push(code);
    source.encode()
}

fn one_more_variable(rng: &mut Rng) -> Vec<u8> {
    let mut source = Source::without_code(rng, 2, 1, MAX_VARIABLES + 1);
    source.code.push(Vec::new());
    source.encode()
}

fn one_large_thread(rng: &mut Rng) -> Vec<u8> {
    let threads = rng.between(1, MAX_THREADS);
    let mut source = Source::without_code(rng, MAX_LOCKS, threads, MAX_VARIABLES);
    source.code = vec![Vec::new(); threads];
    let thread = rng.below(threads);
    source.code[thread] = full_code(rng, &source, thread as u8);
    state_blocks(rng, &mut source, Style::Careful);
    source.encode()
}

/// A file whose one thread opens `depth` entries within each other, of any kinds. All is B, and so
/// is what blocks state.
pub fn deep_file(rng: &mut Rng, depth: usize) -> Vec<u8> {
    let mut code = vec![Set { to: 0, number: 1 }];
    for _ in 0..depth {
        let around = code.len() as u16;
        let test = rng.below(8) as u8;
        code = match rng.below(3) {
            0 => wrap(
                While {
                    test,
                    distance: around + 1,
                },
                code,
                &[Again {
                    distance: around + 1,
                }],
            ),
            1 => wrap(
                Atomic {
                    statement: rng.below(2) as u8,
                    distance: around + 1,
                },
                code,
                &[End],
            ),
            _ => wrap(
                If {
                    test,
                    distance: around + 1,
                },
                code,
                &[Else { distance: 1 }, End],
            ),
        };
    }
    let mut source = Source::without_code(rng, 1, 1, 1);
    source.code.push(code);
    source.encode()
}

fn wrap(opener: Instruction, body: Vec<Instruction>, closers: &[Instruction]) -> Vec<Instruction> {
    [&[opener], body.as_slice(), closers].concat()
}
