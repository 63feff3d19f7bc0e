//! Files that are nearly accepted, and files that are hardly files at all.

use super::program::Source;
use super::rng::Rng;
use super::statement::change_statement;
use super::{accepted_source, sound_file};
use crate::instruction::Instruction::{self, *};
use crate::reader::INSTRUCTION_BYTES;

/// An accepted file with one small change.
pub fn nearly_accepted_file(rng: &mut Rng) -> Vec<u8> {
    let mut source = accepted_source(rng);
    if rng.chance(40) {
        return change_bytes(rng, &source);
    }
    change_source(rng, &mut source);
    source.encode()
}

/// One small change to a program: an instruction, a lock, a variable's kind or writers, a distance,
/// a statement.
fn change_source(rng: &mut Rng, source: &mut Source) {
    match rng.below(22) {
        0..=2 => change_lock_instruction(rng, source),
        3..=4 => replace_instruction(rng, source),
        5 => remove_instruction(rng, source),
        6..=7 => swap_instructions(rng, source),
        8..=9 => change_variable(rng, source),
        10..=12 => add_writer(rng, source),
        13..=14 => change_distance(rng, source),
        _ => change_statement(rng, source),
    }
}

/// A place in some thread's code that satisfies the test.
fn some_place(
    rng: &mut Rng,
    source: &Source,
    wanted: impl Fn(Instruction) -> bool,
) -> Option<(usize, usize)> {
    let mut places = Vec::new();
    for (thread, code) in source.code.iter().enumerate() {
        let fitting = (0..code.len()).filter(|&place| wanted(code[place]));
        places.extend(fitting.map(|place| (thread, place)));
    }
    rng.pick(&places)
}

fn is_plain(instruction: Instruction) -> bool {
    instruction.encode()[0] < 0x30
}

/// TAKE for GIVE or back, or another lock.
fn change_lock_instruction(rng: &mut Rng, source: &mut Source) {
    let is_lock = |i| matches!(i, Take { .. } | Give { .. });
    let Some((thread, place)) = some_place(rng, source, is_lock) else {
        return;
    };
    let other = rng.below(usize::from(source.locks)) as u8;
    let turn = rng.chance(50);
    let instruction = &mut source.code[thread][place];
    *instruction = match *instruction {
        Take { lock } if turn => Give { lock },
        Give { lock } if turn => Take { lock },
        Take { .. } => Take { lock: other },
        _ => Give { lock: other },
    };
}

/// Another plain instruction in the place of one, mostly a TAKE, GIVE, READ or WRITE.
fn replace_instruction(rng: &mut Rng, source: &mut Source) {
    let Some((thread, place)) = some_place(rng, source, is_plain) else {
        return;
    };
    let lock = rng.below(usize::from(source.locks).max(1)) as u8;
    let variable = rng.below(source.variables.len().max(1)) as u8;
    let register = rng.below(8) as u8;
    source.code[thread][place] = match rng.below(5) {
        0 => Take { lock },
        1 => Give { lock },
        2 => Read {
            to: register,
            variable,
        },
        3 => Write {
            from: register,
            variable,
        },
        _ => Copy {
            to: register,
            from: 0,
        },
    };
}

fn remove_instruction(rng: &mut Rng, source: &mut Source) {
    if let Some((thread, place)) = some_place(rng, source, |_| true) {
        source.code[thread].remove(place);
    }
}

fn swap_instructions(rng: &mut Rng, source: &mut Source) {
    let Some((thread, place)) = some_place(rng, source, is_plain) else {
        return;
    };
    let next = (place + 1).min(source.code[thread].len() - 1);
    source.code[thread].swap(place, next);
}

/// Another kind, another g, or both; mostly still a good record.
fn change_variable(rng: &mut Rng, source: &mut Source) {
    if source.variables.is_empty() {
        return;
    }
    let number = rng.below(source.variables.len());
    let record = &mut source.variables[number];
    match rng.below(4) {
        0 => (record[0], record[1]) = (3, 0),
        1 => (record[0], record[1]) = (2, 0),
        2 => record[0] = rng.below(6) as u8,
        _ => record[1] = rng.below(usize::from(source.locks) + 2) as u8,
    }
}

/// A WRITE of an open variable that is read somewhere, at the end of another thread's code, reached
/// or not.
fn add_writer(rng: &mut Rng, source: &mut Source) {
    let is_open = |variable: u8| source.variables[usize::from(variable)][0] == 3;
    let reads = |i| matches!(i, Read { variable, .. } if is_open(variable));
    let Some((reader, place)) = some_place(rng, source, reads) else {
        return;
    };
    let Read { variable, .. } = source.code[reader][place] else {
        return;
    };
    let threads = 0..source.code.len();
    let others: Vec<usize> = threads.filter(|&thread| thread != reader).collect();
    let Some(thread) = rng.pick(&others) else {
        return;
    };
    let write = Write { from: 0, variable };
    source.code[thread].extend(if rng.chance(50) {
        vec![write]
    } else {
        let (to, test, distance) = (1, 1, 2);
        let set = Set { to, number: 0 };
        vec![set, If { test, distance }, write, Else { distance: 1 }, End]
    });
}

/// A distance one too large, one too small, or 0.
fn change_distance(rng: &mut Rng, source: &mut Source) {
    let Some((thread, place)) = some_place(rng, source, |i| !is_plain(i) && i != End) else {
        return;
    };
    let change = rng.below(3);
    let nudge = |distance: u16| match change {
        0 => distance.saturating_add(1),
        1 => distance.saturating_sub(1),
        _ => 0,
    };
    let instruction = &mut source.code[thread][place];
    match instruction {
        If { distance, .. } | While { distance, .. } | Atomic { distance, .. } => {
            *distance = nudge(*distance)
        }
        Else { distance } | Again { distance } => *distance = nudge(*distance),
        _ => {}
    }
}

/// A change that only bytes can have: a cut, an addition, a length, an op, a field, the header.
fn change_bytes(rng: &mut Rng, source: &Source) -> Vec<u8> {
    let mut file = source.encode();
    match rng.below(8) {
        0 => file.truncate(rng.below(file.len())),
        1 => file.extend((0..rng.between(1, 4)).map(|_| rng.byte())),
        2..=3 => change_length(rng, source, &mut file),
        4..=5 => change_word(rng, source, &mut file),
        6 => file[rng.below(3)] = rng.below(20) as u8,
        _ => {
            let at = rng.below(file.len());
            file[at] = rng.byte();
        }
    }
    file
}

/// Changes the length field of the variable section or of a code section.
fn change_length(rng: &mut Rng, source: &Source, file: &mut [u8]) {
    let sections = 1 + source.code.len();
    let at = section_offset(source, rng.below(sections)) - 2;
    let length = u16::from_be_bytes([file[at], file[at + 1]]);
    let changed = match rng.below(6) {
        0 => length.wrapping_add(4),
        1 => length.wrapping_sub(4),
        2 => length.wrapping_add(6),
        3 => length.wrapping_add(1),
        4 => rng.next_u64() as u16,
        _ => 12 * rng.below(400) as u16,
    };
    file[at..at + 2].copy_from_slice(&changed.to_be_bytes());
}

/// Changes one byte of an instruction.
fn change_word(rng: &mut Rng, source: &Source, file: &mut [u8]) {
    let Some((thread, place)) = some_place(rng, source, |_| true) else {
        return;
    };
    let word = section_offset(source, 1 + thread) + place * INSTRUCTION_BYTES;
    let at = word + rng.below(INSTRUCTION_BYTES);
    file[at] = match rng.below(4) {
        0 => rng.byte(),
        1 => file[at].wrapping_add(1),
        2 => file[at].wrapping_sub(1),
        _ => rng.below(16) as u8,
    };
}

/// Where the bytes of a section begin: 0 for the variables, then the threads.
fn section_offset(source: &Source, section: usize) -> usize {
    let mut offset = 3 + 2;
    if section == 0 {
        return offset;
    }
    offset += source.variables.len() * 6 + 2;
    for code in &source.code[..section - 1] {
        offset += code.len() * INSTRUCTION_BYTES + 2;
    }
    offset
}

/// Random bytes, random bytes behind a good header, or a file with several bytes changed.
pub fn damaged_file(rng: &mut Rng) -> Vec<u8> {
    match rng.below(4) {
        0 => random_bytes(rng, 60),
        1 => {
            let header = [1, rng.below(17) as u8, rng.between(1, 8) as u8];
            [&header[..], &random_bytes(rng, 40)].concat()
        }
        2 => {
            let mut file = sound_file(rng);
            for _ in 0..rng.between(1, 6) {
                let at = rng.below(file.len());
                file[at] = rng.byte();
            }
            file
        }
        _ => random_words(rng),
    }
}

fn random_bytes(rng: &mut Rng, most: usize) -> Vec<u8> {
    let length = rng.between(0, most);
    (0..length).map(|_| rng.byte()).collect()
}

/// A good header and one thread of valid instructions in no order: mostly broken nesting.
fn random_words(rng: &mut Rng) -> Vec<u8> {
    let code = (0..rng.between(1, 6)).map(|_| random_word(rng)).collect();
    let mut source = Source::without_code(rng, 1, 1, 1);
    source.code.push(code);
    source.encode()
}

fn random_word(rng: &mut Rng) -> Instruction {
    let distance = rng.below(4) as u16;
    match rng.below(8) {
        0 => If { test: 0, distance },
        1 => Else { distance },
        2 => While { test: 0, distance },
        3 => Again { distance },
        4 => Atomic {
            statement: rng.below(8) as u8,
            distance,
        },
        5..=6 => End,
        _ => Take { lock: 0 },
    }
}
