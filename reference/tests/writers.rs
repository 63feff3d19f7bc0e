//! What a READ of an open variable is depends on the code of all threads. Here generated files are
//! judged a second time, plainly: with the right rule for READ and WRITE of open variables the two
//! agree, and each wrong rule that looks reasonable gives other answers.
//!
//! `statements.rs` does the same with wrong rules for what blocks state.

mod common;
#[path = "common/plain_judge.rs"]
#[allow(dead_code)] // some of the rules are for another test
mod plain_judge;

use std::collections::{BTreeMap, BTreeSet};

use common::judge_in;
use hogunlas_reference::generate::{self, Rng};
use hogunlas_reference::instruction::Instruction::Read;
use hogunlas_reference::machine::is_inside;
use hogunlas_reference::reader::{Kind, Program};
use hogunlas_reference::Refusal;
use plain_judge::{
    judged_with, writers, Rule, Writer, EVERY_READ_IS_A, ONLY_REACHED, RIGHT, TOO_LENIENT,
    TOO_STRICT,
};

const FILES: u64 = 20_000;

/// Shows each sound file with what the right rule answers.
fn each_sound_file(mut show: impl FnMut(&Program, &Result<Vec<u8>, Refusal>)) {
    for seed in 0..FILES {
        let file = generate::file(&mut Rng::new(seed));
        if let Ok(program) = Program::read(&file) {
            let answer = judged_with(RIGHT, &program);
            assert_eq!(judge_in(8_200, &file), answer, "seed {seed}");
            show(&program, &answer);
        }
    }
}

fn is_refused_by(number: u32, answer: &Result<Vec<u8>, Refusal>) -> bool {
    matches!(answer, Err(refusal) if refusal.number == number)
}

fn is_t(answer: &Result<Vec<u8>, Refusal>) -> bool {
    is_refused_by(Refusal::BLOCK_IS_T, answer)
}

/// How often a wrong rule refuses by 13 what is accepted, accepts what is refused by 13, reports
/// otherwise on what both accept, and takes true statements for false.
#[derive(Debug, Default)]
struct Differences {
    refused: u32,
    accepted: u32,
    reported: u32,
    stated: u32,
}

impl Differences {
    fn add(&mut self, right: &Result<Vec<u8>, Refusal>, wrong: &Result<Vec<u8>, Refusal>) {
        self.refused += u32::from(right.is_ok() && is_t(wrong));
        self.accepted += u32::from(is_t(right) && wrong.is_ok());
        self.reported += u32::from(right.is_ok() && wrong.is_ok() && right != wrong);
        let is_false = is_refused_by(Refusal::FALSE_STATEMENT, wrong);
        self.stated += u32::from(right.is_ok() && is_false);
    }
}

/// Where these rules differ from the right one on generated files.
fn differences_of(rules: &[Rule]) -> Vec<Differences> {
    let mut all: Vec<Differences> = rules.iter().map(|_| Differences::default()).collect();
    each_sound_file(|program, right| {
        for (rule, differences) in rules.iter().zip(&mut all) {
            differences.add(right, &judged_with(*rule, program));
        }
    });
    rules.iter().zip(&all).for_each(|(rule, differences)| {
        println!("{}: {differences:?}", rule.name);
        let differ = differences.reported >= 500 && differences.stated >= 100;
        assert!(differ, "{}: {differences:?}", rule.name);
    });
    all
}

#[test]
fn rules_that_are_too_strict_refuse_more() {
    let rules = [&TOO_STRICT[..], &[EVERY_READ_IS_A]].concat();
    for found in differences_of(&rules) {
        assert!(found.refused >= 500 && found.accepted == 0, "{found:?}");
    }
}

#[test]
fn rules_that_are_too_lenient_accept_more() {
    let rules = [&TOO_LENIENT[..], &[ONLY_REACHED]].concat();
    for found in differences_of(&rules) {
        assert!(found.accepted >= 50 && found.refused == 0, "{found:?}");
    }
}

/// The example of a receiver with its frame number is accepted only by the new rule.
#[test]
fn version_1_0_refused_the_frame_number() {
    let file = include_bytes!("../../examples/frame_number.bin");
    let program = Program::read(file).unwrap();
    assert!(judge_in(8_200, file).is_ok());
    assert!(is_t(&judged_with(EVERY_READ_IS_A, &program)));
}

/// Who writes an open variable, seen from a thread that reads it.
fn shape(writers: &[Writer], reader: usize) -> &'static str {
    let threads: BTreeSet<usize> = writers.iter().map(|writer| writer.thread).collect();
    let other = threads.iter().find(|&&thread| thread != reader);
    let is_reached = |writer: &Writer| writer.thread != reader && writer.reached;
    match (threads.contains(&reader), other) {
        (false, None) => "nobody",
        (true, None) => "the reader alone",
        _ if !writers.iter().any(is_reached) => "others, where no run comes",
        (true, Some(_)) => "the reader and others",
        (false, Some(_)) if threads.len() > 1 => "several others",
        (false, Some(&other)) if other < reader => "an earlier thread",
        (false, Some(_)) => "a later thread",
    }
}

/// The shapes of the READs of open variables that stand in blocks.
fn shapes_in_blocks(program: &Program) -> BTreeSet<&'static str> {
    let writers = writers(program);
    let mut shapes = BTreeSet::new();
    for thread in 0..program.thread_count() {
        let code = program.code(thread);
        for (place, &instruction) in code.iter().enumerate() {
            let Read { variable, .. } = instruction else {
                continue;
            };
            let variable = usize::from(variable);
            if program.variables()[variable].kind == Kind::Open && is_inside(&code, place) {
                shapes.insert(shape(&writers[variable], thread));
            }
        }
    }
    shapes
}

#[test]
fn open_variables_have_writers_of_every_kind() {
    let mut accepted = BTreeMap::<&str, u32>::new();
    let mut refused = BTreeMap::<&str, u32>::new();
    each_sound_file(|program, answer| {
        let met = match answer {
            Ok(_) => &mut accepted,
            Err(_) if is_t(answer) => &mut refused,
            Err(_) => return,
        };
        for shape in shapes_in_blocks(program) {
            *met.entry(shape).or_default() += 1;
        }
    });
    for met in [accepted, refused] {
        println!("{met:?}");
        assert_eq!(met.len(), 7, "{met:?}");
        assert!(met.values().all(|&files| files >= 50), "{met:?}");
    }
}
