//! What blocks state of themselves: on generated files every value of the field is answered as the
//! standard says, statements play no other part, and rules for them that look reasonable and are
//! wrong give other answers.

mod common;
#[path = "common/plain_judge.rs"]
#[allow(dead_code)] // some of the rules are for another test
mod plain_judge;
#[path = "common/stated.rs"]
mod stated;

use std::collections::{BTreeMap, BTreeSet};

use common::{judge_in, run_in};
use hogunlas_reference::atomicity::Atomicity;
use hogunlas_reference::generate::{self, atomics, without_statements, AtomicSite, Rng};
use hogunlas_reference::instruction::{MAX_STATEMENT, NOT_STATED};
use hogunlas_reference::reader::Program;
use hogunlas_reference::{bench, state_length, Refusal};
use plain_judge::{judged_with, RIGHT, WRONG_STATEMENTS};
use stated::{
    accepted_file_and_list, sound_file_with_statements, statement_count, statements_are_true,
    with_statements_shown,
};

const FILES: u64 = 20_000;

/// The report, for which the buffer is long enough.
fn judged(file: &[u8]) -> Result<Vec<u8>, Refusal> {
    judge_in(file.len() / 4 + 8, file)
}

fn refused<T>(number: u32, at: usize) -> Result<T, Refusal> {
    common::refused(number, at as u64)
}

/// The offset of the END that an ATOMIC names.
fn end_of(file: &[u8], atomic: AtomicSite) -> usize {
    let at = atomic.offset;
    let distance = u16::from_be_bytes([file[at + 2], file[at + 3]]);
    at + 4 * usize::from(distance)
}

/// Tries every field a of an ATOMIC of an accepted file.
fn try_every_field(file: &[u8], report: &[u8], atomic: AtomicSite) {
    let right = report[atomic.report_index];
    let end = end_of(file, atomic);
    let mut file = file.to_vec();
    for field in 0..=255 {
        file[atomic.field()] = field;
        let wanted = if field > MAX_STATEMENT {
            refused(7, atomic.offset)
        } else if field == NOT_STATED || field == right {
            Ok(report.to_vec())
        } else {
            refused(18, end)
        };
        assert_eq!(judged(&file), wanted, "{field}, {atomic:?} of {file:02X?}");
    }
}

/// Whatever the others state: "A stated value must be exactly the one worked out".
#[test]
fn every_value_of_the_field_is_answered_as_it_must_be() {
    let mut met = BTreeMap::<u8, u32>::new();
    for seed in 0..400 {
        let file = generate::accepted_file(&mut Rng::new(seed));
        let report = judged(&file).expect("an accepted file");
        for atomic in atomics(&file) {
            try_every_field(&file, &report, atomic);
            *met.entry(report[atomic.report_index]).or_default() += 1;
        }
    }
    assert!(met.len() == 4 && met.values().all(|&n| n > 20), "{met:?}");
}

/// "A file with its statements taken out, field a of every ATOMIC made 0, has the same report and
/// runs alike, if it is accepted with them."
#[test]
fn a_file_with_its_statements_taken_out_is_reported_on_and_runs_alike() {
    let mut with_statements = 0;
    for seed in 0..FILES {
        let (file, list) = accepted_file_and_list(&mut Rng::new(seed));
        let without = without_statements(&file);
        assert_eq!(statement_count(&without), 0, "seed {seed}");
        assert!(judged(&file).is_ok(), "seed {seed}");
        assert_eq!(judged(&file), judged(&without), "seed {seed}");
        let needed = state_length(&file).expect("an accepted file");
        let ran = [&file, &without].map(|file| run_in(needed, file, &list, needed));
        assert!(ran[0].is_ok() && ran[0] == ran[1], "seed {seed}");
        with_statements += u64::from(statement_count(&file) > 0);
    }
    assert!(with_statements > FILES / 3, "{with_statements}");
}

/// "In an accepted file every statement is true: field a of each ATOMIC is 0 or its report byte."
#[test]
fn every_statement_of_an_accepted_file_is_true() {
    let (mut accepted, mut false_ones) = (0, 0);
    for file in (0..FILES).filter_map(sound_file_with_statements) {
        match judged(&file) {
            Ok(report) => {
                assert!(statements_are_true(&file, &report), "{file:02X?}");
                accepted += 1;
            }
            Err(refusal) => false_ones += u32::from(refusal.number == Refusal::FALSE_STATEMENT),
        }
    }
    println!("accepted: {accepted}, refused by 18: {false_ones}");
    assert!(accepted > 1_000 && false_ones > 1_000);
}

/// "A sound file that is not refused with 18 gets the same answer from judge without its
/// statements, refusals included."
#[test]
fn a_sound_file_that_is_not_refused_with_18_is_judged_alike_without_statements() {
    let mut met = BTreeMap::<u32, u32>::new();
    for file in (0..FILES).filter_map(sound_file_with_statements) {
        let without = without_statements(&file);
        for length in [file.len() / 4 + 8, 0] {
            let answer = judge_in(length, &file);
            let number = answer.as_ref().err().map_or(0, |refusal| refusal.number);
            *met.entry(number).or_default() += 1;
            if number != Refusal::FALSE_STATEMENT {
                assert_eq!(answer, judge_in(length, &without), "{file:02X?}");
            }
        }
    }
    println!("answers (0) and refusals met: {met:?}");
    assert!(met.keys().copied().eq([0, 9, 10, 11, 12, 13, 16, 18]));
    assert!(met.values().all(|&times| times >= 20), "{met:?}");
}

/// "An ATOMIC shows the letter that it states after the distance, and nothing for 0."
#[test]
fn a_printout_shows_statements_and_is_else_the_same() {
    let printout = |file: &[u8]| String::from_utf8(bench(file)).expect("a text");
    let mut shown = 0;
    for seed in 0..FILES / 4 {
        let file = generate::accepted_file(&mut Rng::new(seed));
        let without = printout(&without_statements(&file));
        let wanted = with_statements_shown(&file, &without);
        assert_eq!(printout(&file), wanted, "seed {seed}");
        shown += statement_count(&file);
    }
    assert!(shown > 5_000, "{shown}");
}

/// A third thread's WRITE of the offset makes thread 0's first block A. It is still atomic: what
/// refuses the file is the statement alone.
#[test]
fn only_the_statement_tells_of_the_recalibration() {
    let before = include_bytes!("../../examples/calibration.bin");
    let after = include_bytes!("../../examples/recalibration.bin");
    assert!(after[3..].starts_with(&before[3..]), "a thread is added");
    let block = atomics(before)[0];
    let report_byte = |file: &[u8]| judged(file).map(|report| report[block.report_index]);
    assert_eq!((before[block.field()], report_byte(before)), (1, Ok(1)));
    assert_eq!(report_byte(after), refused(18, end_of(after, block)));
    assert_eq!(report_byte(&without_statements(after)), Ok(4));
}

/// What can be so of a file with statements, by its answer.
fn facts(file: &[u8], answer: &Result<Vec<u8>, Refusal>) -> Vec<String> {
    match answer {
        Ok(report) => true_statements(file, report),
        Err(Refusal { number, detail }) => {
            let at = *detail as usize;
            match number {
                7 if file[at] == 0x34 => vec![no_statement(file[at + 1])],
                13 => stated_end(file, at).map_or(Vec::new(), |_| vec!["13 before 18".into()]),
                18 => false_statement(file, at),
                _ => Vec::new(),
            }
        }
    }
}

/// A field that is a 7.
fn no_statement(field: u8) -> String {
    match field {
        5 => "field 5".into(),
        255 => "field 255".into(),
        _ => "a field between".into(),
    }
}

fn letter(report_byte: u8) -> char {
    char::from(Atomicity::letter(report_byte))
}

/// The blocks of an accepted file: what each is, whether it states it, and where it stands.
fn true_statements(file: &[u8], report: &[u8]) -> Vec<String> {
    let all = atomics(file);
    let of_block = |&atomic: &AtomicSite| {
        let letter = letter(report[atomic.report_index]);
        let what = match file[atomic.field()] {
            NOT_STATED => "not stated",
            _ => "stated",
        };
        format!("{letter} {what}, {}", depth(file, &all, atomic))
    };
    all.iter().map(of_block).collect()
}

/// Whether an ATOMIC stands within another one's block.
fn depth(file: &[u8], all: &[AtomicSite], atomic: AtomicSite) -> &'static str {
    let at = atomic.offset;
    let is_around = |other: &AtomicSite| other.offset < at && at < end_of(file, *other);
    if all.iter().any(is_around) {
        "inner"
    } else {
        "outermost"
    }
}

/// The ATOMIC of the END at an offset, if it states something.
fn stated_end(file: &[u8], end: usize) -> Option<AtomicSite> {
    let mut all = atomics(file).into_iter();
    let atomic = all.find(|&atomic| end_of(file, atomic) == end);
    let atomic = atomic.expect("a block");
    (file[atomic.field()] != NOT_STATED).then_some(atomic)
}

/// A false statement: where it stands, and how it is false.
fn false_statement(file: &[u8], end: usize) -> Vec<String> {
    let atomic = stated_end(file, end).expect("a statement");
    let place = format!("false, {}", depth(file, &atomics(file), atomic));
    let Ok(report) = judged(&without_statements(file)) else {
        return vec![place, "false, and refused without it".into()];
    };
    let [stated, right] = [file[atomic.field()], report[atomic.report_index]].map(letter);
    vec![place, format!("{stated} stated for {right}")]
}

/// The files that the library is compared on have statements of every kind: true ones of each
/// atomicity, each false one, those that are none, and false ones of blocks that are T.
#[test]
fn statements_of_every_kind_are_met() {
    let mut met = BTreeMap::<String, u32>::new();
    for seed in 0..FILES {
        let file = generate::file(&mut Rng::new(seed));
        for fact in facts(&file, &judged(&file)) {
            *met.entry(fact).or_default() += 1;
        }
    }
    println!("{met:?}");
    let (letters, stated_or_not, sites) = (4, 2, 2);
    let accepted = letters * stated_or_not * sites;
    let false_ones = letters * (letters - 1) + sites + 1;
    let (fields, before_18) = (3, 1);
    assert_eq!(met.len(), accepted + false_ones + fields + before_18);
    assert!(met.values().all(|&times| times >= 8), "{met:?}");
}

/// `bindings/tests/differential/judge.rs` compares the library on these files: each wrong rule would
/// show. No two of them are the same rule.
#[test]
fn wrong_rules_for_statements_give_other_answers() {
    let mut differences = WRONG_STATEMENTS.map(|rule| (rule, 0));
    let mut apart = BTreeSet::new();
    for seed in 0..FILES {
        let file = generate::file(&mut Rng::new(seed));
        let Ok(program) = Program::read(&file) else {
            continue;
        };
        let right = judged_with(RIGHT, &program);
        assert_eq!(judged(&file), right, "seed {seed}");
        let answers = WRONG_STATEMENTS.map(|rule| judged_with(rule, &program));
        for (index, answer) in answers.iter().enumerate() {
            differences[index].1 += u32::from(*answer != right);
            let differ = (0..index).filter(|&before| answers[before] != *answer);
            apart.extend(differ.map(|before| (before, index)));
        }
    }
    for (rule, count) in differences {
        println!("{}: {count}", rule.name);
        assert!(count >= 50, "{}: {count}", rule.name);
    }
    let rules = WRONG_STATEMENTS.len();
    assert_eq!(apart.len(), rules * (rules - 1) / 2, "{apart:?}");
}
