//! What blocks state: each field a of accepted files is answered alike, no false statement is
//! accepted, and statements play no other part.

#[path = "../../../reference/tests/common/stated.rs"]
mod stated;

use hogunlas::{Counts, Refusal, LINE_BUFFER, MAX_REPORT, MAX_STATE, MAX_THREADS};
use hogunlas_reference::generate::{self, atomics, without_statements, Rng};

use crate::judge::compare;
use crate::support::Tally;
use stated::{
    accepted_file_and_list, sound_file_with_statements, statement_count, statements_are_true,
    with_statements_shown,
};

const FILES: u64 = 20_000;

/// The limits of statements and of a byte.
const FIELDS: [u8; 9] = [0, 1, 2, 3, 4, 5, 6, 128, 255];

#[test]
fn judge_agrees_on_every_statement_of_every_block() {
    let mut met = [0; FIELDS.len()];
    for seed in 0..FILES / 10 {
        let mut file = generate::accepted_file(&mut Rng::new(seed));
        for at in atomics(&file).into_iter().map(|site| site.field()) {
            let stated = file[at];
            for (field, met) in FIELDS.iter().zip(&mut met) {
                file[at] = *field;
                let accepted = compare(seed, &file, file.len() / 4 + 8).is_ok();
                *met += u32::from(accepted);
            }
            file[at] = stated;
        }
    }
    println!("accepted by field: {met:?}");
    let (statements, others) = met.split_at(5);
    assert!(statements.iter().all(|&met| met > 50), "{met:?}");
    assert!(others.iter().all(|&met| met == 0), "{met:?}");
}

fn report(file: &[u8]) -> Result<Vec<u8>, Refusal> {
    report_in(MAX_REPORT, file)
}

/// The report, into a buffer of so many bytes.
fn report_in(length: usize, file: &[u8]) -> Result<Vec<u8>, Refusal> {
    let mut report = vec![0; length];
    let used = hogunlas::judge(file, &mut report)?;
    report.truncate(used);
    Ok(report)
}

fn ran(file: &[u8], list: &[u8]) -> Result<([Counts; MAX_THREADS], [u8; MAX_STATE]), Refusal> {
    let mut state = [0; MAX_STATE];
    let threads = hogunlas::run(file, list, &mut state)?;
    Ok((threads, state))
}

/// All lines, joined.
fn printout(file: &[u8]) -> String {
    let line = |i| {
        let mut text = [0; LINE_BUFFER];
        let length = hogunlas::line(file, i, &mut text).ok()?;
        Some(String::from_utf8_lossy(&text[..length]).into_owned())
    };
    (0..).map_while(line).collect()
}

/// "A file with its statements taken out, field a of every ATOMIC made 0, has the same report and
/// runs alike, if it is accepted with them."
#[test]
fn a_file_with_its_statements_taken_out_is_reported_on_and_runs_alike() {
    let mut with_statements = 0;
    for seed in 0..FILES {
        let (file, list) = accepted_file_and_list(&mut Rng::new(seed));
        let without = without_statements(&file);
        assert!(report(&file).is_ok(), "seed {seed}");
        assert_eq!(report(&file), report(&without), "seed {seed}");
        assert!(ran(&file, &list) == ran(&without, &list), "seed {seed}");
        with_statements += u64::from(file != without);
    }
    assert!(with_statements > FILES / 3, "{with_statements}");
}

/// "In an accepted file every statement is true: field a of each ATOMIC is 0 or its report byte."
#[test]
fn every_statement_of_an_accepted_file_is_true() {
    let mut tally = Tally::default();
    for file in (0..FILES).filter_map(sound_file_with_statements) {
        let answer = report(&file);
        tally.add(&answer);
        if let Ok(report) = answer {
            assert!(statements_are_true(&file, &report), "{file:02X?}");
        }
    }
    tally.assert_met([0, 18]);
}

/// "A sound file that is not refused with 18 gets the same answer from judge without its
/// statements, refusals included."
#[test]
fn a_sound_file_that_is_not_refused_with_18_is_judged_alike_without_statements() {
    let mut tally = Tally::default();
    for file in (0..FILES).filter_map(sound_file_with_statements) {
        let without = without_statements(&file);
        for length in [MAX_REPORT, 0] {
            let answer = report_in(length, &file);
            tally.add(&answer);
            let is_false = |refusal: &Refusal| refusal.number == 18;
            if !answer.as_ref().is_err_and(is_false) {
                assert_eq!(answer, report_in(length, &without), "{file:02X?}");
            }
        }
    }
    tally.assert_met([0, 9, 10, 11, 12, 13, 16, 18]);
}

/// "An ATOMIC shows the letter that it states after the distance, and nothing for 0."
#[test]
fn a_printout_shows_statements_and_is_else_the_same() {
    let mut shown = 0;
    for seed in 0..FILES / 20 {
        let file = generate::accepted_file(&mut Rng::new(seed));
        let without = printout(&without_statements(&file));
        let wanted = with_statements_shown(&file, &without);
        assert_eq!(printout(&file), wanted, "seed {seed}");
        shown += statement_count(&file);
    }
    assert!(shown > 500, "{shown}");
}
