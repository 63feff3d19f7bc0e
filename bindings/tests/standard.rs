//! The standard, docs/STANDARD.md, executed by the compiled library: its examples, its tables of
//! answers and its limits.

#[path = "differential/support.rs"]
#[allow(dead_code)] // the tally is for generated files
mod support;

use hogunlas::{LINE_BUFFER, MAX_REPORT, MAX_STATE, MAX_THREADS};
use hogunlas_reference::standard::examples::{self, Answers};
use hogunlas_reference::standard::notation::number;
use hogunlas_reference::standard::Page;
use hogunlas_reference::{state_length, Counts, Refusal};
use support::{assert_sums, lend};

struct Library;

/// The refusal as the reimplementation's, which the page is compared with.
fn refused(refusal: hogunlas::Refusal) -> Refusal {
    Refusal {
        number: refusal.number,
        detail: refusal.detail,
    }
}

/// The counts as the reimplementation's.
fn as_theirs(counts: hogunlas::Counts) -> Counts {
    Counts {
        moved: counts.moved,
        waiting: counts.waiting,
        idle: counts.idle,
    }
}

/// Calls with a buffer of so many bytes; answers what was said and the buffer.
fn answered<T>(
    length: usize,
    call: impl FnOnce(&mut [u8]) -> Result<T, hogunlas::Refusal>,
) -> Result<(T, Vec<u8>), Refusal> {
    let mut held = Vec::new();
    let outcome = lend(0, length, |buffer| {
        let answer = call(buffer);
        held = buffer.to_vec();
        answer
    });
    outcome.answer.map(|answer| (answer, held)).map_err(refused)
}

impl Answers for Library {
    fn judge(&self, file: &[u8]) -> Result<Vec<u8>, Refusal> {
        let (length, report) = answered(MAX_REPORT, |buffer| hogunlas::judge(file, buffer))?;
        Ok(report[..length].to_vec())
    }

    fn run(&self, file: &[u8], list: &[u8]) -> Result<([Counts; MAX_THREADS], Vec<u8>), Refusal> {
        let (threads, state) = answered(MAX_STATE, |buffer| hogunlas::run(file, list, buffer))?;
        assert_sums(
            &threads,
            file,
            list,
            format_args!("run, {file:?}, {list:?}"),
        );
        let length = state_length(file).expect("an accepted file");
        Ok((threads.map(as_theirs), state[..length].to_vec()))
    }

    fn line(&self, file: &[u8], i: u64) -> Result<Vec<u8>, Refusal> {
        let (length, text) = answered(LINE_BUFFER, |buffer| hogunlas::line(file, i, buffer))?;
        Ok(text[..length].to_vec())
    }
}

#[test]
fn every_block_is_what_the_calls_answer() {
    assert!(examples::blocks(&Page::read(), &Library) >= 12);
}

#[test]
fn every_table_of_answers_is_what_the_calls_answer() {
    let page = Page::read();
    assert!(examples::judged_tables(&page, &Library) >= 116);
    assert!(examples::run_table(&page, &Library) >= 17);
}

#[test]
fn signed_hundredths_are_as_the_tables_say() {
    let page = Page::read();
    assert!(examples::multiplied_table(&page, &Library) >= 16);
    assert!(examples::compared_table(&page, &Library) >= 8);
}

#[test]
fn fields_records_and_accesses_are_refused_as_the_tables_say() {
    let page = Page::read();
    assert_eq!(examples::op_table(&page, &Library), 17);
    assert!(examples::kind_table(&page, &Library) >= 1_000);
    assert_eq!(examples::access_table(&page, &Library), 4 * 2 * 4);
}

#[test]
fn the_limits_are_the_standards() {
    let page = Page::read();
    let table = page.table("limit | figure | how it is made up");
    for (name, limit) in [
        ("threads", MAX_THREADS),
        ("bytes of a file", hogunlas::MAX_FILE),
        ("bytes of a report", MAX_REPORT),
        ("bytes of a state", MAX_STATE),
        ("entries of a list", hogunlas::MAX_LIST),
        ("bytes of the buffer for a line", LINE_BUFFER),
    ] {
        let row = table.rows.iter().find(|row| row[0] == name).expect(name);
        assert_eq!(number(&row[1]), limit as u64, "{name}");
    }
}
