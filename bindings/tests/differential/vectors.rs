//! The vectors of the reimplementation, which an independent implementation answered (see
//! reference/vectors/README.md).

use hogunlas::{Counts, Refusal, MAX_THREADS};

use crate::support::{assert_sums, lend};
use crate::vector_file::{answers_its_vectors, bytes, number, Case, Version};

/// Lends a buffer to the call, and another to the expected answer's bytes: what is not alike.
fn difference<T: std::fmt::Debug + PartialEq + Copy>(
    case: &Case,
    length: u64,
    expected: Result<(T, Vec<u8>), Refusal>,
    call: impl FnOnce(&mut [u8]) -> Result<T, Refusal>,
) -> Option<String> {
    let (salt, length) = (case.line as u64, length as usize);
    let wanted = lend(salt, length, |buffer| {
        let (answer, bytes) = expected?;
        buffer[..bytes.len()].copy_from_slice(&bytes);
        Ok::<T, Refusal>(answer)
    });
    lend(salt, length, call).difference(&wanted)
}

#[test]
fn judge_answers_its_vectors() {
    let answer = |fields: &[&str]| match fields {
        ["report", report] => (bytes(report).len(), bytes(report)),
        _ => panic!("not an answer: {fields:?}"),
    };
    answers_its_vectors("judge", |case| {
        let file = case.bytes(1);
        let expected = case.expected(3, answer);
        difference(case, case.number(2), expected, |report| {
            hogunlas::judge(&file, report)
        })
    });
}

/// Triples of counts, and the bytes of the state.
fn ran(fields: &[&str]) -> (Vec<Counts>, Vec<u8>) {
    let ["counts", numbers @ .., "state", state] = fields else {
        panic!("not an answer: {fields:?}")
    };
    let (triples, []) = numbers.as_chunks::<3>() else {
        panic!("not three counts each: {fields:?}")
    };
    let counts = triples.iter().map(|triple| {
        let [moved, waiting, idle] = triple.map(number);
        Counts {
            moved,
            waiting,
            idle,
        }
    });
    (counts.collect(), bytes(state))
}

/// One triple, of all threads together.
fn total(fields: &[&str]) -> (Counts, Vec<u8>) {
    let (counts, state) = ran(fields);
    let [total] = counts[..] else {
        panic!("not one triple: {fields:?}")
    };
    (total, state)
}

/// A triple for each of so many threads.
fn by_thread(count: u8, fields: &[&str]) -> ([Counts; MAX_THREADS], Vec<u8>) {
    let (counts, state) = ran(fields);
    assert_eq!(counts.len(), usize::from(count), "{fields:?}");
    let mut threads = [Counts::default(); MAX_THREADS];
    threads[..counts.len()].copy_from_slice(&counts);
    (threads, state)
}

/// Before version 1.2 the counts of all threads together are recorded.
#[test]
fn run_answers_its_vectors() {
    answers_its_vectors("run", |case| {
        let (file, list) = (case.bytes(1), case.bytes(2));
        let run = |state: &mut [u8]| {
            let threads = hogunlas::run(&file, &list, state)?;
            assert_sums(&threads, &file, &list, format_args!("line {}", case.line));
            Ok(threads)
        };
        if case.version < Version::V1_2 {
            let expected = case.expected(4, total);
            return difference(case, case.number(3), expected, |state| {
                run(state).map(|threads| threads.iter().sum())
            });
        }
        let expected = case.expected(4, |fields| by_thread(file[2], fields));
        difference(case, case.number(3), expected, run)
    });
}

#[test]
fn line_answers_its_vectors() {
    let answer = |fields: &[&str]| match fields {
        ["text", text] => (bytes(text).len(), bytes(text)),
        _ => panic!("not an answer: {fields:?}"),
    };
    answers_its_vectors("line", |case| {
        let (file, i) = (case.bytes(1), case.number(2));
        let expected = case.expected(4, answer);
        difference(case, case.number(3), expected, |text| {
            hogunlas::line(&file, i, text)
        })
    });
}
