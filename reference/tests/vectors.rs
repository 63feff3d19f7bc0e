//! The vectors: cases answered by an independent implementation (see vectors/README.md).

#[path = "common/changed.rs"]
mod changed;
mod common;

use std::fmt::Debug;
use std::fs;
use std::path::Path;

use common::{hex, judge_in, line_in, named, run_in};
use hogunlas_reference::{bench, state_length, Counts, Refusal};

/// The folders of `vectors/`, by the standard's version.
const VERSION_1_0: &str = "";
const VERSION_1_1: &str = "1.1";
const VERSION_1_2: &str = "1.2";
const VERSION_1_3: &str = "1.3";
const VERSION_1_4: &str = "1.4";
const VERSIONS: [&str; 5] = [
    VERSION_1_0,
    VERSION_1_1,
    VERSION_1_2,
    VERSION_1_3,
    VERSION_1_4,
];

/// Splits the lines of a vector file into fields, checks each with its line number, and compares
/// the number of cases with the number of lines.
fn each_case(folder: &str, kind: &str, mut check: impl FnMut(&[&str], usize)) {
    let vectors = Path::new(env!("CARGO_MANIFEST_DIR")).join("vectors");
    let path = vectors.join(folder).join(kind).with_extension("txt");
    let text = fs::read_to_string(path).expect("a file of vectors");
    let mut cases = 0;
    for (index, line) in text.lines().enumerate() {
        let fields: Vec<&str> = line.split(' ').collect();
        assert_eq!(fields[0], kind, "line {}", index + 1);
        check(&fields[1..], index + 1);
        cases += 1;
    }
    let newlines = text.bytes().filter(|&byte| byte == b'\n').count();
    assert!(cases > 0 && cases == newlines, "{cases} of {newlines}");
}

/// Every case is answered as recorded, but for the named ones of older versions, which later ones
/// answer otherwise. `answers` makes of a version's case what is answered and what is recorded.
fn answers_its_vectors<T: Debug + PartialEq>(
    kind: &str,
    answers: impl Fn(&str, &[&str]) -> (T, T),
) {
    for version in VERSIONS {
        let mut changed = Vec::new();
        each_case(version, kind, |case, line| {
            let (answered, recorded) = answers(version, case);
            if answered != recorded {
                let can_change = changed::can_change(version, &hex(case[0]), case);
                let at = format!("line {line} of {version}/{kind}.txt");
                assert!(can_change, "{at}: {answered:?}, {recorded:?}");
                changed.push(line);
            }
        });
        let named = changed::lines(version, kind);
        assert_eq!(changed, named, "lines of {version}/{kind}.txt");
    }
}

fn number(field: &str) -> u64 {
    field.parse().expect("a decimal number")
}

/// The expected answer: what `answer` makes of the fields, or the refusal they state.
fn expected<T>(fields: &[&str], answer: impl Fn(&[&str]) -> T) -> Result<T, Refusal> {
    match fields {
        ["refused", n, detail] => Err(Refusal {
            number: number(n) as u32,
            detail: number(detail),
        }),
        _ => Ok(answer(fields)),
    }
}

fn one_text(word: &'static str) -> impl Fn(&[&str]) -> Vec<u8> {
    move |fields| match fields {
        [first, bytes] if *first == word => hex(bytes),
        _ => panic!("not an answer: {fields:?}"),
    }
}

/// The recorded counts, three at a time, and the end state.
fn counts_and_state(fields: &[&str]) -> (Vec<Counts>, Vec<u8>) {
    let ["counts", numbers @ .., "state", state] = fields else {
        panic!("not an answer: {fields:?}")
    };
    let (triples, rest) = numbers.as_chunks::<3>();
    assert!(rest.is_empty(), "not an answer: {fields:?}");
    let counts = triples.iter().map(|triple| {
        let [moved, waiting, idle] = triple.map(number);
        Counts {
            moved,
            waiting,
            idle,
        }
    });
    (counts.collect(), hex(state))
}

/// Whether a version records the counts of each thread, or those of all threads together.
fn records_each_thread(version: &str) -> bool {
    ![VERSION_1_0, VERSION_1_1].contains(&version)
}

/// What a version records of the answered counts: those of each thread of the file, where all
/// others must be 0, or their sums.
fn as_recorded(version: &str, file: &[u8], counts: &[Counts]) -> Vec<Counts> {
    if !records_each_thread(version) {
        return vec![counts.iter().sum()];
    }
    let (present, absent) = counts.split_at(usize::from(file[2]));
    let none = Counts::default();
    assert!(absent.iter().all(|&counts| counts == none), "{counts:?}");
    present.to_vec()
}

#[test]
fn judge_answers_its_vectors() {
    answers_its_vectors("judge", |_, case| {
        let report = judge_in(number(case[1]) as usize, &hex(case[0]));
        (report, expected(&case[2..], one_text("report")))
    });
}

#[test]
fn line_answers_its_vectors() {
    answers_its_vectors("line", |_, case| {
        let text = line_in(number(case[2]) as usize, &hex(case[0]), number(case[1]));
        (text, expected(&case[3..], one_text("text")))
    });
}

#[test]
fn run_answers_its_vectors() {
    answers_its_vectors("run", |version, case| {
        let (file, list) = (hex(case[0]), hex(case[1]));
        let state = state_length(&file).unwrap_or(0);
        let ran = run_in(number(case[2]) as usize, &file, &list, state);
        let answered = ran.map(|(counts, state)| (as_recorded(version, &file, &counts), state));
        (answered, expected(&case[3..], counts_and_state))
    });
}

/// What is recorded adds up: for each thread to how often the list names it, and for all together
/// to the list's length.
#[test]
fn the_recorded_counts_add_up() {
    for version in VERSIONS {
        let mut answered = 0;
        each_case(version, "run", |case, line| {
            let (file, list) = (hex(case[0]), hex(case[1]));
            let Ok((counts, _)) = expected(&case[3..], counts_and_state) else {
                return;
            };
            let entries: Vec<u64> = counts.iter().map(|counts| counts.entries()).collect();
            let sum: u64 = entries.iter().sum();
            assert_eq!(sum, list.len() as u64, "line {line}");
            if records_each_thread(version) {
                assert_eq!(entries, named(&list)[..usize::from(file[2])], "line {line}");
            } else {
                assert_eq!(entries.len(), 1, "line {line}");
            }
            answered += 1;
        });
        assert!(answered >= 100, "{answered} answers of {version}");
    }
}

#[test]
fn bench_answers_its_vectors() {
    answers_its_vectors("bench", |_, case| (bench(&hex(case[0])), hex(case[1])));
}
