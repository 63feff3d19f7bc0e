//! The rows of the table. Before a row is printed, the two sides must have answered the same.

use std::hint::black_box;

use hogunlas::{Counts, Refusal, LINE_BUFFER, MAX_LIST, MAX_REPORT, MAX_STATE};

use crate::files;
use crate::programs;
use crate::times::{over, timed, Times, Unit};

const TURNS: usize = 1_000;

fn refusal(refusal: hogunlas_reference::Refusal) -> Refusal {
    let hogunlas_reference::Refusal { number, detail } = refusal;
    Refusal { number, detail }
}

/// Both sides must answer this, and write the same report.
fn assert_judged(file: &[u8], answer: Result<usize, Refusal>) {
    let (mut report, mut other) = ([9; MAX_REPORT], [9; MAX_REPORT]);
    assert_eq!(hogunlas::judge(file, &mut report), answer);
    let judged = hogunlas_reference::judge(file, &mut other).map_err(refusal);
    assert_eq!(judged, answer);
    assert_eq!(report, other);
}

/// judge into a cleared buffer, a file at each turn, so many calls a turn.
fn judge(files: &[Vec<u8>], turns: usize, calls: usize) -> Times {
    let (mut report, mut other) = ([0; MAX_REPORT], [0; MAX_REPORT]);
    Times::measure(
        turns,
        |turn| {
            let file = &files[turn % files.len()];
            report.fill(0);
            timed(calls, || hogunlas::judge(black_box(file), &mut report))
        },
        |turn| {
            let file = &files[turn % files.len()];
            other.fill(0);
            timed(calls, || {
                hogunlas_reference::judge(black_box(file), &mut other)
            })
        },
    )
}

fn judge_row(what: &str, files: &[Vec<u8>]) {
    for file in files {
        assert_judged(file, Ok(MAX_REPORT));
    }
    let what = format!("judge, 8 threads of 1,024, {what}");
    judge(files, TURNS, 1).print(&what, Unit::Microseconds, 1);
}

pub fn judge_rows() {
    judge_row("guarded READs", &[files::guarded_reads()]);
    judge_row("open READs", &[files::open_reads()]);
    judge_row("openers and closers, flat", &[files::flat_constructs()]);
    judge_row(
        "openers and closers, 16 deep",
        &[files::nested_constructs()],
    );
    judge_row("blocks with statements", &[files::stated_blocks()]);
    judge_row("random code", &files::random_code());
    one_thread_rows();
    refused_row("7 at its end", files::last_op_unknown(), 7, 4);
    refused_row("8 at its end", files::last_entry_open(), 8, 0);
}

/// The calls are short, so that several of them are timed together.
fn one_thread_rows() {
    const CALLS: usize = 16;
    let [long, short] = [1_024, 128].map(|instructions| {
        let file = files::one_thread(instructions);
        assert_judged(&file, Ok(instructions + 1));
        let times = judge(&[file], TURNS, CALLS);
        let what = format!("judge, one thread of {instructions}, guarded READs");
        times.print(&what, Unit::Microseconds, CALLS);
        times
    });
    println!(
        "| judge, one thread of 1024 against 128 | {:.2} times | {:.2} times | |",
        over(long.verified, short.verified),
        over(long.reference, short.reference)
    );
}

/// A file of guarded READs that is refused so many bytes before its end.
fn refused_row(what: &str, file: Vec<u8>, number: u32, before_end: usize) {
    let detail = (file.len() - before_end) as u64;
    assert_judged(&file, Err(Refusal { number, detail }));
    let what = format!("judge, 8 threads of 1,024, refused by {what}");
    judge(&[file], TURNS, 1).print(&what, Unit::Microseconds, 1);
}

fn counts(counts: hogunlas_reference::Counts) -> Counts {
    Counts {
        moved: counts.moved,
        waiting: counts.waiting,
        idle: counts.idle,
    }
}

/// Both sides must answer the same counts of each thread, and write the same state. Answers the
/// counts of all threads together.
fn assert_ran(file: &[u8], list: &[u8]) -> Counts {
    let (mut state, mut other) = ([9; MAX_STATE], [9; MAX_STATE]);
    let ran = hogunlas::run(file, list, &mut state).expect("an accepted file");
    let wanted = hogunlas_reference::run(file, list, &mut other).expect("an accepted file");
    assert_eq!(ran, wanted.map(counts));
    assert_eq!(state, other);
    ran.iter().sum()
}

/// run through a list of the greatest length; a row shows the time of one entry.
fn run_row(what: &str, file: &[u8], list: &[u8]) {
    let Counts {
        moved,
        waiting,
        idle,
    } = assert_ran(file, list);
    let (mut state, mut other) = ([0; MAX_STATE], [0; MAX_STATE]);
    let times = Times::measure(
        TURNS / 2,
        |_| {
            state.fill(0);
            timed(1, || {
                hogunlas::run(black_box(file), black_box(list), &mut state)
            })
        },
        |_| {
            other.fill(0);
            timed(1, || {
                hogunlas_reference::run(black_box(file), black_box(list), &mut other)
            })
        },
    );
    let what = format!("run, an entry: {what} ({moved} moved, {waiting} waiting, {idle} idle)");
    times.print(&what, Unit::Nanoseconds, MAX_LIST);
}

pub fn run_rows() {
    let (turns, random) = (files::round_robin(), files::random_list());
    run_row("round robin", &files::busy_threads(), &turns);
    run_row("random list", &files::busy_threads(), &random);
    run_row("all at one lock", &files::contending_threads(), &turns);
    run_row("signed hundredths", &files::multiplying_threads(), &turns);
    run_row("threads at their end", &files::ended_threads(), &turns);
    run_row(
        "one thread at its end, the others not",
        &files::first_thread_ended(),
        &files::first_thread_only(),
    );
}

/// line judges the file anew; the last line is the dearest to find.
pub fn line_row() {
    let file = files::guarded_reads();
    let last = hogunlas_reference::line_count(&file).expect("an accepted file") - 1;
    let (mut text, mut other) = ([0; LINE_BUFFER], [0; LINE_BUFFER]);
    let times = Times::measure(
        TURNS,
        |_| {
            text.fill(0);
            timed(1, || hogunlas::line(black_box(&file), last, &mut text))
        },
        |_| {
            other.fill(0);
            timed(1, || {
                hogunlas_reference::line(black_box(&file), last, &mut other)
            })
        },
    );
    assert_eq!(text, other, "the two sides must do the same work");
    let what = "line, the last of 8 threads of 1,024, guarded READs";
    times.print(what, Unit::Microseconds, 1);
}

/// The program bench. Most of the time may go into starting it, so that is shown too: on no input
/// it prints one refusal.
pub fn bench_rows() {
    let Some(program) = programs::verified() else {
        println!("| bench: there is no target/bin/bench yet | | | |");
        return;
    };
    let times = programs::measure(&program, &files::guarded_reads());
    let what = "bench, the whole program, 8 threads of 1,024, guarded READs";
    times.print(what, Unit::Microseconds, 1);
    let times = programs::measure(&program, &[]);
    times.print("bench, the whole program, no input", Unit::Microseconds, 1);
}
