//! The verified program `bench`: on the stored files it prints what stands beside them, on
//! generated ones what the library's calls answer; and what it does with an input or an output
//! that fails.

mod stored;
mod vector_file;

use std::collections::BTreeMap;
use std::env;
use std::fs::{self, File};
use std::io::Write;
use std::os::fd::OwnedFd;
use std::os::unix::net::UnixStream;
use std::os::unix::process::ExitStatusExt;
use std::path::{Path, PathBuf};
use std::process::{Command, Output, Stdio};
use std::thread;
use std::time::Duration;

use hogunlas::{LINE_BUFFER, MAX_FILE};
use hogunlas_reference::generate::{self, Rng};
use hogunlas_reference::standard::{examples, Page};

/// How much bench reads at most.
const INPUT: usize = MAX_FILE + 1;

/// The program: `HOGUNLAS_BENCH`, or what `.ci/build` leaves.
fn program() -> PathBuf {
    let program = match env::var_os("HOGUNLAS_BENCH") {
        Some(program) => PathBuf::from(program),
        None => Path::new(env!("CARGO_MANIFEST_DIR")).join("../target/bin/bench"),
    };
    assert!(
        program.is_file(),
        "there is no {}: run `bash .ci/build` at the repository's root, or set HOGUNLAS_BENCH",
        program.display()
    );
    program
}

/// What bench prints if it gets these pieces one after the other. It has to end normally.
fn printed_piecewise(pieces: &[&[u8]], pause: Duration) -> Vec<u8> {
    let mut running = Command::new(program())
        .stdin(Stdio::piped())
        .stdout(Stdio::piped())
        .stderr(Stdio::piped())
        .spawn()
        .expect("bench starts");
    let mut stdin = running.stdin.take().expect("a pipe");
    let output = thread::scope(|scope| {
        scope.spawn(move || {
            for piece in pieces {
                // Past what it reads, bench may have ended already.
                let _ = stdin.write_all(piece);
                thread::sleep(pause);
            }
        });
        running.wait_with_output().expect("bench ends")
    });
    assert!(output.status.success(), "bench: {}", output.status);
    assert!(output.stderr.is_empty(), "bench wrote to standard error");
    output.stdout
}

fn printed(input: &[u8]) -> Vec<u8> {
    printed_piecewise(&[input], Duration::ZERO)
}

/// All lines joined, or the refusal, as `line` answers them.
fn answered(file: &[u8]) -> Vec<u8> {
    let mut printout = Vec::new();
    for i in 0.. {
        let mut text = [0; LINE_BUFFER];
        match hogunlas::line(file, i, &mut text) {
            Ok(length) => printout.extend_from_slice(&text[..length]),
            Err(refusal) if refusal.number == 17 => break,
            Err(refusal) => return format!("{refusal}\n").into_bytes(),
        }
    }
    printout
}

/// Compares as text, which a failure shows.
fn assert_prints(input: &[u8], wanted: &[u8], case: &str) {
    let printed = printed(input);
    let text = String::from_utf8_lossy;
    assert_eq!(text(&printed), text(wanted), "{case}");
    assert_eq!(printed, wanted, "{case}");
}

fn prints_the_stored(folder: &str) {
    for case in stored::all(folder) {
        assert_prints(&case.file, &case.printout, &case.name);
    }
}

#[test]
fn bench_prints_its_vectors() {
    vector_file::answers_its_vectors("bench", |case| {
        let printed = printed(&case.bytes(1));
        let differs = printed != case.bytes(2);
        differs.then(|| String::from_utf8_lossy(&printed).into_owned())
    });
}

#[test]
fn bench_prints_the_examples() {
    prints_the_stored(stored::EXAMPLES);
}

#[test]
fn bench_prints_the_cases() {
    prints_the_stored(stored::CASES);
}

#[test]
fn bench_prints_what_the_standard_shows() {
    for (file, printed) in examples::printouts(&Page::read()) {
        assert_prints(&file, printed.as_bytes(), "docs/STANDARD.md");
    }
}

#[test]
fn bench_prints_all_lines_of_accepted_files() {
    for seed in 0..200 {
        let file = generate::accepted_file(&mut Rng::new(seed));
        let wanted = answered(&file);
        assert!(wanted.starts_with(b"01 version 1\n"), "seed {seed}");
        assert_prints(&file, &wanted, &format!("seed {seed}"));
    }
}

/// Sixteen files of each refusal.
#[test]
fn bench_prints_the_refusals() {
    let numbers = (1..=13).chain([18]);
    let mut met: BTreeMap<u32, u32> = numbers.map(|number| (number, 0)).collect();
    let mut seeds = 0..100_000;
    while met.values().any(|&times| times < 16) {
        let seed = seeds.next().expect("a generator that brings every refusal");
        let file = generate::file(&mut Rng::new(seed));
        let mut report = [0; hogunlas::MAX_REPORT];
        let Err(refusal) = hogunlas::judge(&file, &mut report) else {
            continue;
        };
        let times = met.get_mut(&refusal.number).expect("a refusal of the file");
        if *times == 16 {
            continue;
        }
        *times += 1;
        let wanted = format!("refused {} at {}\n", refusal.number, refusal.detail);
        assert_prints(&file, wanted.as_bytes(), &format!("seed {seed}"));
    }
}

/// As the reimplementation does, whose lines are `line`'s (`differential/line.rs`).
#[test]
fn bench_prints_the_largest_file() {
    let file = generate::largest_file(&mut Rng::new(1));
    assert_eq!(file.len(), MAX_FILE);
    assert!(printed(&file) == hogunlas_reference::bench(&file));
}

/// The largest file with bytes left over: what bench does not read cannot alter the answer.
#[test]
fn bench_refuses_what_is_too_long() {
    let mut file = generate::largest_file(&mut Rng::new(2));
    for length in [INPUT, 40_000, 1_000_000] {
        file.resize(length, 0);
        let case = format!("{length} bytes");
        assert_prints(&file, b"refused 5 at 33173\n", &case);
    }
}

/// A pipe may hand over less than is asked for.
#[test]
fn bench_waits_for_the_rest_of_its_input() {
    let example = stored::one(stored::EXAMPLES, "standard");
    let bytes: Vec<&[u8]> = example.file.chunks(1).collect();
    let printed = printed_piecewise(&bytes, Duration::from_millis(2));
    assert_eq!(printed, example.printout);
    let largest = generate::largest_file(&mut Rng::new(3));
    let pieces: Vec<&[u8]> = largest.chunks(5_000).collect();
    let printed = printed_piecewise(&pieces, Duration::from_millis(2));
    assert!(printed == hogunlas_reference::bench(&largest));
}

// ---- standard input and output that fail, as README's `What bench does with its input and output` says

/// bench as a shell starts it, after a command and with redirections.
fn shell(first: &str, redirections: &str) -> Command {
    let mut command = Command::new("sh");
    command.args(["-c", &format!("{first} exec \"$0\" {redirections}")]);
    command.arg(program());
    command
}

/// How bench ends on a file; where its standard output is a pipe, nobody reads it.
fn ended(mut bench: Command, file: &[u8]) -> Output {
    bench.stdin(Stdio::piped()).stderr(Stdio::piped());
    let mut running = bench.spawn().expect("bench starts");
    drop(running.stdout.take());
    let mut stdin = running.stdin.take().expect("a pipe");
    stdin.write_all(file).expect("bench reads the file");
    drop(stdin);
    running.wait_with_output().expect("bench ends")
}

/// Whether it ended by itself, with 0 and without a word about what went wrong.
fn assert_silent(output: &Output, case: &str) {
    assert_eq!(output.status.code(), Some(0), "{case}: {}", output.status);
    assert!(output.stderr.is_empty(), "{case}");
}

/// Closed, at its end, a folder, open for writing only.
#[test]
fn an_input_that_cannot_be_read_is_empty() {
    for input in ["<&-", "</dev/null", "</", "0>/dev/null"] {
        let output = shell("", input).output().expect("bench ends");
        assert_silent(&output, input);
        assert_eq!(output.stdout, b"refused 1 at 0\n", "{input}");
    }
}

/// A read fails where nothing is there yet and waiting is not asked for. What came before is the
/// file, cut short or not.
#[test]
fn a_read_that_fails_ends_the_input() {
    let example = stored::one(stored::EXAMPLES, "standard");
    for (length, wanted) in [(20, &b"refused 1 at 20\n"[..]), (25, &example.printout)] {
        let (mut ours, theirs) = UnixStream::pair().expect("two sockets");
        theirs.set_nonblocking(true).expect("a setting");
        ours.write_all(&example.file[..length]).expect("room");
        let mut bench = Command::new(program());
        let output = bench.stdin(OwnedFd::from(theirs)).output();
        let output = output.expect("bench ends");
        assert_silent(&output, "a read that fails");
        assert_eq!(output.stdout, wanted);
    }
}

/// Closed, full, open for reading only: the printout is lost, and only its absence says so.
#[test]
fn an_output_that_cannot_be_written_is_lost() {
    let example = stored::one(stored::EXAMPLES, "ascent");
    for output in [">&-", ">/dev/full", "1</dev/null"] {
        let ended = ended(shell("", output), &example.file);
        assert_silent(&ended, output);
    }
}

/// A limit of 8 blocks of 512 bytes stands for a disk that is full after them: what fits is
/// written. Where the limit's signal is not ignored, it ends bench then.
#[test]
fn an_output_that_fills_up_is_cut() {
    let path = Path::new(env!("CARGO_TARGET_TMPDIR")).join("cut.txt");
    let file = generate::largest_file(&mut Rng::new(4));
    let printout = hogunlas_reference::bench(&file);
    let filled = |first: &str| {
        let mut bench = shell(&format!("{first} ulimit -f 8;"), "");
        bench.stdout(File::create(&path).expect("a file"));
        let ended = ended(bench, &file);
        assert!(fs::read(&path).expect("the file") == printout[..8 * 512]);
        ended
    };
    assert_silent(&filled("trap '' XFSZ;"), "SIGXFSZ ignored");
    assert_eq!(filled("").status.signal(), Some(25), "SIGXFSZ");
}

/// The kit's start-up code has each program ignore SIGPIPE, as Rust's does, so it is the same whether
/// the caller ignores that signal or not.
#[test]
fn an_output_that_nobody_reads_is_lost() {
    let example = stored::one(stored::EXAMPLES, "ascent");
    let unread = |first: &str| {
        let mut bench = shell(first, "");
        bench.stdout(Stdio::piped());
        ended(bench, &example.file)
    };
    assert_silent(&unread("trap '' PIPE;"), "SIGPIPE ignored");
    assert_silent(&unread(""), "SIGPIPE");
}

/// How a reader tells that a printout is whole: its last line is that of the last thread's whole
/// code, or it is a refusal; nothing shorter ends so.
#[test]
fn a_cut_printout_can_be_told() {
    let text = String::from_utf8(printed(&stored::one(stored::EXAMPLES, "ascent").file));
    let text = text.expect("a text");
    let whole = |text: &str| text.ends_with("\nthread 1 T\n");
    assert!(text.contains("\n02 threads 2\n") && whole(&text));
    assert!((0..text.len()).all(|length| !whole(&text[..length])));
}
