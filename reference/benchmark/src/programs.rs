//! The program `bench`, the verified one and the reimplementation's, each started anew and fed
//! through pipes.

use std::env;
use std::io::{self, Read, Write};
use std::path::{Path, PathBuf};
use std::process::{Command, Stdio};

use hogunlas_reference::printout::BENCH_INPUT;

use crate::times::{timed, Times};

/// The word by which this program is told to be the reimplementation's bench.
const REFERENCE_BENCH: &str = "reference-bench";

const TURNS: usize = 200;

/// The verified program: `HOGUNLAS_BENCH`, or what `.ci/build` leaves, if it is there.
pub fn verified() -> Option<PathBuf> {
    let program = match env::var_os("HOGUNLAS_BENCH") {
        Some(program) => PathBuf::from(program),
        None => Path::new(env!("CARGO_MANIFEST_DIR")).join("../../target/bin/bench"),
    };
    program.is_file().then_some(program)
}

pub fn is_reference_bench() -> bool {
    env::args().nth(1).as_deref() == Some(REFERENCE_BENCH)
}

/// What the reimplementation's program does.
pub fn reference_bench() {
    let mut input = Vec::with_capacity(BENCH_INPUT);
    let mut stdin = io::stdin().take(BENCH_INPUT as u64);
    stdin.read_to_end(&mut input).expect("an input");
    let output = hogunlas_reference::bench(&input);
    io::stdout().write_all(&output).expect("an output");
}

pub fn measure(program: &Path, file: &[u8]) -> Times {
    let this = env::current_exe().expect("this program");
    let mut verified = Command::new(program);
    let mut reference = Command::new(this);
    reference.arg(REFERENCE_BENCH);
    let printed = output(&mut verified, file);
    assert!(
        printed == output(&mut reference, file),
        "the two sides must do the same work"
    );
    Times::measure(
        TURNS,
        |_| timed(1, || output(&mut verified, file)),
        |_| timed(1, || output(&mut reference, file)),
    )
}

/// What a program prints. It may print before it has read all: hence the thread that writes.
fn output(program: &mut Command, input: &[u8]) -> Vec<u8> {
    program.stdin(Stdio::piped()).stdout(Stdio::piped());
    let mut running = program.spawn().expect("bench starts");
    let mut stdin = running.stdin.take().expect("a pipe");
    std::thread::scope(|scope| {
        scope.spawn(move || stdin.write_all(input).expect("bench reads its input"));
        running.wait_with_output().expect("bench ends").stdout
    })
}
