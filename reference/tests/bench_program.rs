//! The program `bench` itself: standard input to standard output.

use std::io::Write;
use std::process::{Command, Stdio};

use hogunlas_reference::bench;
use hogunlas_reference::generate::{self, Rng};

/// What the program prints; it must end normally.
fn printed(input: &[u8]) -> Vec<u8> {
    let mut program = Command::new(env!("CARGO_BIN_EXE_bench"))
        .stdin(Stdio::piped())
        .stdout(Stdio::piped())
        .spawn()
        .expect("bench starts");
    let mut stdin = program.stdin.take().expect("a pipe");
    let input = input.to_vec();
    // Written beside the reading of the output; bench may stop reading before the input's end.
    let writer = std::thread::spawn(move || stdin.write_all(&input).ok());
    let output = program.wait_with_output().expect("bench ends");
    writer.join().expect("the writer ends");
    assert!(output.status.success());
    output.stdout
}

#[test]
fn prints_what_the_library_says() {
    for seed in 0..50 {
        let file = generate::file(&mut Rng::new(seed));
        assert_eq!(printed(&file), bench(&file), "seed {seed}");
    }
}

#[test]
fn prints_the_largest_file() {
    let file = generate::largest_file(&mut Rng::new(1));
    assert_eq!(printed(&file), bench(&file));
}

#[test]
fn prints_the_refusal_of_an_empty_input() {
    assert_eq!(printed(&[]), b"refused 1 at 0\n");
}

#[test]
fn more_than_it_reads_does_not_alter_the_answer() {
    let mut file = generate::largest_file(&mut Rng::new(2));
    file.resize(1_000_000, 0);
    assert_eq!(printed(&file), b"refused 5 at 33173\n");
    assert_eq!(bench(&file), b"refused 5 at 33173\n");
}
