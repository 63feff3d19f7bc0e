//! What the repository's README shows is what the calls answer.

use std::fs;
use std::path::Path;

use hogunlas_reference::bench;

fn read(path: &str) -> Vec<u8> {
    let root = Path::new(env!("CARGO_MANIFEST_DIR")).join("..");
    fs::read(root.join(path)).expect(path)
}

fn shown() -> String {
    String::from_utf8(read("README.md")).expect("a text")
}

fn printed(example: &str) -> String {
    String::from_utf8(bench(&read(example))).expect("a text")
}

#[test]
fn the_worked_example_is_the_printout() {
    let block = format!("```\n{}```\n", printed("examples/ascent.bin"));
    assert!(shown().contains(&block));
}

#[test]
fn the_refused_examples_are_refused_so() {
    let text = shown();
    let examples = ["torn_pair", "second_writer", "recalibration"];
    for example in examples.map(|name| format!("examples/{name}.bin")) {
        let example = example.as_str();
        let (_, rest) = text.split_once(example).expect(example);
        let (_, said) = rest.split_once("`bench` prints `").expect(example);
        let (refusal, _) = said.split_once('`').expect(example);
        assert_eq!(format!("{refusal}\n"), printed(example));
    }
}

/// The README quotes the line of a block that states what it is.
#[test]
fn a_statement_is_shown_as_it_is_printed() {
    let text = shown();
    let (_, said) = text.split_once("`examples/calibration.bin`").expect("it");
    let (_, said) = said.split_once("prints it as `").expect("a line");
    let (line, _) = said.split_once('`').expect("a line");
    assert!(line.contains(" ATOMIC "), "{line}");
    let printout = printed("examples/calibration.bin");
    assert!(printout.lines().any(|other| other == line), "{line}");
}

/// The READ of a variable that its thread alone writes is B, before the lock is taken.
#[test]
fn the_frame_number_is_read_before_the_lock_is_taken() {
    assert!(shown().contains("`examples/frame_number.bin`"));
    let printout = printed("examples/frame_number.bin");
    let (_, block) = printout
        .split_once(" ATOMIC 11 A\n")
        .expect("an atomic block");
    let (before, _) = block.split_once(" TAKE k0 R\n").expect("a lock");
    assert!(before.contains(" READ r0 v0 B\n"), "{before}");
}
