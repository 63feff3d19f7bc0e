//! What the repository's README shows of `run` is what the compiled library answers; its lines of C
//! print so, and its lines of Rust are the crate's example. The version of the standard that it names
//! is this crate's.

mod c_compiler;
mod stored;

use std::fs;
use std::path::Path;

use c_compiler::{assert_compiled, built, link, printed};
use hogunlas::{Counts, MAX_THREADS};
use hogunlas_reference::machine::{Outcome, State};
use hogunlas_reference::reader::Program;

fn readme() -> String {
    let page = Path::new(env!("CARGO_MANIFEST_DIR")).join("../README.md");
    fs::read_to_string(page).expect("README.md")
}

/// A list as the README writes it: `0*12 1*3` is 0 twelve times, then 1 three times.
fn list_of(text: &str) -> Vec<u8> {
    let number = |text: &str| text.parse::<u8>().expect("a number");
    let group = |text: &str| {
        let (thread, times) = text.split_once('*').expect("THREAD*TIMES");
        vec![number(thread); number(times).into()]
    };
    text.split(' ').flat_map(group).collect()
}

/// The list that stands in the text between these words.
fn list_between(text: &str, before: &str, after: &str) -> Vec<u8> {
    let (_, rest) = text.split_once(before).expect(before);
    list_of(rest.split_once(after).expect(after).0)
}

fn ascent() -> Vec<u8> {
    stored::one(stored::EXAMPLES, "ascent").file
}

/// What `run` answers for the ascent: the counts of each thread and the bytes of the end state.
fn ran(list: &[u8]) -> ([Counts; MAX_THREADS], Vec<u8>) {
    let mut state = [0; hogunlas::MAX_STATE];
    let threads = hogunlas::run(&ascent(), list, &mut state).expect("an accepted file");
    (threads, state[..102].to_vec())
}

/// Numbers of 4 bytes.
fn numbers(bytes: &[u8]) -> Vec<u32> {
    let number = |four: &[u8]| u32::from_be_bytes(four.try_into().expect("4 bytes"));
    bytes.chunks(4).map(number).collect()
}

/// The counts as the README shows them: a row for each of these threads.
fn table(threads: &[Counts]) -> String {
    let mut text = String::from("thread  moved  waiting  idle\n");
    for (number, counts) in threads.iter().enumerate() {
        let Counts {
            moved,
            waiting,
            idle,
        } = counts;
        text += &format!("{number:>6} {moved:>6} {waiting:>8} {idle:>5}\n");
    }
    text
}

/// The state as the README decodes it. The ascent has 8 variables, 2 locks and 2 threads.
fn decoded(state: &[u8]) -> String {
    let mut text = String::new();
    for (number, value) in numbers(&state[..32]).iter().enumerate() {
        text += &format!("v{number} {value}\n");
    }
    for (number, holder) in state[32..34].iter().enumerate() {
        let holder = holder
            .checked_sub(1)
            .map(|thread| format!("held by t{thread}"));
        text += &format!("k{number} {}\n", holder.as_deref().unwrap_or("free"));
    }
    for (number, thread) in state[34..].chunks(34).enumerate() {
        let place = u16::from_be_bytes([thread[0], thread[1]]);
        let registers: Vec<String> = numbers(&thread[2..]).iter().map(u32::to_string).collect();
        text += &format!(
            "t{number} place {place} registers {}\n",
            registers.join(" ")
        );
    }
    text
}

#[test]
fn the_worked_run_is_the_librarys() {
    let text = readme();
    let (_, block) = text.split_once("```\nlist ").expect("a worked run");
    let (list, rest) = block.split_once('\n').expect("an end state");
    let (threads, state) = ran(&list_of(list));
    let shown = rest.split_once("```").expect("the end of the block").0;
    assert_eq!(shown, table(&threads[..2]) + &decoded(&state));
    assert_eq!(threads[2..], [Counts::default(); 6]);
}

/// What stands in the README between the two fences of its only block in this language.
fn lines_in(language: &str) -> String {
    let (text, fence) = (readme(), format!("```{language}\n"));
    let (_, rest) = text.split_once(&fence).expect(language);
    assert!(!rest.contains(&fence), "two blocks of {language}");
    let (lines, _) = rest.split_once("```").expect("the end of the block");
    lines.to_string()
}

/// The README's lines of C as a program over the ascent and a list.
fn c_program(list: &[u8]) -> String {
    let lines = lines_in("c");
    let (include, statements) = lines.split_once("\n\n").expect("an include");
    let elements = |bytes: &[u8]| -> String { bytes.iter().map(|n| format!("{n},")).collect() };
    let (file, list) = (elements(&ascent()), elements(list));
    format!(
        "#include <stdio.h>\n{include}\n\
         static const uint8_t file[] = {{{file}}};\n\
         static const uint8_t list[] = {{{list}}};\n\
         static const size_t file_length = sizeof file, list_length = sizeof list;\n\
         int main(void)\n{{\n{statements}return 0;\n}}\n"
    )
}

#[test]
fn the_lines_of_c_print_the_table() {
    let list = list_between(&readme(), "```\nlist ", "\n");
    let program = built("readme");
    assert_compiled(&link(&c_program(&list), &program));
    assert_eq!(printed(&program), table(&ran(&list).0[..2]));
}

/// The crate's example is compiled and executed with its documentation.
#[test]
fn the_lines_of_rust_are_the_crates_example() {
    let lines = lines_in("rust");
    let example: String = lines.lines().map(|line| format!("//! {line}\n")).collect();
    assert!(include_str!("../src/lib.rs").contains(&example), "{lines}");
}

/// Whether every entry moves while nobody else stands inside a block.
fn is_uninterrupted(program: &Program, list: &[u8]) -> bool {
    let mut state = State::start(program);
    list.iter().all(|&entry| {
        let mut others = (0..2).filter(|&thread| thread != entry);
        let alone = others.all(|other| !state.stands_inside(program, other));
        alone && state.step(program, entry) == Outcome::Moved
    })
}

/// The README's list in which each block is one step: uninterrupted, which the worked run is not,
/// with as many moves of each thread and the same end state.
#[test]
fn the_uninterrupted_list_ends_alike() {
    let text = readme();
    let given = list_between(&text, "```\nlist ", "\n");
    let uninterrupted = list_between(&text, "the list `", "` is uninterrupted");
    let file = ascent();
    let program = Program::read(&file).expect("a sound file");
    assert!(!is_uninterrupted(&program, &given));
    assert!(is_uninterrupted(&program, &uninterrupted));
    let ((given, state), (counts, alike)) = (ran(&given), ran(&uninterrupted));
    assert_eq!(given.map(|of| of.moved), counts.map(|of| of.moved));
    assert_eq!(state, alike);
}

#[test]
fn the_version_is_this_crates() {
    let (major, minor) = (hogunlas::STANDARD_MAJOR, hogunlas::STANDARD_MINOR);
    let named = format!("is version {major}.{minor}: `HOGUNLAS_STANDARD_MAJOR`");
    assert!(readme().contains(&named), "{named}");
}
