//! The standard, docs/STANDARD.md, executed by the reimplementation: its examples, its tables of
//! answers, and the tables that the reimplementation has as constants.

mod common;

use std::collections::BTreeSet;

use common::{judge_in, line_in, run_in, Ran};
use hogunlas_reference::atomicity::Atomicity::{self, *};
use hogunlas_reference::generate::without_statements;
use hogunlas_reference::instruction::{Instruction, REGISTERS};
use hogunlas_reference::judge::MAX_REPORT;
use hogunlas_reference::machine::{is_inside, Outcome, State, Thread, MAX_LIST};
use hogunlas_reference::nesting::MAX_OPEN;
use hogunlas_reference::printout::{BENCH_INPUT, LINE_BUFFER};
use hogunlas_reference::reader::*;
use hogunlas_reference::standard::examples::{self, named_file, Answers};
use hogunlas_reference::standard::notation::{self, bytes, instruction, number, numbers};
use hogunlas_reference::standard::{Block, Page};
use hogunlas_reference::{bench, state_length, Refusal};

struct Reimplementation;

impl Answers for Reimplementation {
    fn judge(&self, file: &[u8]) -> Result<Vec<u8>, Refusal> {
        judge_in(MAX_REPORT + 3, file)
    }

    fn run(&self, file: &[u8], list: &[u8]) -> Ran {
        let length = state_length(file).unwrap_or(0);
        run_in(length + 3, file, list, length)
    }

    fn line(&self, file: &[u8], i: u64) -> Result<Vec<u8>, Refusal> {
        line_in(LINE_BUFFER + 3, file, i)
    }
}

/// The heads of all tables: those that are compared with something, then those for the reader.
const COMPARED: [&str; 23] = [
    "limit | figure | how it is made up",
    "kind | name | g | who may use it",
    "op | name | a | b | c | what it does",
    "b | c | product divided by 100 | MULH | register a | tells apart",
    "b | c | LESSS | LESS",
    "broken | code | answer",
    "kind | READ | WRITE",
    "letter | report byte | name | meaning",
    "at or below | B | L | R | A | T",
    "join | B | L | R | A | T",
    "; | B | L | R | A | T",
    "closure of | B | L | R | A | T",
    "instruction | registers, variables, locks | place afterwards",
    "lines | how many | form",
    "call | takes | bytes needed in the buffer | answers | refusals, in their order",
    "number | name | who | offence | D",
    "bytes | answer | why",
    "proved | case | computed | answer",
    "proved | case | locks | variables | code | answer",
    "proved | case | locks | variables | code | list | counts | in the end",
    "mistake | locks | variables | code | answer",
    "place | inside",
    "fenced block | what it says",
];
const FOR_THE_READER: [&str; 3] = [
    "call | question | where",
    "offset | bytes | what",
    "version | what changed",
];

#[test]
fn every_table_is_known_and_stands_once() {
    let mut heads: Vec<String> = Page::read()
        .tables
        .iter()
        .map(|table| table.head.join(" | "))
        .collect();
    let mut known: Vec<&str> = COMPARED.into_iter().chain(FOR_THE_READER).collect();
    heads.sort();
    known.sort();
    assert_eq!(heads, known);
}

#[test]
fn every_kind_of_block_is_said_how_to_read_and_shown() {
    let page = Page::read();
    let table = page.table("fenced block | what it says");
    let kind = |text: &str| text.split(' ').next().unwrap_or_default().to_string();
    let said: BTreeSet<String> = table.rows.iter().map(|row| kind(&row[0])).collect();
    let shown: BTreeSet<String> = page.blocks.iter().map(|block| block.kind.clone()).collect();
    assert_eq!(shown, said);
}

#[test]
fn every_block_is_what_the_calls_answer() {
    let page = Page::read();
    assert!(examples::blocks(&page, &Reimplementation) >= 12);
    for (file, printed) in examples::printouts(&page) {
        assert_eq!(bench(&file), printed.as_bytes());
    }
}

#[test]
fn every_table_of_answers_is_what_the_calls_answer() {
    let page = Page::read();
    assert!(examples::judged_tables(&page, &Reimplementation) >= 116);
    assert!(examples::run_table(&page, &Reimplementation) >= 17);
}

/// What a row tells apart is compared in `hundredths.rs`, where the mistakes are.
#[test]
fn signed_hundredths_are_as_the_tables_say() {
    let page = Page::read();
    assert!(examples::multiplied_table(&page, &Reimplementation) >= 16);
    assert!(examples::compared_table(&page, &Reimplementation) >= 8);
}

#[test]
fn fields_records_and_accesses_are_refused_as_the_tables_say() {
    let page = Page::read();
    assert_eq!(examples::op_table(&page, &Reimplementation), 17);
    assert!(examples::kind_table(&page, &Reimplementation) >= 1_000);
    assert_eq!(examples::access_table(&page, &Reimplementation), 4 * 2 * 4);
}

/// The names of instructions and kinds are the printout's.
#[test]
fn names_are_as_the_tables_say() {
    let page = Page::read();
    let ops = page.table("op | name | a | b | c | what it does");
    for row in &ops.rows {
        let decoded = Instruction::decode([bytes(&row[0])[0], 0, 0, 0]).expect("an op code");
        let shown = format!("{decoded:?}");
        let name = shown.split(' ').next().unwrap_or_default();
        assert_eq!(name.to_uppercase(), row[1]);
    }
    let kinds = page.table("kind | name | g | who may use it");
    for row in &kinds.rows {
        let kind = bytes(&row[0])[0];
        let file = [1, 1, 1, 0, 6, kind, 0, 0, 0, 0, 0, 0, 0];
        let line = line_in(LINE_BUFFER, &file, 4).expect("the variable's line");
        let text = String::from_utf8(line).expect("a text");
        assert_eq!(text.trim_end().split(' ').nth(4), Some(row[1].as_str()));
    }
}

/// Each form is met: the page's printouts, and that of a file with all instructions and kinds.
#[test]
fn every_printed_line_has_one_of_the_forms() {
    let page = Page::read();
    let cases = concat!(env!("CARGO_MANIFEST_DIR"), "/../examples/cases");
    let file = std::fs::read(format!("{cases}/every_name.bin")).expect("a file");
    let printout = std::fs::read_to_string(format!("{cases}/every_name.txt")).expect("a text");
    let mut met = examples::line_forms(&page, &file, &printout);
    for block in page.blocks("printout") {
        let file = named_file(&page, &block.name);
        met.extend(examples::line_forms(&page, &file, &block.lines.join("\n")));
    }
    let met: BTreeSet<usize> = met.into_iter().collect();
    let forms = page.table("lines | how many | form").rows.len();
    assert_eq!(met.len(), forms, "each form is met");
}

// The atomicities.

fn atomicity(letter: &str) -> Atomicity {
    let all = Atomicity::ALL.into_iter();
    let mut named = all.filter(|&x| Atomicity::letter(x.report_byte()) == letter.as_bytes()[0]);
    named
        .next()
        .unwrap_or_else(|| panic!("no atomicity: {letter}"))
}

/// Compares all cells of a table of two atomicities.
fn compare_all(head: &str, computed: impl Fn(Atomicity, Atomicity) -> String) {
    let page = Page::read();
    let table = page.table(head);
    assert_eq!(table.rows.len(), 5, "{head}");
    let rows: BTreeSet<&String> = table.rows.iter().map(|row| &row[0]).collect();
    assert_eq!(rows.len(), 5, "{head}");
    for row in &table.rows {
        for (column, cell) in table.head.iter().zip(row).skip(1) {
            let right = computed(atomicity(&row[0]), atomicity(column));
            assert_eq!(*cell, right, "{head}: {} and {column}", row[0]);
        }
    }
}

fn letter(x: Atomicity) -> String {
    char::from(Atomicity::letter(x.report_byte())).to_string()
}

#[test]
fn composition_join_and_order_are_the_tables() {
    compare_all("; | B | L | R | A | T", |x, y| letter(x.then(y)));
    compare_all("join | B | L | R | A | T", |x, y| letter(x.join(y)));
    compare_all("at or below | B | L | R | A | T", |x, y| {
        let below = x.join(y) == y;
        String::from(if below { "yes" } else { "no" })
    });
}

#[test]
fn closure_letters_and_report_bytes_are_the_tables() {
    let page = Page::read();
    let closure = page.table("closure of | B | L | R | A | T");
    let [row] = &closure.rows[..] else {
        panic!("one row")
    };
    for (of, is) in closure.head.iter().zip(row).skip(1) {
        assert_eq!(*is, letter(atomicity(of).closure()), "closure of {of}");
    }
    let letters = page.table("letter | report byte | name | meaning");
    assert_eq!(letters.rows.len(), 5);
    for row in &letters.rows {
        assert_eq!(number(&row[1]), u64::from(atomicity(&row[0]).report_byte()));
    }
}

#[test]
fn the_cases_of_atomicities_are_computed_so() {
    let page = Page::read();
    let cases = page.table("proved | case | computed | answer");
    assert_eq!(cases.rows.len(), 4);
    for row in &cases.rows {
        let computed = match row[2].split_once(" joined ") {
            Some((x, y)) => atomicity(x).join(atomicity(y)),
            None => match row[2].strip_prefix("closure of ") {
                Some(x) => atomicity(x).closure(),
                None => {
                    let (x, y) = row[2].split_once(';').expect("x;y");
                    atomicity(x).then(atomicity(y))
                }
            },
        };
        assert_eq!(letter(computed), row[3], "{row:?}");
    }
    assert_eq!(
        (R.then(L), L.then(R), L.join(R), A.closure()),
        (A, T, A, T),
        "not empty"
    );
}

// Limits, refusals, calls.

#[test]
fn the_limits_are_the_reimplementations() {
    let page = Page::read();
    let table = page.table("limit | figure | how it is made up");
    for row in &table.rows {
        let limit = match row[0].as_str() {
            "locks" => MAX_LOCKS,
            "threads" => MAX_THREADS,
            "variables" => MAX_VARIABLES,
            "instructions of a thread" => MAX_INSTRUCTIONS,
            "registers of a thread" => REGISTERS,
            "entries open at once" => MAX_OPEN,
            "bytes of a variable record" => VARIABLE_BYTES,
            "bytes of an instruction" => INSTRUCTION_BYTES,
            "length of a variable section" => MAX_VARIABLES * VARIABLE_BYTES,
            "length of a code section" => MAX_INSTRUCTIONS * INSTRUCTION_BYTES,
            "bytes of a file" => MAX_FILE,
            "bytes of a report" => MAX_REPORT,
            "bytes of a state" => MAX_VARIABLES * 4 + MAX_LOCKS + MAX_THREADS * (2 + REGISTERS * 4),
            "entries of a list" => MAX_LIST,
            "bytes of the buffer for a line" => LINE_BUFFER,
            "lines of a printout" => 4 + MAX_VARIABLES + MAX_THREADS * (MAX_INSTRUCTIONS + 2),
            "bytes that bench reads" => BENCH_INPUT,
            unknown => panic!("no limit: {unknown}"),
        };
        assert_eq!(number(&row[1]), limit as u64, "{}", row[0]);
    }
    assert_eq!(table.rows.len(), 17);
}

#[test]
fn the_refusals_are_numbered_and_named_so() {
    let page = Page::read();
    let table = page.table("number | name | who | offence | D");
    for (row, right) in table.rows.iter().zip(1u32..) {
        assert_eq!(number(&row[0]), u64::from(right), "{row:?}");
        let named = match row[1].as_str() {
            "BYTES_MISSING" => Refusal::BYTES_MISSING,
            "VERSION" => Refusal::VERSION,
            "COUNT" => Refusal::COUNT,
            "SECTION_LENGTH" => Refusal::SECTION_LENGTH,
            "BYTES_LEFT_OVER" => Refusal::BYTES_LEFT_OVER,
            "RECORD" => Refusal::RECORD,
            "INSTRUCTION" => Refusal::INSTRUCTION,
            "NESTING" => Refusal::NESTING,
            "ACCESS" => Refusal::ACCESS,
            "TAKE_OF_HELD" => Refusal::TAKE_OF_HELD,
            "GIVE_OF_NOT_HELD" => Refusal::GIVE_OF_NOT_HELD,
            "SETS_DIFFER" => Refusal::SETS_DIFFER,
            "BLOCK_IS_T" => Refusal::BLOCK_IS_T,
            "LIST_TOO_LONG" => Refusal::LIST_TOO_LONG,
            "THREAD_NUMBER" => Refusal::THREAD_NUMBER,
            "BUFFER_TOO_SHORT" => Refusal::BUFFER_TOO_SHORT,
            "NO_SUCH_LINE" => Refusal::NO_SUCH_LINE,
            "FALSE_STATEMENT" => Refusal::FALSE_STATEMENT,
            unknown => panic!("no refusal: {unknown}"),
        };
        assert_eq!(named, right, "{row:?}");
        let who = match right {
            1..=8 => "sender",
            9..=13 | 18 => "writer",
            _ => "caller",
        };
        assert_eq!(row[2], who, "{row:?}");
    }
    assert_eq!(table.rows.len(), Refusal::FALSE_STATEMENT as usize);
}

/// What each call refuses after the file's own numbers, met in this order by mending one at a time.
#[test]
fn the_calls_refuse_in_the_tables_order() {
    let page = Page::read();
    let table = page
        .table("call | takes | bytes needed in the buffer | answers | refusals, in their order");
    let file = named_file(&page, "standard");
    let too_long = [[1u8; 9].as_slice(), &[0; MAX_LIST]].concat();
    let number = |refused: Option<Refusal>| refused.map(|refusal| refusal.number);
    let met = |call: &str| match call {
        "judge" => vec![
            number(judge_in(0, &file).err()),
            number(judge_in(4, &file).err()),
        ],
        "run" => vec![
            number(run_in(0, &file, &too_long, 0).err()),
            number(run_in(0, &file, &too_long[..MAX_LIST], 0).err()),
            number(run_in(38, &file, &[0], 0).err()),
            number(run_in(39, &file, &[0], 39).err()),
        ],
        "line" => vec![
            number(line_in(47, &file, 10).err()),
            number(line_in(47, &file, 9).err()),
            number(line_in(48, &file, 9).err()),
        ],
        _ => panic!("no call: {call}"),
    };
    for row in &table.rows {
        let (own, last) = row[4]
            .split_once(", ")
            .expect("the file's, then the call's own");
        assert_eq!(own, "1 to 13 and 18");
        let wanted = last
            .split(", ")
            .map(|text| Some(text.parse().expect("a number")));
        let wanted: Vec<Option<u32>> = wanted.chain([None]).collect();
        assert_eq!(met(&row[0]), wanted, "{row:?}");
    }
    assert_eq!(table.rows.len(), 3);
}

// The step machine.

/// The text of an instruction as the printout has it.
fn words(file: &[u8], thread: u8, place: u16) -> String {
    let program = Program::read(file).expect("a sound file");
    let before: usize = (0..thread).map(|t| 1 + program.words(t.into()).len()).sum();
    let line = 4 + program.variables().len() + before + 1 + usize::from(place);
    let text = String::from_utf8(line_in(LINE_BUFFER, file, line as u64).expect("a line"))
        .expect("a text");
    let parts: Vec<&str> = text.trim_end().split(' ').collect();
    parts[5..parts.len() - 1].join(" ")
}

fn inside(program: &Program, state: &State) -> String {
    let threads = 0..program.thread_count() as u8;
    let inside: Vec<String> = threads
        .filter(|&thread| state.stands_inside(program, thread))
        .map(|thread| format!("t{thread}"))
        .collect();
    if inside.is_empty() {
        String::from("nobody")
    } else {
        inside.join(" ")
    }
}

fn steps(file: &[u8], list: &[u8]) -> Vec<String> {
    let program = Program::read_accepted(file).expect("an accepted file");
    let mut state = State::start(&program);
    let mut lines = Vec::new();
    for (index, &entry) in list.iter().enumerate() {
        let place = state.threads[usize::from(entry)].place;
        let instruction = words(file, entry, place);
        let outcome = match state.step(&program, entry) {
            Outcome::Moved => "moved",
            Outcome::Waiting => "waiting",
            Outcome::Idle => "idle",
        };
        let inside = inside(&program, &state);
        lines.push(format!(
            "{index:2}: t{entry} at {place}, {instruction}, {outcome}, inside {inside}"
        ));
    }
    lines
}

#[test]
fn the_steps_are_the_machines() {
    let page = Page::read();
    for block in page.blocks("steps") {
        let file = named_file(&page, &block.name);
        assert_eq!(block.lines, steps(&file, &numbers(&block.argument)));
    }
}

/// Each row of the table of moves is tried: the place afterwards, from place 1, with a register
/// that is 0 and one that is not.
#[test]
fn the_places_afterwards_are_the_machines() {
    let page = Page::read();
    let table = page.table("instruction | registers, variables, locks | place afterwards");
    assert_eq!(table.rows.len(), 17);
    for row in &table.rows {
        let name = row[0].split(' ').next().expect("a name");
        let (code, at, n): (&str, u16, u16) = match name {
            "ELSE" => ("SET r1 1, IF r1 1, ELSE 2, SET r0 0, END", 2, 2),
            "AGAIN" => ("SET r1 1, WHILE r1 2, SET r0 0, AGAIN 2", 3, 2),
            "IF" => ("SET r0 0, IF r1 2, SET r0 0, ELSE 1, END", 1, 2),
            "WHILE" => ("SET r0 0, WHILE r1 2, SET r0 0, AGAIN 2", 1, 2),
            "ATOMIC" => ("SET r0 0, ATOMIC 1, END", 1, 1),
            "END" => ("ATOMIC 1, END", 1, 0),
            "GIVE" => ("TAKE k0, GIVE k0", 1, 0),
            _ => plain_code(name),
        };
        for test in [0, 1] {
            let place = place_after(code, at, test);
            let wanted = match row[2].as_str() {
                "p + 1" => at + 1,
                "p + n" => at + n,
                "p - n" => at - n,
                "p + 1 if register a is not 0, else p + n + 1" if test == 0 => at + n + 1,
                "p + 1 if register a is not 0, else p + n + 1" => at + 1,
                words => panic!("no place: {words}"),
            };
            assert_eq!(place, wanted, "{row:?}, register {test}");
        }
    }
}

/// Code for an instruction that goes to the next place, and where it stands.
fn plain_code(name: &str) -> (&'static str, u16, u16) {
    match name {
        "SET" => ("SET r0 0, SET r0 7", 1, 0),
        "COPY" => ("SET r0 0, COPY r0 r1", 1, 0),
        "ADD" => ("SET r0 0, ADD r0 r1 r2", 1, 0),
        "SUB" => ("SET r0 0, SUB r0 r1 r2", 1, 0),
        "LESS" => ("SET r0 0, LESS r0 r1 r2", 1, 0),
        "MULH" => ("SET r0 0, MULH r0 r1 r2", 1, 0),
        "LESSS" => ("SET r0 0, LESSS r0 r1 r2", 1, 0),
        "READ" => ("SET r0 0, READ r0 v0", 1, 0),
        "WRITE" => ("SET r0 0, WRITE r0 v0", 1, 0),
        "TAKE" => ("SET r0 0, TAKE k0, GIVE k0", 1, 0),
        _ => panic!("no instruction: {name}"),
    }
}

/// Where the thread is after one step from a place, with `test` in register 1.
fn place_after(code: &str, at: u16, test: u32) -> u16 {
    let file = notation::file("1", "open 0", code);
    let program = Program::read(&file).expect("a sound file");
    let mut state = State::start(&program);
    state.threads[0].place = at;
    state.threads[0].registers[1] = test;
    assert_eq!(state.step(&program, 0), Outcome::Moved);
    state.threads[0].place
}

#[test]
fn inside_is_as_the_table_says() {
    let page = Page::read();
    let code: Vec<Instruction> = ["ATOMIC 2", "SET r0 1", "END"].map(instruction).to_vec();
    assert!(page.text.contains("`ATOMIC 2, SET r0 1, END`"));
    for row in &page.table("place | inside").rows {
        let said = is_inside(&code, number(&row[0]) as usize);
        assert_eq!(row[1], if said { "yes" } else { "no" }, "{row:?}");
    }
}

// Demand 3.

/// A move: its thread, how many blocks that thread had finished, and the thread before it.
#[derive(Clone, PartialEq, Debug)]
struct Move {
    thread: u8,
    block: usize,
    before: Thread,
}

/// The moves of a list, whether it is uninterrupted, and its end.
struct Trace {
    moves: Vec<Move>,
    uninterrupted: bool,
    end: State,
}

fn trace(program: &Program, list: &[u8]) -> Trace {
    let mut state = State::start(program);
    let mut finished = vec![0; program.thread_count()];
    let mut moves = Vec::new();
    let mut uninterrupted = true;
    for &entry in list {
        let alone = (0..program.thread_count() as u8)
            .all(|other| other == entry || !state.stands_inside(program, other));
        let thread = usize::from(entry);
        let before = state.threads[thread];
        let moved = state.step(program, entry) == Outcome::Moved;
        uninterrupted &= alone && moved;
        if moved {
            let block = finished[thread];
            moves.push(Move {
                thread: entry,
                block,
                before,
            });
            if !state.stands_inside(program, entry) {
                finished[thread] += 1;
            }
        }
    }
    Trace {
        moves,
        uninterrupted,
        end: state,
    }
}

impl Trace {
    fn of_thread(&self, thread: u8) -> Vec<&Move> {
        self.moves
            .iter()
            .filter(|one| one.thread == thread)
            .collect()
    }

    /// The index of the first or last move of a block.
    fn ends(&self, (thread, block): (u8, usize)) -> (usize, usize) {
        let is_of = |one: &Move| (one.thread, one.block) == (thread, block);
        let first = self.moves.iter().position(is_of).expect("a move");
        let last = self.moves.iter().rposition(is_of).expect("a move");
        (first, last)
    }
}

fn serial_lists(block: &Block) -> [Vec<u8>; 2] {
    let [given, serial] = &block.lines[..] else {
        panic!("two lists")
    };
    let given = given.strip_prefix("given ").expect("given");
    let serial = serial
        .strip_prefix("uninterrupted ")
        .expect("uninterrupted");
    [numbers(given), numbers(serial)]
}

/// Each thread's moved count, as run answers it.
fn moved_counts(file: &[u8], list: &[u8]) -> [u64; MAX_THREADS] {
    let (counts, _) = Reimplementation.run(file, list).expect("an accepted file");
    counts.map(|counts| counts.moved)
}

#[test]
fn the_uninterrupted_list_is_what_demand_3_promises() {
    let page = Page::read();
    for block in page.blocks("serial") {
        let file = named_file(&page, &block.name);
        let program = Program::read_accepted(&file).expect("an accepted file");
        let lists = serial_lists(block);
        let [given, serial] = lists.each_ref().map(|list| trace(&program, list));
        assert!(!given.uninterrupted && serial.uninterrupted);
        assert_eq!(inside(&program, &given.end), "nobody");
        assert_eq!(given.end, serial.end);
        assert_eq!(given.moves.len(), serial.moves.len());
        let [answered, wanted] = lists.each_ref().map(|list| moved_counts(&file, list));
        assert_eq!(answered, wanted, "each thread's moved count");
        for thread in 0..program.thread_count() as u8 {
            assert_eq!(given.of_thread(thread), serial.of_thread(thread));
        }
        blocks_keep_their_turn(&given, &serial);
    }
}

fn blocks_keep_their_turn(given: &Trace, serial: &Trace) {
    let names: Vec<(u8, usize)> = given
        .moves
        .iter()
        .map(|one| (one.thread, one.block))
        .collect();
    for &x in &names {
        for &y in names.iter().filter(|&&y| y != x) {
            if given.ends(x).1 < given.ends(y).0 {
                assert!(serial.ends(x).1 < serial.ends(y).0, "{x:?} before {y:?}");
            }
        }
    }
}

// The page itself.

#[test]
fn the_version_stands_first_and_in_the_last_table() {
    let page = Page::read();
    let mut lines = page.text.lines();
    assert!(lines.next().is_some_and(|line| line.starts_with("# ")));
    let said = lines.find(|line| !line.is_empty()).expect("a line");
    let version = said
        .strip_prefix("Version ")
        .and_then(|said| said.strip_suffix('.'));
    let versions = page.table("version | what changed");
    let newest = versions.rows.last().expect("a version");
    assert_eq!(version, Some(newest[0].as_str()));
}

/// The example that other tests, the C program and the README use; and the mean below zero.
#[test]
fn the_stored_examples_are_the_pages() {
    let page = Page::read();
    let examples = concat!(env!("CARGO_MANIFEST_DIR"), "/../examples");
    for (stored, name) in [("standard", "standard"), ("below_zero", "mean")] {
        let stored = std::fs::read(format!("{examples}/{stored}.bin")).expect(stored);
        assert_eq!(named_file(&page, name), stored, "{name}");
    }
}

/// Whether a check of the page fails where it says something wrong instead of these words.
fn fails_with(page: &Page, words: &str, wrong: &str, check: impl Fn(&Page)) -> bool {
    let text = page.text.replace(words, wrong);
    assert_ne!(text, page.text, "{words}");
    let check = std::panic::AssertUnwindSafe(|| check(&Page::parse(text)));
    std::panic::catch_unwind(check).is_err()
}

/// The tables of the page are read and not only passed over.
#[test]
fn a_wrong_page_fails() {
    let page = Page::read();
    let wrong = page
        .text
        .replace("| A | A | A | T | T | T |", "| A | A | A | T | A | T |");
    assert_ne!(wrong, page.text);
    let table = Page::parse(wrong);
    let row = &table.table("; | B | L | R | A | T").rows[3];
    assert_ne!(row[4], letter(A.then(A)));
    let blocks = |page: &Page| {
        examples::blocks(page, &Reimplementation);
    };
    let unknown_kind = fails_with(&page, "```report pair", "```reports pair", blocks);
    assert!(unknown_kind, "a block of an unknown kind");
}

/// The page says of its file that has a WRITE more: if its block stated nothing, it would be
/// accepted.
#[test]
fn a_statement_alone_can_refuse_a_file() {
    let page = Page::read();
    let [stated, turned] = ["stated", "turned"].map(|name| named_file(&page, name));
    let reported = |file: &[u8]| Reimplementation.judge(file).map(|report| report[0]);
    assert_eq!(reported(&without_statements(&stated)), Ok(1));
    assert_eq!(reported(&without_statements(&turned)), Ok(4));
    assert_eq!(reported(&turned), common::refused(18, 27));
}

/// What may be stated, what is refused by 18 and how a statement is printed.
#[test]
fn wrong_statements_on_the_page_fail() {
    let page = Page::read();
    let ops = |page: &Page| {
        examples::op_table(page, &Reimplementation);
    };
    for wrong in ["0", "register"] {
        let row = format!("| 34 | ATOMIC | {wrong} |");
        let fails = fails_with(&page, "| 34 | ATOMIC | statement |", &row, ops);
        assert!(fails, "{row}");
    }
    let answers = |page: &Page| {
        examples::judged_tables(page, &Reimplementation);
    };
    let cases = [
        ("| `ATOMIC 1 B, END` |", "| `ATOMIC 1, END` |", false),
        ("| `ATOMIC 1 B, END` |", "| `ATOMIC 1 A, END` |", true),
        ("| `ATOMIC 1 A, END` |", "| `ATOMIC 1, END` |", true),
        ("| `ATOMIC 1 A, END` |", "| `ATOMIC 1 T, END` |", true),
    ];
    for (words, other, wrong) in cases {
        assert_eq!(fails_with(&page, words, other, answers), wrong, "{other}");
    }
    let blocks = |page: &Page| {
        examples::blocks(page, &Reimplementation);
    };
    for other in ["ATOMIC 6 A\n", "ATOMIC A 6 A\n", "ATOMIC 6 B A\n"] {
        let fails = fails_with(&page, "ATOMIC 6 A A\n", other, blocks);
        assert!(fails, "{other}");
    }
}

/// A line shows no letter but the stated one, which is the one worked out.
#[test]
fn a_line_that_shows_a_false_statement_has_no_form() {
    let page = Page::read();
    let file = named_file(&page, "stated");
    let mut printouts = page.blocks("printout").into_iter();
    let block = printouts.find(|block| block.name == "stated");
    let printout = block.expect("its printout").lines.join("\n");
    let fails = |shown: &str| {
        let text = printout.replace("ATOMIC 6 A A", shown);
        assert_ne!(text, printout);
        let check = std::panic::AssertUnwindSafe(|| examples::line_forms(&page, &file, &text));
        std::panic::catch_unwind(check).is_err()
    };
    for wrong in ["- A", "B A", "A -", "- -"] {
        assert!(fails(&format!("ATOMIC 6 {wrong}")), "{wrong}");
    }
    assert!(!fails("ATOMIC 6 A"), "nothing stated");
}

/// Counts are compared thread by thread, and there are some for each thread of the file.
#[test]
fn wrong_counts_on_the_page_fail() {
    let page = Page::read();
    let blocks = |page: &Page| {
        examples::blocks(page, &Reimplementation);
    };
    let line = "t1: moved 7, waiting 1, idle 0\n";
    for wrong in [
        "t1: moved 8, waiting 0, idle 0\n",
        "t2: moved 7, waiting 1, idle 0\n",
        "",
    ] {
        assert!(fails_with(&page, line, wrong, blocks), "{wrong}");
    }
    let extra = format!("{line}t2: moved 0, waiting 0, idle 0\n");
    assert!(fails_with(&page, line, &extra, blocks), "{extra}");
    let runs = |page: &Page| {
        examples::run_table(page, &Reimplementation);
    };
    let cell = "| moved 2, waiting 0, idle 0 / moved 1, waiting 1, idle 0 |";
    for wrong in [
        "| moved 1, waiting 1, idle 0 / moved 2, waiting 0, idle 0 |",
        "| moved 3, waiting 1, idle 0 |",
    ] {
        assert!(fails_with(&page, cell, wrong, runs), "{wrong}");
    }
}

/// What MULH and LESSS give is compared, and so is each number that leads to it.
#[test]
fn wrong_hundredths_on_the_page_fail() {
    let page = Page::read();
    let multiplied = |page: &Page| {
        examples::multiplied_table(page, &Reimplementation);
    };
    let row = "| -1 | 50 | -0.5 | -1 | 4294967295 |";
    for wrong in [
        "| -1 | 49 | -0.5 | -1 | 4294967295 |",
        "| -1 | 50 | -0.05 | -1 | 4294967295 |",
        "| -1 | 50 | -0.5 | 0 | 4294967295 |",
        "| -1 | 50 | -0.5 | 0 | 0 |",
        "| -1 | 50 | -0.5 | -1 | 4294967294 |",
    ] {
        assert!(fails_with(&page, row, wrong, multiplied), "{wrong}");
    }
    let compared = |page: &Page| {
        examples::compared_table(page, &Reimplementation);
    };
    for wrong in [
        "| 1 | -1 | 1 | 0 |",
        "| -1 | 0 | 0 | 0 |",
        "| -1 | 0 | 1 | 1 |",
    ] {
        let fails = fails_with(&page, "| -1 | 0 | 1 | 0 |", wrong, compared);
        assert!(fails, "{wrong}");
    }
}
