//! The page's examples and its tables of answers, compared with what an implementation answers.
//! Each function fails at the first difference and says how many comparisons it made.

use super::notation::{
    answer, bytes, counts_line, dump, file, hundredths, listed_counts, number, numbers, refusal,
    signed,
};
use super::{Block, Page, Table};
use crate::instruction::{MAX_STATEMENT, REGISTERS};
use crate::reader::{MAX_LOCKS, MAX_THREADS};
use crate::{Counts, Refusal};

/// The calls of an implementation, with buffers that are long enough.
pub trait Answers {
    /// The report.
    fn judge(&self, file: &[u8]) -> Result<Vec<u8>, Refusal>;
    /// Each thread's counts, and the end state.
    fn run(&self, file: &[u8], list: &[u8]) -> Result<([Counts; MAX_THREADS], Vec<u8>), Refusal>;
    /// The line with its newline.
    fn line(&self, file: &[u8], i: u64) -> Result<Vec<u8>, Refusal>;
}

/// The file of a name.
pub fn named_file(page: &Page, name: &str) -> Vec<u8> {
    let mut files = page
        .blocks
        .iter()
        .filter(|block| block.kind == "file" && block.name == name);
    let file = files.next().unwrap_or_else(|| panic!("no file {name}"));
    assert!(files.next().is_none(), "two files {name}");
    dump(&file.lines)
}

/// The blocks that show what the calls answer for a file.
pub fn blocks(page: &Page, calls: &impl Answers) -> usize {
    let mut checked = 0;
    for block in &page.blocks {
        let file = named_file(page, &block.name);
        match block.kind.as_str() {
            "report" => assert_eq!(calls.judge(&file), Ok(dump(&block.lines)), "{}", block.name),
            "run" => check_run(block, &file, calls),
            "printout" => check_printout(block, &file, calls),
            "refused" => check_refused(block, &file, calls),
            // Named by others; and what no call answers.
            "file" | "steps" | "serial" => continue,
            kind => panic!("a block of an unknown kind: {kind}"),
        }
        checked += 1;
    }
    checked
}

/// The files whose whole printout or refusal the page shows, each with what `bench` prints.
pub fn printouts(page: &Page) -> Vec<(Vec<u8>, String)> {
    let shown = page.blocks("printout").into_iter();
    shown
        .chain(page.blocks("refused"))
        .map(|block| (named_file(page, &block.name), block.lines.join("\n") + "\n"))
        .collect()
}

fn check_run(block: &Block, file: &[u8], calls: &impl Answers) {
    let (counted, state) = block.lines.split_at(thread_count(file));
    let lines = counted.iter().enumerate();
    let stated: Vec<Counts> = lines.map(|(t, line)| counts_line(t, line)).collect();
    let wanted = (of_all_threads(file, &stated), dump(state));
    let answer = calls.run(file, &numbers(&block.argument));
    assert_eq!(answer, Ok(wanted), "run {}", block.name);
}

/// The number of threads that a sound file has.
fn thread_count(file: &[u8]) -> usize {
    usize::from(file[2])
}

/// The counts of eight threads: of each that the file has as stated, of the others 0.
fn of_all_threads(file: &[u8], stated: &[Counts]) -> [Counts; MAX_THREADS] {
    assert_eq!(stated.len(), thread_count(file), "counts {stated:?}");
    let mut all = [Counts::default(); MAX_THREADS];
    all[..stated.len()].copy_from_slice(stated);
    all
}

fn check_printout(block: &Block, file: &[u8], calls: &impl Answers) {
    for (i, wanted) in block.lines.iter().enumerate() {
        let text = calls.line(file, i as u64);
        assert_eq!(text, Ok(format!("{wanted}\n").into_bytes()), "line {i}");
    }
    let count = block.lines.len() as u64;
    let past = Refusal {
        number: Refusal::NO_SUCH_LINE,
        detail: count,
    };
    assert_eq!(calls.line(file, count), Err(past), "{}", block.name);
}

fn check_refused(block: &Block, file: &[u8], calls: &impl Answers) {
    let [line] = &block.lines[..] else {
        panic!("not one line: {}", block.name)
    };
    refuses(
        calls,
        file,
        refusal(line.strip_prefix("refused ").expect("refused")),
    );
}

/// Every call refuses the file so, whatever else it is given.
fn refuses(calls: &impl Answers, file: &[u8], refusal: Refusal) {
    assert_eq!(calls.judge(file), Err(refusal), "judge {file:02X?}");
    assert_eq!(calls.run(file, &[255]), Err(refusal), "run {file:02X?}");
    assert_eq!(calls.line(file, u64::MAX), Err(refusal), "line {file:02X?}");
}

fn judges(calls: &impl Answers, file: &[u8], wanted: &str) {
    match answer(wanted) {
        Ok(report) => assert_eq!(calls.judge(file), Ok(report), "{file:02X?}"),
        Err(refusal) => refuses(calls, file, refusal),
    }
}

/// The tables of files with judge's answer.
pub fn judged_tables(page: &Page, calls: &impl Answers) -> usize {
    answer_rows(page, calls, "broken | code | answer", |row| {
        file("0", "", &row[1])
    }) + answer_rows(page, calls, "bytes | answer | why", |row| bytes(&row[0]))
        + answer_rows(
            page,
            calls,
            "proved | case | locks | variables | code | answer",
            |row| file(&row[2], &row[3], &row[4]),
        )
        + answer_rows(
            page,
            calls,
            "mistake | locks | variables | code | answer",
            |row| file(&row[1], &row[2], &row[3]),
        )
}

/// Each row's file has the answer of its row.
fn answer_rows(
    page: &Page,
    calls: &impl Answers,
    head: &str,
    file_of: impl Fn(&[String]) -> Vec<u8>,
) -> usize {
    let table = page.table(head);
    let column = table
        .head
        .iter()
        .position(|cell| cell == "answer")
        .expect("answers");
    for row in &table.rows {
        judges(calls, &file_of(row), &row[column]);
    }
    table.rows.len()
}

/// The table of runs.
pub fn run_table(page: &Page, calls: &impl Answers) -> usize {
    let table = page.table("proved | case | locks | variables | code | list | counts | in the end");
    for row in &table.rows {
        let file = file(&row[2], &row[3], &row[4]);
        let answer = calls.run(&file, &numbers(&row[5]));
        let (counted, state) = answer.unwrap_or_else(|refusal| panic!("{refusal:?}: {row:?}"));
        let wanted = of_all_threads(&file, &listed_counts(&row[6]));
        assert_eq!(counted, wanted, "{row:?}");
        for claim in row[7].split(", ") {
            let (what, value) = claim.split_once(" is ").expect(claim);
            assert_eq!(in_state(&file, &state, what), number(value), "{row:?}");
        }
    }
    table.rows.len()
}

/// A number of a state: `v0`, `k0`, `t0 place` or `t0 r3`.
fn in_state(file: &[u8], state: &[u8], what: &str) -> u64 {
    let variables = usize::from(u16::from_be_bytes([file[3], file[4]])) / 6;
    let locks = usize::from(file[1]);
    let big_endian = |at: usize, count: usize| {
        let bytes = &state[at..at + count];
        bytes
            .iter()
            .fold(0, |value, &byte| value << 8 | u64::from(byte))
    };
    let index = |name: &str| number(&name[1..]) as usize;
    let thread = |name: &str| 4 * variables + locks + 34 * index(name);
    match what.split_once(' ') {
        None if what.starts_with('v') => big_endian(4 * index(what), 4),
        None if what.starts_with('k') => big_endian(4 * variables + index(what), 1),
        Some((name, "place")) => big_endian(thread(name), 2),
        Some((name, register)) => big_endian(thread(name) + 2 + 4 * index(register), 4),
        None => panic!("not in a state: {what}"),
    }
}

/// The table of MULH's results, each row's operands multiplied by a program.
pub fn multiplied_table(page: &Page, calls: &impl Answers) -> usize {
    let table = page.table("b | c | product divided by 100 | MULH | register a | tells apart");
    for row in &table.rows {
        let operands = [&row[0], &row[1]].map(|cell| signed(cell));
        let product: i64 = operands.iter().product();
        assert_eq!(hundredths(&row[2]), product, "{row:?}");
        let wanted = number(&row[4]);
        assert_eq!(register(signed(&row[3])), wanted, "{row:?}");
        assert_eq!(computed(calls, "MULH", operands), wanted, "{row:?}");
    }
    table.rows.len()
}

/// The table of comparisons, each made by a program with LESSS and with LESS.
pub fn compared_table(page: &Page, calls: &impl Answers) -> usize {
    let table = page.table("b | c | LESSS | LESS");
    for row in &table.rows {
        let operands = [&row[0], &row[1]].map(|cell| signed(cell));
        for (name, wanted) in table.head.iter().zip(row).skip(2) {
            let found = computed(calls, name, operands);
            assert_eq!(found, number(wanted), "{name}, {row:?}");
        }
    }
    table.rows.len()
}

/// What an instruction makes of two operands, given by their signed values in fixed variables.
fn computed(calls: &impl Answers, name: &str, operands: [i64; 2]) -> u64 {
    let [b, c] = operands.map(register);
    let variables = format!("fixed {b}, fixed {c}");
    let code = format!("READ r0 v0, READ r1 v1, {name} r2 r0 r1");
    let file = file("0", &variables, &code);
    let (_, state) = calls.run(&file, &[0; 3]).expect("an accepted file");
    in_state(&file, &state, "t0 r2")
}

/// "a number of the span is put into a register as it is, or, if it is below zero, with 2^32 added"
fn register(signed: i64) -> u64 {
    assert!(i32::try_from(signed).is_ok(), "not in the span: {signed}");
    let above_zero = if signed < 0 { 1 << 32 } else { 0 };
    (signed + above_zero) as u64
}

/// The table of op codes: every op code, and for each of its fields the values about its range.
pub fn op_table(page: &Page, calls: &impl Answers) -> usize {
    let table = page.table("op | name | a | b | c | what it does");
    for op in 0..=255 {
        match table.rows.iter().find(|row| bytes(&row[0]) == [op]) {
            Some(row) => (1..=3).for_each(|field| check_field(calls, op, field, &row[1 + field])),
            None => assert!(
                is_wrong(calls, [op, 0, 0, 0]),
                "{op:02X} is not in the table"
            ),
        }
    }
    table.rows.len()
}

/// The greatest value of a field is right and the next one wrong, if there is one.
fn check_field(calls: &impl Answers, op: u8, field: usize, kind: &str) {
    let limit = field_limit(kind);
    for value in (limit - 1..=limit).filter(|&value| value < 256) {
        let mut word = [op, 0, 0, 0];
        word[field] = value as u8;
        assert_eq!(is_wrong(calls, word), value == limit, "{word:02X?}");
    }
}

const LOCKS: u8 = 3;
const VARIABLES: u8 = 5;

/// One above the greatest value of a field, in a file of three locks and five variables.
fn field_limit(kind: &str) -> usize {
    match kind {
        "register" => REGISTERS,
        "variable" => usize::from(VARIABLES),
        "lock" => usize::from(LOCKS),
        "statement" => usize::from(MAX_STATEMENT) + 1,
        "n" => 256,
        "0" => 1,
        _ => panic!("no kind of field: {kind}"),
    }
}

/// Whether an instruction is refused by 7.
fn is_wrong(calls: &impl Answers, word: [u8; 4]) -> bool {
    let mut file = vec![1, LOCKS, 1, 0, 6 * VARIABLES];
    for _ in 0..VARIABLES {
        file.extend([3, 0, 0, 0, 0, 0]);
    }
    let offset = file.len() as u64 + 2;
    file.extend([0, 4]);
    file.extend(word);
    let wrong = Refusal {
        number: Refusal::INSTRUCTION,
        detail: offset,
    };
    calls.judge(&file) == Err(wrong)
}

/// The table of kinds: every kind with every g about the limits, at every number of locks and
/// threads.
pub fn kind_table(page: &Page, calls: &impl Answers) -> usize {
    let table = page.table("kind | name | g | who may use it");
    let counts = (0..=MAX_LOCKS).flat_map(|locks| (1..=MAX_THREADS).map(move |t| (locks, t)));
    let mut checked = 0;
    for (locks, threads) in counts {
        let records = (0..=5).flat_map(|kind| (0..=17).map(move |g| (kind, g)));
        checked += records
            .map(|(kind, g)| check_record(table, calls, (kind, g), (locks, threads)))
            .count();
    }
    checked
}

fn check_record(
    table: &Table,
    calls: &impl Answers,
    (kind, g): (u8, usize),
    (locks, threads): (usize, usize),
) {
    let mut file = vec![1, locks as u8, threads as u8, 0, 6];
    file.extend([kind, g as u8, 0, 0, 0, 0]);
    file.resize(file.len() + 2 * threads, 0);
    let wanted = match record_is_good(table, kind, g, locks, threads) {
        true => Ok(vec![1; threads]),
        false => Err(Refusal {
            number: Refusal::RECORD,
            detail: 5,
        }),
    };
    assert_eq!(calls.judge(&file), wanted, "kind {kind}, g {g}");
}

/// Whether the table has a row for this kind and its g is right.
fn record_is_good(table: &Table, kind: u8, g: usize, locks: usize, threads: usize) -> bool {
    let Some(row) = table.rows.iter().find(|row| bytes(&row[0]) == [kind]) else {
        return false;
    };
    match row[2].as_str() {
        "a lock: below the number of locks" => g < locks,
        "a thread: below the number of threads" => g < threads,
        "0" => g == 0,
        _ => panic!("no range of g: {row:?}"),
    }
}

/// The table of accesses: each with and without the lock, by the own and by another thread.
pub fn access_table(page: &Page, calls: &impl Answers) -> usize {
    let table = page.table("kind | READ | WRITE");
    let cells = table.rows.iter().flat_map(|row| {
        let accesses = [(&row[1], "READ r0 v0"), (&row[2], "WRITE r0 v0")];
        accesses.map(|(rule, access)| (row[0].as_str(), rule.as_str(), access))
    });
    let mut checked = 0;
    for (kind, rule, access) in cells {
        for (holds, owns) in [(false, false), (false, true), (true, false), (true, true)] {
            check_access(calls, kind, rule, access, (holds, owns));
            checked += 1;
        }
    }
    checked
}

fn check_access(
    calls: &impl Answers,
    kind: &str,
    rule: &str,
    access: &str,
    (holds, owns): (bool, bool),
) {
    let variable = match kind {
        "guarded by lock g" => "guarded k0 0",
        "own to thread g" => "own t0 0",
        "fixed" => "fixed 0",
        "open" => "open 0",
        _ => panic!("no kind: {kind}"),
    };
    let allowed = match rule {
        "always" => true,
        "never" => false,
        "if g is in the set" => holds,
        "if the thread is g" => owns,
        _ => panic!("no rule: {rule}"),
    };
    let locked = format!("TAKE k0, {access}, GIVE k0");
    let body = if holds { &locked } else { access };
    let code = if owns {
        body.to_string()
    } else {
        format!("/ {body}")
    };
    let refused = calls.judge(&file("1", variable, &code)).err();
    let wanted = (!allowed).then_some(Refusal::ACCESS);
    let number = refused.map(|refusal| refusal.number);
    assert_eq!(number, wanted, "{kind}, {code}");
}

/// The table of lines: each line of an accepted file's printout has just one of the forms, and
/// there are as many as the page says. Answers the forms that were met, by their rows' numbers.
pub fn line_forms(page: &Page, file: &[u8], printout: &str) -> Vec<usize> {
    let report = crate::report_length(file).expect("an accepted file");
    let variables = usize::from(u16::from_be_bytes([file[3], file[4]])) / 6;
    let lines = 4 + variables + report + thread_count(file);
    assert_eq!(printout.lines().count(), lines);
    printout.lines().map(|line| form_of(page, line)).collect()
}

/// The row of the only form that a line has.
fn form_of(page: &Page, line: &str) -> usize {
    let rows = page
        .table("lines | how many | form")
        .rows
        .iter()
        .enumerate();
    let forms = rows.filter(|(_, row)| has_form(line, &row[0], &row[2]));
    let forms: Vec<usize> = forms.map(|(number, _)| number).collect();
    let [form] = forms[..] else {
        panic!("not one form: {line}, {forms:?}")
    };
    form
}

/// Whether a line has a form, of which `NAME` stands for one of the names of its row. A name may
/// have words behind it, as `ATOMIC that states an atomicity`.
fn has_form(line: &str, names: &str, form: &str) -> bool {
    let words: Vec<&str> = line.split(' ').collect();
    let forms: Vec<&str> = form.split(' ').collect();
    words.len() == forms.len()
        && (!form.ends_with(" X X") || ends_in_one_letter_twice(&words))
        && words.iter().zip(forms).all(|(word, form)| match form {
            "HH" | "HHHH" | "HHHHHHHH" => {
                let is_digit = |byte: u8| byte.is_ascii_digit() || (b'A'..=b'F').contains(&byte);
                word.len() == form.len() && word.bytes().all(is_digit)
            }
            "N" => is_decimal(word),
            "rN" | "vN" | "kN" | "tN" => word.starts_with(&form[..1]) && is_decimal(&word[1..]),
            "X" => ["B", "L", "R", "A", "T", "-"].contains(word),
            "NAME" => names
                .split(", ")
                .any(|name| name.split(' ').next() == Some(word)),
            fixed => *word == fixed,
        })
}

/// "Of two `X` the first is what the block states and the second what was worked out; in an
/// accepted file they are the same": a letter, since 0 is not shown.
fn ends_in_one_letter_twice(words: &[&str]) -> bool {
    matches!(words, [.., stated, worked_out] if stated == worked_out && *stated != "-")
}

fn is_decimal(text: &str) -> bool {
    let plain = !text.is_empty() && text.bytes().all(|byte| byte.is_ascii_digit());
    plain && (text == "0" || !text.starts_with('0'))
}
