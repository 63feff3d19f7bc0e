//! How the page writes bytes, files, lists and answers ("How to read the examples").

use crate::atomicity::Atomicity;
use crate::generate::encode_file;
use crate::instruction::Instruction::{self, *};
use crate::instruction::NOT_STATED;
use crate::{Counts, Refusal};

/// Bytes in hexadecimal, separated by blanks.
pub fn bytes(text: &str) -> Vec<u8> {
    let byte = |digits: &str| {
        assert_eq!(digits.len(), 2, "{text}");
        u8::from_str_radix(digits, 16).unwrap_or_else(|_| panic!("not hexadecimal: {text}"))
    };
    text.split_whitespace().map(byte).collect()
}

/// Numbers in decimal, separated by blanks.
pub fn numbers(text: &str) -> Vec<u8> {
    let number = |digits: &str| {
        digits
            .parse()
            .unwrap_or_else(|_| panic!("no number: {text}"))
    };
    text.split_whitespace().map(number).collect()
}

/// A decimal number, which may have commas between its digits.
pub fn number(text: &str) -> u64 {
    let digits = text.replace(',', "");
    digits
        .parse()
        .unwrap_or_else(|_| panic!("no number: {text}"))
}

/// A number that may be below zero.
pub fn signed(text: &str) -> i64 {
    match text.strip_prefix('-') {
        Some(digits) => -(number(digits) as i64),
        None => number(text) as i64,
    }
}

/// How many hundredths a decimal number of at most two digits behind the point is, exactly.
pub fn hundredths(text: &str) -> i64 {
    let (whole, part) = text.split_once('.').unwrap_or((text, ""));
    assert!(part.len() <= 2, "no hundredths: {text}");
    signed(&format!("{whole}{part:0<2}"))
}

/// The bytes of a dump, whose offsets go on without gaps.
pub fn dump(lines: &[String]) -> Vec<u8> {
    let mut all = Vec::new();
    for line in lines {
        let (front, _words) = line.split_once(" ; ").unwrap_or((line, ""));
        let (offset, shown) = front.split_once(':').unwrap_or_else(|| panic!("{line}"));
        assert_eq!(number(offset.trim()), all.len() as u64, "{line}");
        let shown = bytes(shown);
        assert!(!shown.is_empty(), "{line}");
        all.extend(shown);
    }
    all
}

/// A file from its number of locks, its variables and its threads' code.
pub fn file(locks: &str, variables: &str, code: &str) -> Vec<u8> {
    let variables: Vec<[u8; 6]> = listed(variables).map(variable).collect();
    let threads: Vec<Vec<Instruction>> = code
        .split('/')
        .map(|thread| listed(thread).map(instruction).collect())
        .collect();
    encode_file(number(locks) as u8, &variables, &threads)
}

/// What stands between commas.
fn listed(text: &str) -> impl Iterator<Item = &str> {
    text.split(',')
        .map(str::trim)
        .filter(|part| !part.is_empty())
}

/// A variable's record: `guarded k0 5`, `own t1 0`, `fixed 12`, `open 0`.
fn variable(text: &str) -> [u8; 6] {
    let words: Vec<&str> = text.split(' ').collect();
    let (kind, g, initial) = match words[..] {
        ["guarded", lock, initial] => (0, named('k', lock), initial),
        ["own", thread, initial] => (1, named('t', thread), initial),
        ["fixed", initial] => (2, 0, initial),
        ["open", initial] => (3, 0, initial),
        _ => panic!("no variable: {text}"),
    };
    let [w, x, y, z] = (number(initial) as u32).to_be_bytes();
    [kind, g, w, x, y, z]
}

/// The number behind a letter, as in `k0`.
fn named(letter: char, text: &str) -> u8 {
    let digits = text.strip_prefix(letter);
    number(digits.unwrap_or_else(|| panic!("{text} is no {letter}"))) as u8
}

/// The report byte of an atomicity's letter.
fn report_byte(letter: &str) -> u8 {
    let mut bytes = Atomicity::ALL.into_iter().map(Atomicity::report_byte);
    let of_letter = bytes.find(|&byte| letter.as_bytes() == [Atomicity::letter(byte)]);
    of_letter.unwrap_or_else(|| panic!("no atomicity: {letter}"))
}

/// An instruction with the printout's name and fields.
pub fn instruction(text: &str) -> Instruction {
    let words: Vec<&str> = text.split(' ').collect();
    let read = plain(&words).or_else(|| opener_or_closer(&words));
    read.unwrap_or_else(|| panic!("no instruction: {text}"))
}

fn plain(words: &[&str]) -> Option<Instruction> {
    let r = |text: &str| named('r', text);
    let v = |text: &str| named('v', text);
    let k = |text: &str| named('k', text);
    Some(match *words {
        ["SET", a, c] => Set {
            to: r(a),
            number: number(c) as u16,
        },
        ["COPY", a, b] => Copy {
            to: r(a),
            from: r(b),
        },
        [name @ ("ADD" | "SUB" | "LESS" | "MULH" | "LESSS"), a, b, c] => {
            let [to, left, right] = [a, b, c].map(r);
            match name {
                "ADD" => Add { to, left, right },
                "SUB" => Sub { to, left, right },
                "LESS" => Less { to, left, right },
                "MULH" => Mulh { to, left, right },
                _ => Lesss { to, left, right },
            }
        }
        ["READ", a, b] => Read {
            to: r(a),
            variable: v(b),
        },
        ["WRITE", a, b] => Write {
            from: r(a),
            variable: v(b),
        },
        ["TAKE", a] => Take { lock: k(a) },
        ["GIVE", a] => Give { lock: k(a) },
        _ => return None,
    })
}

fn opener_or_closer(words: &[&str]) -> Option<Instruction> {
    let distance = |text: &str| number(text) as u16;
    Some(match *words {
        ["IF", a, c] => If {
            test: named('r', a),
            distance: distance(c),
        },
        ["ELSE", c] => Else {
            distance: distance(c),
        },
        ["WHILE", a, c] => While {
            test: named('r', a),
            distance: distance(c),
        },
        ["AGAIN", c] => Again {
            distance: distance(c),
        },
        ["ATOMIC", c] => Atomic {
            statement: NOT_STATED,
            distance: distance(c),
        },
        ["ATOMIC", c, letter] => Atomic {
            statement: report_byte(letter),
            distance: distance(c),
        },
        ["END"] => End,
        _ => return None,
    })
}

/// What judge answers: `report 4 3 2`, or `13 at 49`.
pub fn answer(text: &str) -> Result<Vec<u8>, Refusal> {
    match text.strip_prefix("report ") {
        Some(report) => Ok(numbers(report)),
        None => Err(refusal(text)),
    }
}

/// `13 at 49`.
pub fn refusal(text: &str) -> Refusal {
    let (refused, detail) = text.split_once(" at ").unwrap_or_else(|| panic!("{text}"));
    Refusal {
        number: number(refused) as u32,
        detail: number(detail),
    }
}

/// `t1: moved 7, waiting 1, idle 0`, the line of this thread.
pub fn counts_line(thread: usize, line: &str) -> Counts {
    let named = line.strip_prefix(&format!("t{thread}: "));
    counts(named.unwrap_or_else(|| panic!("no counts of t{thread}: {line}")))
}

/// The counts of a file's threads: `moved 2, waiting 0, idle 0 / moved 1, waiting 1, idle 0`.
pub fn listed_counts(text: &str) -> Vec<Counts> {
    text.split(" / ").map(counts).collect()
}

/// `moved 3, waiting 1, idle 0`.
fn counts(text: &str) -> Counts {
    let count = |name: &str, part: &str| {
        let digits = part
            .strip_prefix(name)
            .and_then(|part| part.strip_prefix(' '));
        number(digits.unwrap_or_else(|| panic!("no count {name}: {text}")))
    };
    let parts: Vec<&str> = text.split(", ").collect();
    let [moved, waiting, idle] = parts[..] else {
        panic!("no counts: {text}")
    };
    Counts {
        moved: count("moved", moved),
        waiting: count("waiting", waiting),
        idle: count("idle", idle),
    }
}
