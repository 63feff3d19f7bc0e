//! MULH and LESSS: the recorded products, random operands, and instructions that look reasonable and
//! are wrong, each of which gives other results.

mod common;
#[path = "common/hundredths.rs"]
mod hundredths;

use common::{counts, run_in, written};
use hogunlas_reference::generate::{self, operands, Rng};
use hogunlas_reference::hundredths::{less, multiply};
use hogunlas_reference::instruction::Instruction::{self, *};
use hogunlas_reference::machine::{Outcome, State};
use hogunlas_reference::reader::Program;
use hogunlas_reference::standard::notation::{number, signed};
use hogunlas_reference::standard::Page;
use hogunlas_reference::state_length;
use hundredths::{edge_pairs, many_computations, one_computation, products, result, results};
use hundredths::{Operation, PAIRS};

/// What becomes of the operands.
fn computed(operation: Operation, [left, right]: [u32; 2]) -> u32 {
    match operation {
        Operation::Multiply => multiply(left, right),
        Operation::Less => less(left, right),
    }
}

// The recorded products.

#[test]
fn every_product_is_computed_so() {
    for product in products() {
        let found = computed(product.operation, product.operands);
        assert_eq!(found, product.result, "{product:?}");
    }
}

#[test]
fn every_product_is_what_a_program_computes() {
    for product in products() {
        let (file, list) = one_computation(product.operation, product.operands);
        let (counted, state) = run_in(42, &file, &list, 42).expect("an accepted file");
        assert_eq!(counted, counts(&[[3, 0, 0]]));
        assert_eq!(result(&state), product.result, "{product:?}");
    }
}

// Random operands.

const RANDOM: u64 = 300_000;

fn signed_value(register: u32) -> i64 {
    i64::from(register as i32)
}

fn product([left, right]: [u32; 2]) -> i64 {
    signed_value(left) * signed_value(right)
}

const LOWER: i64 = -(1 << 31);
const UPPER: i64 = (1 << 31) - 1;

/// Whether the number is "the whole number nearest to it, and of two that are equally near the one
/// that is farther from zero", or the end that stands for all that is outside.
fn is_nearest(product: i64, number: i64) -> bool {
    match number {
        LOWER => product <= 100 * LOWER + 50,
        UPPER => product >= 100 * UPPER - 50,
        _ => {
            let distance = (product - 100 * number).abs();
            distance < 50 || distance == 50 && (100 * number).abs() > product.abs()
        }
    }
}

#[test]
fn random_products_are_the_nearest_numbers() {
    let rng = &mut Rng::new(1);
    for _ in 0..RANDOM {
        let operands = operands(rng);
        let found = computed(Operation::Multiply, operands);
        assert!(
            is_nearest(product(operands), signed_value(found)),
            "{operands:?}"
        );
        assert_eq!(
            found,
            nearer_end(rounded(product(operands))),
            "{operands:?}"
        );
    }
}

#[test]
fn random_comparisons_are_those_of_the_signed_values() {
    let rng = &mut Rng::new(2);
    for _ in 0..RANDOM {
        let operands = operands(rng);
        let [left, right] = operands.map(signed_value);
        let found = computed(Operation::Less, operands);
        assert_eq!(found, u32::from(right - left > 0), "{operands:?}");
    }
}

/// What becomes of some pairs is what a program makes of them.
fn are_computed_by_a_program(pairs: &[[u32; 2]]) {
    let (file, list) = many_computations(pairs);
    let length = state_length(&file).expect("an accepted file");
    let (_, state) = run_in(length, &file, &list, length).expect("an answer");
    let of_pair = |&[left, right]: &[u32; 2]| [multiply(left, right), less(left, right)];
    let wanted: Vec<[u32; 2]> = pairs.iter().map(of_pair).collect();
    assert_eq!(results(&state), wanted, "{pairs:?}");
}

#[test]
fn random_pairs_are_what_programs_compute() {
    let rng = &mut Rng::new(3);
    for _ in 0..500 {
        are_computed_by_a_program(&[(); PAIRS].map(|()| operands(rng)));
    }
}

#[test]
fn pairs_at_edges_are_computed_so() {
    let pairs = edge_pairs();
    assert_eq!(pairs.len(), 200 * 200);
    for &operands in &pairs {
        let found = signed_value(computed(Operation::Multiply, operands));
        assert!(is_nearest(product(operands), found), "{operands:?}");
    }
    pairs.chunks(PAIRS).for_each(are_computed_by_a_program);
}

// Mistakes that look reasonable.

/// "add 50 to p without its sign, divide by 100, drop the remainder, and put the sign of p before it"
fn rounded(product: i64) -> i64 {
    rounded_with(50, product)
}

/// The same, but another number is added.
fn rounded_with(added: u64, product: i64) -> i64 {
    let without_sign = (product.unsigned_abs() + added) / 100;
    product.signum() * without_sign as i64
}

fn rounded_to_even(product: i64) -> i64 {
    let without_half = rounded_with(49, product);
    let is_half = product.unsigned_abs() % 100 == 50;
    match is_half && without_half % 2 != 0 {
        true => rounded(product),
        false => without_half,
    }
}

fn nearer_end(number: i64) -> u32 {
    number.clamp(LOWER, UPPER) as u32
}

fn farther_end(number: i64) -> u32 {
    match number {
        LOWER..=UPPER => number as u32,
        _ => nearer_end(-number),
    }
}

fn upper_end(number: i64) -> u32 {
    match number {
        LOWER..=UPPER => number as u32,
        _ => UPPER as u32,
    }
}

/// An instruction that is wrong.
struct Mistake {
    name: &'static str,
    operation: Operation,
    result: fn([u32; 2]) -> u32,
}

const fn multiplying(name: &'static str, result: fn([u32; 2]) -> u32) -> Mistake {
    Mistake {
        name,
        operation: Operation::Multiply,
        result,
    }
}

const fn comparing(name: &'static str, result: fn([u32; 2]) -> u32) -> Mistake {
    Mistake {
        name,
        operation: Operation::Less,
        result,
    }
}

const ROUNDING: [Mistake; 8] = [
    multiplying("dropping the remainder", |of| nearer_end(product(of) / 100)),
    multiplying("rounding down", |of| {
        nearer_end(product(of).div_euclid(100))
    }),
    multiplying("rounding up", |of| {
        nearer_end(-(-product(of)).div_euclid(100))
    }),
    multiplying("halves up", |of| {
        nearer_end((product(of) + 50).div_euclid(100))
    }),
    multiplying("halves down", |of| {
        nearer_end((product(of) + 49).div_euclid(100))
    }),
    multiplying("halves toward zero", |of| {
        nearer_end(rounded_with(49, product(of)))
    }),
    multiplying("halves to even", |of| {
        nearer_end(rounded_to_even(product(of)))
    }),
    multiplying("adding 50 below zero too", |of| {
        nearer_end((product(of) + 50) / 100)
    }),
];

const SIGNS: [Mistake; 4] = [
    multiplying("the sign lost", |of| nearer_end(rounded(product(of)).abs())),
    multiplying("the sign of one factor for the product's", |of| {
        nearer_end(rounded(product(of)).abs() * signed_value(of[0]).signum())
    }),
    multiplying("the sign of the other factor", |of| {
        nearer_end(rounded(product(of)).abs() * signed_value(of[1]).signum())
    }),
    multiplying("registers read as unsigned", |of| {
        let [left, right] = of.map(u64::from);
        let quotient = (left * right / 50).div_ceil(2);
        quotient.min(u32::MAX.into()) as u32
    }),
];

const ENDS: [Mistake; 7] = [
    multiplying("the quotient modulo 2^32", |of| rounded(product(of)) as u32),
    multiplying("the farther end", |of| farther_end(rounded(product(of)))),
    multiplying("the upper end for both", |of| {
        upper_end(rounded(product(of)))
    }),
    multiplying("the ends of the unsigned span", |of| {
        rounded(product(of)).clamp(0, u32::MAX.into()) as u32
    }),
    multiplying("a lower end that is one too high", |of| {
        rounded(product(of)).clamp(LOWER + 1, UPPER) as u32
    }),
    multiplying("a product of 32 bits", |of| {
        nearer_end(rounded(signed_value(product(of) as u32)))
    }),
    multiplying("a product at the nearer end", |of| {
        nearer_end(rounded(product(of).clamp(LOWER, UPPER)))
    }),
];

const COMPARING: [Mistake; 5] = [
    comparing("LESS", |[left, right]| u32::from(left < right)),
    comparing("at or below", |[left, right]| {
        u32::from(left as i32 <= right as i32)
    }),
    comparing("the wrong way round", |[left, right]| less(right, left)),
    comparing("the sign of the difference modulo 2^32", |[left, right]| {
        u32::from((left.wrapping_sub(right) as i32) < 0)
    }),
    comparing("without signs", |of| {
        let [left, right] = of.map(|register| signed_value(register).abs());
        u32::from(left < right)
    }),
];

fn mistakes() -> impl Iterator<Item = &'static Mistake> {
    static ALL: [&[Mistake]; 4] = [&ROUNDING, &SIGNS, &ENDS, &COMPARING];
    ALL.into_iter().flatten()
}

impl Mistake {
    /// Whether it gives another result than the right instruction.
    fn shows(&self, operands: [u32; 2]) -> bool {
        (self.result)(operands) != computed(self.operation, operands)
    }
}

#[test]
fn each_mistake_shows_in_a_recorded_product() {
    let products = products();
    for mistake in mistakes() {
        let of_it = products
            .iter()
            .filter(|one| one.operation == mistake.operation);
        let shown = of_it.filter(|one| (mistake.result)(one.operands) != one.result);
        let shown = shown.count();
        println!("{}: {shown}", mistake.name);
        assert!(shown > 0, "{}", mistake.name);
    }
}

#[test]
fn each_mistake_shows_in_random_operands() {
    for mistake in mistakes() {
        let rng = &mut Rng::new(4);
        let shown = (0..RANDOM / 10).filter(|_| mistake.shows(operands(rng)));
        let shown = shown.count();
        println!("{}: {shown}", mistake.name);
        assert!(shown > 100, "{}: {shown}", mistake.name);
    }
}

/// The mistake that the page names by these words. Behind an `or` it leaves out the word `halves`.
fn named(words: &str) -> &'static Mistake {
    let is_named = |mistake: &&Mistake| {
        mistake.name == words || mistake.name.strip_prefix("halves ") == Some(words)
    };
    let found = mistakes().find(is_named);
    found.unwrap_or_else(|| panic!("no mistake: {words}"))
}

/// A row of the page names mistakes, and mostly the number that they give. Where that lies outside
/// the signed span, the register has it, and the signed value is named behind it.
#[test]
fn each_row_of_the_page_tells_apart_what_it_says() {
    let page = Page::read();
    let table = page.table("b | c | product divided by 100 | MULH | register a | tells apart");
    let mut told = 0;
    for row in table.rows.iter().filter(|row| !row[5].is_empty()) {
        let operands = [&row[0], &row[1]].map(|cell| signed(cell) as u32);
        let (names, given) = row[5].split_once(": ").unwrap_or((&row[5], ""));
        for mistake in names.split(", or ").map(named) {
            assert!(mistake.shows(operands), "{row:?}: {}", mistake.name);
            let result = (mistake.result)(operands);
            match given.split_once(", read as ") {
                Some((register, value)) => {
                    assert_eq!(u64::from(result), number(register), "{row:?}");
                    assert_eq!(signed_value(result), signed(value), "{row:?}");
                }
                None if given.is_empty() => {}
                None => assert_eq!(signed_value(result), signed(given), "{row:?}"),
            }
            told += 1;
        }
    }
    assert_eq!(told, 15);
}

// The definitions' tables.

/// A row of the definitions: a number is `pos N`, `minus N`, an end of the signed span, or bare.
fn defined_row(words: &str) -> Vec<i64> {
    let words = words.replace(['(', ')'], "");
    let mut words = words.split_whitespace();
    let mut numbers = Vec::new();
    while let Some(word) = words.next() {
        let mut next = || words.next().and_then(|word| word.parse::<i64>().ok());
        numbers.push(match word {
            "pos" => next().expect("a number"),
            "minus" => -next().expect("a number"),
            "least" => LOWER,
            "greatest" => UPPER,
            number => number.parse().expect("a number"),
        });
    }
    numbers
}

/// The rows that begin with this word in a list of the definitions.
fn defined_rows(name: &str) -> Vec<Vec<i64>> {
    let root = env!("CARGO_MANIFEST_DIR");
    let path = format!("{root}/../crates/machine/specs/Products.antt");
    let text = std::fs::read_to_string(path).expect("the definitions");
    let rows = text.lines().filter(|line| line.starts_with("    "));
    let rows = rows.filter_map(|row| row.trim_start_matches([' ', '∷']).strip_prefix(name));
    rows.map(defined_row).collect()
}

/// Some columns of a table of the page.
fn columns(head: &str, columns: [usize; 4]) -> Vec<Vec<i64>> {
    let page = Page::read();
    let rows = page.table(head).rows.iter();
    rows.map(|row| columns.map(|column| signed(&row[column])).to_vec())
        .collect()
}

/// What is proved of the definitions' tables is proved of the page's.
#[test]
fn the_definitions_have_the_rows_of_the_page() {
    let products = defined_rows("product ");
    let head = "b | c | product divided by 100 | MULH | register a | tells apart";
    assert_eq!(products, columns(head, [0, 1, 3, 4]));
    let comparisons = defined_rows("comparison ");
    assert_eq!(comparisons, columns("b | c | LESSS | LESS", [0, 1, 2, 3]));
    assert_eq!((products.len(), comparisons.len()), (16, 8));
}

// Generated files.

/// The end state of a run; in place of what MULH or LESSS puts, that of a mistake, if one is given.
fn end_state(program: &Program, list: &[u8], mistake: Option<&Mistake>) -> Vec<u8> {
    let codes: Vec<Vec<Instruction>> = (0..program.thread_count())
        .map(|thread| program.code(thread))
        .collect();
    let mut state = State::start(program);
    for &entry in list {
        let thread = usize::from(entry);
        let before = state.threads[thread];
        if state.step(program, entry) != Outcome::Moved {
            continue;
        }
        let instruction = codes[thread][usize::from(before.place)];
        let wrong = mistake.and_then(|mistake| mistaken(mistake, instruction, before.registers));
        if let Some((to, wrong)) = wrong {
            state.threads[thread].registers[usize::from(to)] = wrong;
        }
    }
    written(program, &state)
}

/// The register that a mistake puts something into, and what, if the instruction is its own.
fn mistaken(mistake: &Mistake, instruction: Instruction, registers: [u32; 8]) -> Option<(u8, u32)> {
    let (operation, to, left, right) = match instruction {
        Mulh { to, left, right } => (Operation::Multiply, to, left, right),
        Lesss { to, left, right } => (Operation::Less, to, left, right),
        _ => return None,
    };
    let operands = [left, right].map(|register| registers[usize::from(register)]);
    (operation == mistake.operation).then(|| (to, (mistake.result)(operands)))
}

const FILES: u64 = 40_000;

/// On these files and lists a library with one of the mistakes would end in another state.
#[test]
fn each_mistake_shows_in_the_runs_of_generated_files() {
    let mut shown = vec![0; mistakes().count()];
    for seed in 0..FILES {
        let rng = &mut Rng::new(seed);
        let file = generate::accepted_file(rng);
        let list = generate::good_list(rng, usize::from(file[2]), 200);
        let program = Program::read(&file).expect("a sound file");
        let right = end_state(&program, &list, None);
        for (mistake, shown) in mistakes().zip(&mut shown) {
            *shown += u32::from(end_state(&program, &list, Some(mistake)) != right);
        }
    }
    for (mistake, shown) in mistakes().zip(shown) {
        println!("{}: {shown}", mistake.name);
        assert!(shown >= 20, "{}: {shown}", mistake.name);
    }
}
