//! What the tests of MULH and LESSS share, here and in `bindings/`: the recorded products, and the
//! programs that compute them.

use std::collections::BTreeSet;
use std::fs;
use std::path::Path;

use hogunlas_reference::generate::encode_file;
use hogunlas_reference::instruction::Instruction::{self, *};

/// Which of the two instructions.
#[derive(Clone, Copy, Debug, PartialEq, Eq, PartialOrd, Ord)]
pub enum Operation {
    Multiply,
    Less,
}

pub const OPERATIONS: [Operation; 2] = [Operation::Multiply, Operation::Less];

impl Operation {
    /// The instruction with these registers.
    pub fn of(self, to: u8, left: u8, right: u8) -> Instruction {
        match self {
            Operation::Multiply => Mulh { to, left, right },
            Operation::Less => Lesss { to, left, right },
        }
    }
}

/// A line of the recorded products: the operands, and the register that becomes of them.
#[derive(Clone, Copy, Debug)]
pub struct Product {
    pub operation: Operation,
    pub operands: [u32; 2],
    pub result: u32,
}

/// All 4,800 products (see reference/vectors/README.md), half of them of each instruction.
pub fn products() -> Vec<Product> {
    let vectors = Path::new(env!("CARGO_MANIFEST_DIR")).join("../reference/vectors");
    let text = fs::read_to_string(vectors.join("1.4/products.txt")).expect("the products");
    let products: Vec<Product> = text.lines().map(product).collect();
    assert_eq!(products.len(), text.matches('\n').count());
    assert_eq!(products.len(), 4_800);
    for operation in OPERATIONS {
        let of_it = products.iter().filter(|one| one.operation == operation);
        assert_eq!(of_it.count(), 2_400, "{operation:?}");
    }
    products
}

fn product(line: &str) -> Product {
    let fields: Vec<&str> = line.split(' ').collect();
    let [name, left, right, result] = fields[..] else {
        panic!("no product: {line}")
    };
    let operation = match name {
        "MULH" => Operation::Multiply,
        "LESSS" => Operation::Less,
        _ => panic!("no instruction: {line}"),
    };
    let register = |field: &str| field.parse().expect("a register");
    Product {
        operation,
        operands: [left, right].map(register),
        result: register(result),
    }
}

/// A variable's record.
fn record(kind: u8, initial: u32) -> [u8; 6] {
    let [w, x, y, z] = initial.to_be_bytes();
    [kind, 0, w, x, y, z]
}

/// A file of two fixed variables, the operands, and one thread that READs them and puts what becomes
/// of them into r2; and the list that runs it to its end.
pub fn one_computation(operation: Operation, operands: [u32; 2]) -> (Vec<u8>, [u8; 3]) {
    let code = [
        Read { to: 0, variable: 0 },
        Read { to: 1, variable: 1 },
        operation.of(2, 0, 1),
    ];
    let records = operands.map(|operand| record(2, operand));
    (encode_file(0, &records, &[code]), [0; 3])
}

/// r2 of the end state of `one_computation`: behind two variables, the place, r0 and r1.
pub fn result(state: &[u8]) -> u32 {
    assert_eq!(state[8..10], [0, 3], "the code's end");
    numbers(&state[18..22])[0]
}

/// As many pairs as 64 variables hold.
pub const PAIRS: usize = 32;

/// How many instructions compute both results of a pair.
const OF_A_PAIR: usize = 6;

/// A file of open variables, the operands of at most so many pairs, and one thread that WRITEs over
/// each pair what MULH and LESSS make of it; and the list that runs it to its end.
pub fn many_computations(pairs: &[[u32; 2]]) -> (Vec<u8>, Vec<u8>) {
    assert!(pairs.len() <= PAIRS, "{} pairs", pairs.len());
    let records = pairs.as_flattened().iter();
    let records: Vec<[u8; 6]> = records.map(|&operand| record(3, operand)).collect();
    let code: Vec<Instruction> = (0..pairs.len()).flat_map(computed_over).collect();
    let list = vec![0; code.len()];
    (encode_file(0, &records, &[code]), list)
}

fn computed_over(pair: usize) -> [Instruction; OF_A_PAIR] {
    let (left, right) = (2 * pair as u8, 2 * pair as u8 + 1);
    [
        Read {
            to: 0,
            variable: left,
        },
        Read {
            to: 1,
            variable: right,
        },
        Operation::Multiply.of(2, 0, 1),
        Operation::Less.of(3, 0, 1),
        Write {
            from: 2,
            variable: left,
        },
        Write {
            from: 3,
            variable: right,
        },
    ]
}

/// The results of `many_computations`, MULH's and LESSS's of each pair, from the end state, whose last
/// 34 bytes are the thread's.
pub fn results(state: &[u8]) -> Vec<[u32; 2]> {
    let numbers = numbers(&state[..state.len() - 34]);
    let (pairs, rest) = numbers.as_chunks::<2>();
    assert!(rest.is_empty());
    pairs.to_vec()
}

/// Every pair of the values at and around 0, the powers of two, the ends of the signed span, and the
/// factors that make halves.
pub fn edge_pairs() -> Vec<[u32; 2]> {
    let powers = (0..32).flat_map(|bits| [-1, 0, 1].map(|by| (1 << bits) + by));
    let hundredths = [1, 2, 3].into_iter().flat_map(|halves| {
        let half = 50 * halves;
        half - 1..=half + 1
    });
    let numbers: Vec<i64> = powers.chain(hundredths).collect();
    let signed = numbers.iter().flat_map(|&number| [number, -number]);
    let values: BTreeSet<u32> = signed.map(|number| number as u32).collect();
    let beside = |&left: &u32| values.iter().map(move |&right| [left, right]);
    values.iter().flat_map(beside).collect()
}

fn numbers(bytes: &[u8]) -> Vec<u32> {
    let (numbers, rest) = bytes.as_chunks::<4>();
    assert!(rest.is_empty());
    numbers
        .iter()
        .map(|&number| u32::from_be_bytes(number))
        .collect()
}
