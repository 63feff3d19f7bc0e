//! MULH and LESSS, as programs that are run: the recorded products, and many operands beside the
//! reimplementation.

#[path = "../../../reference/tests/common/hundredths.rs"]
mod computations;

use hogunlas::{Counts, MAX_STATE};
use hogunlas_reference::generate::{operands, Rng};
use hogunlas_reference::state_length;

use crate::run::compare;
use computations::{
    edge_pairs, many_computations, one_computation, products, result, results, PAIRS,
};

/// The end state of one thread that moves at every entry.
fn end_state(file: &[u8], list: &[u8]) -> Vec<u8> {
    let mut state = [0; MAX_STATE];
    let threads = hogunlas::run(file, list, &mut state).expect("an accepted file");
    let moved = Counts {
        moved: list.len() as u64,
        ..Counts::default()
    };
    assert_eq!(threads[0], moved);
    let length = state_length(file).expect("an accepted file");
    state[..length].to_vec()
}

#[test]
fn every_product_is_what_a_program_computes() {
    for product in products() {
        let (file, list) = one_computation(product.operation, product.operands);
        let state = end_state(&file, &list);
        assert_eq!(result(&state), product.result, "{product:?}");
    }
}

/// The results of some pairs, which both sides compute alike.
fn computed(salt: u64, pairs: &[[u32; 2]]) -> Vec<[u32; 2]> {
    let (file, list) = many_computations(pairs);
    let length = state_length(&file).expect("an accepted file");
    let answer = compare(salt, &file, &list, length);
    assert!(answer.is_ok(), "{answer:?}");
    results(&end_state(&file, &list))
}

#[test]
fn pairs_at_edges_are_computed_alike() {
    let pairs = edge_pairs();
    assert_eq!(pairs.len(), 200 * 200);
    for (salt, pairs) in pairs.chunks(PAIRS).enumerate() {
        assert_eq!(computed(salt as u64, pairs).len(), pairs.len());
    }
}

const PROGRAMS: u64 = 3_200;

/// On such operands `reference/tests/hundredths.rs` shows each wrong MULH and LESSS to give other
/// results than the right one.
#[test]
fn random_pairs_are_computed_alike() {
    let mut met = [0; FACTS.len()];
    for seed in 0..PROGRAMS {
        let rng = &mut Rng::new(seed);
        let pairs = [(); PAIRS].map(|()| operands(rng));
        for (operands, results) in pairs.into_iter().zip(computed(seed, &pairs)) {
            for (met, (_, is_so)) in met.iter_mut().zip(FACTS) {
                *met += u32::from(is_so(operands, results));
            }
        }
    }
    let named = FACTS.map(|(name, _)| name);
    println!("{named:?}: {met:?}");
    assert!(met.iter().all(|&met| met > 2_000), "{named:?}: {met:?}");
}

/// What can be so of a pair and its results.
type Fact = (&'static str, fn([u32; 2], [u32; 2]) -> bool);

const FACTS: [Fact; 7] = [
    ("a half above zero", |of, _| product(of) % 100 == 50),
    ("a half below zero", |of, _| product(of) % 100 == -50),
    ("the upper end", |_, [mulh, _]| mulh == i32::MAX as u32),
    ("the lower end", |_, [mulh, _]| mulh == i32::MIN as u32),
    ("below zero", |_, [mulh, _]| (mulh as i32) < 0),
    ("less", |_, [_, lesss]| lesss == 1),
    (
        "less as signed numbers alone",
        |[left, right], [_, lesss]| lesss == 1 && left > right,
    ),
];

fn product(operands: [u32; 2]) -> i64 {
    let factors = operands.map(|operand| i64::from(operand as i32));
    factors.iter().product()
}
