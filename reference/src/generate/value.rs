//! Values of registers and variables at which signed arithmetic may go wrong.

use super::rng::Rng;

/// A value of any size: around 0, around the ends of the signed span, around a power of two, or
/// anything.
pub(super) fn value(rng: &mut Rng) -> u32 {
    let near = match rng.below(5) {
        0 => 0,
        1 => 1 << 31,
        2 => 1 << rng.below(31),
        3 => {
            let number = sized(rng);
            return signed(rng, number);
        }
        _ => return rng.next_u64() as u32,
    };
    let number = near + rng.below(5) as u32;
    signed(rng, number.wrapping_sub(2))
}

/// Two values for MULH or LESSS. Few random ones have a product that, divided by 100, lies in the
/// middle between two whole numbers, or around an end of the signed span, so such ones are made.
pub fn operands(rng: &mut Rng) -> [u32; 2] {
    let [left, right] = match rng.below(8) {
        0..=1 => halves(rng),
        2 => at_an_end(rng),
        3 => rng.pick(&HALF_FROM_AN_END).unwrap_or_default(),
        4 => {
            let twice = value(rng);
            return [twice, twice];
        }
        _ => return [value(rng), value(rng)],
    };
    let operands = [signed(rng, left), signed(rng, right)];
    if rng.chance(50) {
        let [left, right] = operands;
        return [right, left];
    }
    operands
}

/// Factors of 50 times (2^32 - 1) and of 50 times (2^32 + 1). Divided by 100, their products lie in
/// the middle between an end of the signed span and the whole number beside it.
const HALF_FROM_AN_END: [[u32; 2]; 4] = [
    [12_750, 16_843_009],
    [50 * 65_535, 65_537],
    [32_050, 6_700_417],
    [641, 50 * 6_700_417],
];

/// Two values whose product is an odd number times 50.
fn halves(rng: &mut Rng) -> [u32; 2] {
    let parts = [[1, 50], [2, 25], [5, 10], [10, 5], [25, 2], [50, 1]];
    let parts = rng.pick(&parts).unwrap_or_default();
    // At most 25 bits, so that 50 times it is below 2^31.
    parts.map(|part| part * (sized(rng) >> 6 | 1))
}

/// Two values whose product divided by 100 lies around 2^31.
fn at_an_end(rng: &mut Rng) -> [u32; 2] {
    let left = 101 + (sized(rng) >> 1);
    let right = (100 << 31) / u64::from(left) + rng.below(5) as u64;
    [left, right as u32 - 2]
}

/// A number below 2^31, of any number of bits.
fn sized(rng: &mut Rng) -> u32 {
    rng.next_u64() as u32 >> rng.between(1, 31)
}

/// The number, or what is as far below zero.
fn signed(rng: &mut Rng, number: u32) -> u32 {
    if rng.chance(50) {
        number.wrapping_neg()
    } else {
        number
    }
}
