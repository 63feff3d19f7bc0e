//! What MULH and LESSS put into a register ("Signed hundredths"). Both read registers as two's
//! complement.

/// MULH: the product of two numbers in hundredths, in hundredths. It is rounded to nearest, halves
/// away from zero, and outside the signed span it is the nearer end.
#[inline]
pub fn multiply(left: u32, right: u32) -> u32 {
    // At most 2^62 without its sign, so the half has room too.
    let product = i64::from(left as i32) * i64::from(right as i32);
    let half = if product < 0 { -50 } else { 50 };
    // A division leaves the rest out, below zero too.
    let quotient = (product + half) / 100;
    quotient.clamp(i32::MIN.into(), i32::MAX.into()) as u32
}

/// LESSS: 1 if the left one's signed value is below the right one's, else 0.
#[inline]
pub fn less(left: u32, right: u32) -> u32 {
    u32::from((left as i32) < (right as i32))
}
