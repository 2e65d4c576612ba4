// A fraction of two whole numbers rounded once to binary64, by whole numbers alone: no float has a part in it.

fn digits(n: u128) -> u32 {
    128 - n.leading_zeros()
}

/// The float nearest to `num / det`, of two ties the even one, as M and E: it is M / 2^E, in lowest terms. Numerator and divisor of a
/// crossing are below 2^44, so everything here fits 128 bits.
pub fn rounded(num: i64, det: i64) -> (i64, u32) {
    if num == 0 {
        return (0, 0);
    }
    let sign = num.signum() * det.signum();
    let (num, det) = (num.unsigned_abs() as u128, det.unsigned_abs() as u128);
    // The quotient's first 55 or 56 digits, and what is left.
    let up = 55 + digits(det) - digits(num);
    let (quotient, rest) = ((num << up) / det, (num << up) % det);
    let down = digits(quotient) - 53;
    let (kept, dropped, half) = (quotient >> down, quotient % (1 << down), 1 << (down - 1));
    let more = dropped > half || (dropped == half && (rest > 0 || kept % 2 == 1));
    let (mut m, mut e) = (kept + more as u128, up - down);
    while m % 2 == 0 && e > 0 {
        (m, e) = (m / 2, e - 1);
    }
    (sign * m as i64, e)
}

/// The numerator, from half of an odd divisor to the whole of it, whose quotient lies nearest to the middle of two floats: one
/// part in 2^54 times the divisor beside it. (The middle itself is never met: a quotient of numbers below 2^44 that ends in binary has at most
/// 44 digits, and so is a float.)
pub fn near_tie(det: i64) -> i64 {
    // num * 2^54 is 1 more or 1 less than an odd multiple of the divisor.
    let num = (0..54).fold(1, |n, _| if n % 2 == 0 { n / 2 } else { (n + det) / 2 });
    num.max(det - num)
}
