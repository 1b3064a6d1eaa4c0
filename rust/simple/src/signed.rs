//! "Signed arithmetic": operators on words of one width as operations on the whole numbers that the words stand for; all of them fit 128 bits.

/// The number that a word of width n stands for where numbers may be negative: from -2^(n-1) to 2^(n-1) - 1.
pub fn number(n: u32, bits: u64) -> i128 {
    let unsigned = i128::from(bits);
    let negative = unsigned >= 1 << (n - 1);
    if negative {
        unsigned - (1 << n)
    } else {
        unsigned
    }
}

/// `bvsdiv`: the quotient without its fraction; by 0 it is 1 for a negative dividend, else -1, which is all ones.
pub fn quotient(dividend: i128, divisor: i128) -> i128 {
    match divisor {
        0 if dividend < 0 => 1,
        0 => -1,
        _ => dividend / divisor,
    }
}

/// `bvsrem`: the remainder with the dividend's sign; by 0 it is the dividend.
pub fn remainder(dividend: i128, divisor: i128) -> i128 {
    match divisor {
        0 => dividend,
        _ => dividend % divisor,
    }
}

/// `bvsmod`: the remainder with the divisor's sign; by 0 it is the dividend.
pub fn modulus(dividend: i128, divisor: i128) -> i128 {
    match divisor {
        0 => dividend,
        _ => (dividend % divisor + divisor) % divisor,
    }
}

/// `bvashr` at width n: the number divided by 2 so many times, always rounded down; after n times only 0 or -1 is left.
pub fn halved(n: u32, number: i128, times: u64) -> i128 {
    let times = times.min(u64::from(n));
    number.div_euclid(1 << times)
}
