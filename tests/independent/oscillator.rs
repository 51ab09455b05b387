//! Positions, basepoints and fractions. Document 01, "Oscillator". Positions are exact: whole
//! numbers of 2^-32 samples that never wrap.

pub const ONE: i128 = 1 << 32;
const HALF: i128 = 1 << 31;

/// "Kernels 0, 2, 3: basepoint b = floor(Q/2^32)." "Kernel 1: b = floor((Q + 2^31)/2^32)."
pub fn basepoint(kernel: u8, position: i128) -> i128 {
    match kernel {
        1 => (position + HALF).div_euclid(ONE),
        _ => position.div_euclid(ONE),
    }
}

/// "fraction f = Q − b times 2^32"; for kernel 1 "f as above, from −2^31 to 2^31 − 1".
pub fn fraction(kernel: u8, position: i128) -> i128 {
    position - basepoint(kernel, position) * ONE
}

/// "The filter uses m = floor(f/2^18), a 14-bit fraction, signed for kernel 1".
pub fn filter_fraction(fraction: i128) -> i128 {
    fraction.div_euclid(1 << 18)
}

/// "The oscillator register holds Q modulo 2^32 and wraps."
pub fn register(position: i128) -> u32 {
    position.rem_euclid(ONE) as u32
}

/// By how many samples the basepoint moves when a word is added to a position whose register is
/// given. Every position with that register has the same answer.
pub fn advance(kernel: u8, register: u32, word: u64) -> i128 {
    let position = register as i128;
    basepoint(kernel, position + word as i128) - basepoint(kernel, position)
}

/// The same by the sentence on kernel 1: "The advance of b is the whole part of W, plus carry,
/// plus the register's new top bit, minus its old one." The checks hold it against the above.
pub fn advance_by_carry(kernel: u8, old: u32, word: u64) -> i128 {
    let (new, carry) = old.overflowing_add(word as u32);
    let plain = (word >> 32) as i128 + carry as i128;
    match kernel {
        1 => plain + (new >> 31) as i128 - (old >> 31) as i128,
        _ => plain,
    }
}

const Y: bool = true;
const N: bool = false;

/// Table 1 of source document 001, "Buffer control logic for SRC using odd number of basepoints",
/// row by row as printed: NCO(k−1), CO(k), NCO(k) and "Increase n(k)". The text has a register
/// "greater than or equal to 0.5" for Y.
pub const PRINTED: [(bool, i128, bool, i128); 6] =
    [(Y, 1, N, 0), (Y, 1, Y, 1), (Y, 0, Y, 0), (N, 1, N, 1), (N, 0, Y, 1), (N, 0, N, 0)];

/// The case of the printed table, from 1 on, that a step of the register by a word is, if any.
pub fn printed_case(old: u32, word: u64) -> Option<usize> {
    let (new, carry) = old.overflowing_add(word as u32);
    let upper = |register: u32| register as i128 >= HALF;
    let is = |row: &(bool, i128, bool, i128)| {
        (row.0, row.1, row.2) == (upper(old), carry as i128, upper(new))
    };
    PRINTED.iter().position(is).map(|at| at + 1)
}

/// Request U3: "The advance of kernel 1" by that table; "the whole part of the word is still
/// added".
pub fn advance_by_table(old: u32, word: u64) -> Option<i128> {
    printed_case(old, word).map(|case| (word >> 32) as i128 + PRINTED[case - 1].3)
}
