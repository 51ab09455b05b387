//! The four kernels over whole numbers. Document 01, "Kernels".

use crate::clips::Side;
use std::cmp::Ordering::{Equal, Greater, Less};

/// The samples around a basepoint b: "x0 is sample b, x1 is sample b+1, xm is sample b−1, x2 is
/// sample b+2". Kernels with R = 1 leave x2 unused.
#[derive(Clone, Copy, Debug)]
pub struct Near {
    pub xm: i64,
    pub x0: i64,
    pub x1: i64,
    pub x2: i64,
}

/// "R is how far past b a kernel reads."
pub fn reach(kernel: u8) -> i128 {
    match kernel {
        0 | 1 => 1,
        _ => 2,
    }
}

/// "over denominators 1, 2, 2, 6"
pub fn denominator(kernel: u8) -> i128 {
    [1, 2, 2, 6][kernel as usize]
}

/// "K is 16,384, 16,384, 8,192 or 12,288 by kernel." (demand 3)
pub fn bound_divisor(kernel: u8) -> i128 {
    [16384, 16384, 8192, 12288][kernel as usize]
}

/// What stands at u^0, u^1, u^2 and u^3 in the table's row, times the row's denominator.
fn row(kernel: u8, near: &Near) -> [i64; 4] {
    let Near { xm, x0, x1, x2 } = *near;
    match kernel {
        0 => [x0, x1 - x0, 0, 0],
        1 => [2 * x0, x1 - xm, x1 - 2 * x0 + xm, 0],
        2 => [2 * x0, -x2 + 3 * x1 - x0 - xm, x2 - x1 - x0 + xm, 0],
        _ => [
            6 * x0,
            -x2 + 6 * x1 - 3 * x0 - 2 * xm,
            3 * (x1 - 2 * x0 + xm),
            x2 - 3 * x1 + 3 * x0 - xm,
        ],
    }
}

/// By what `value` is multiplied: the row's denominator and the powers of two under u.
pub fn scale(kernel: u8, bits: u32) -> i128 {
    denominator(kernel) << (3 * bits)
}

/// The value at u = part/2^bits, times `scale`. No product here passes 2^116.
pub fn value(kernel: u8, near: &Near, part: i128, bits: u32) -> i128 {
    let [at0, at1, at2, at3] = row(kernel, near).map(i128::from);
    let square = part * part;
    (at0 << (3 * bits))
        + ((at1 * part) << (2 * bits))
        + ((at2 * square) << bits)
        + at3 * square * part
}

/// The whole number nearest to an exact value at m, which is given times `scale`. Request U6: "an
/// output halfway between two whole numbers takes the even one".
pub fn rounded(kernel: u8, exact: i128) -> i128 {
    let scale = scale(kernel, 14);
    let lower = floor_div(exact, scale);
    let twice_the_rest = 2 * (exact - lower * scale);
    match twice_the_rest.cmp(&scale) {
        Less => lower,
        Equal if lower % 2 == 0 => lower,
        Equal | Greater => lower + 1,
    }
}

/// The output of an exact value at m, times `scale`, and on which side it clips: "The value is
/// kept exact, rounded to the nearest whole number", "then held to −32768..32767. A held output
/// counts as one clip."
pub fn output(kernel: u8, exact: i128) -> (i16, Side) {
    let rounded = rounded(kernel, exact);
    let (held, side) = (rounded.clamp(-32768, 32767), Side::of(rounded));
    assert_eq!(held != rounded, side.is_clip());
    (held as i16, side)
}

/// floor(a/c), c above zero. Numbers that fit are divided in 64 bits, which is quicker.
fn floor_div(a: i128, c: i128) -> i128 {
    match (i64::try_from(a), i64::try_from(c)) {
        (Ok(a), Ok(c)) => a.div_euclid(c) as i128,
        _ => a.div_euclid(c),
    }
}

/// "D is the largest absolute difference between neighbours, in the order xm, x0, x1, x2, among
/// the 2, 3, 4 or 4 samples that the kernel names".
pub fn largest_jump(kernel: u8, near: &Near) -> i128 {
    let Near { xm, x0, x1, x2 } = *near;
    let jump = match kernel {
        0 => (x1 - x0).abs(),
        1 => (x0 - xm).abs().max((x1 - x0).abs()),
        _ => (x0 - xm).abs().max((x1 - x0).abs()).max((x2 - x1).abs()),
    };
    jump as i128
}
