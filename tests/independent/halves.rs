//! Stored states whose next output is hard to round: its value lies half-way between two whole
//! numbers, or next to it. Arithmetic that is not exact, as with floats, goes wrong there first.
//! And states whose next output is at a limit of holding, or a half past it.

use crate::kernels::{self, Near};
use crate::oscillator;
use crate::random::Random;
use crate::state::{self, State};

const TABLE: usize = 1 << 20;

/// What a half is like: the whole number below it is even or odd, and it is above or below zero.
pub const KINDS: [&str; 4] = ["even, above 0", "odd, above 0", "even, below 0", "odd, below 0"];

/// The place among `KINDS` of a value that is a half; it is given times `kernels::scale(kernel, 14)`.
pub fn kind(kernel: u8, exact: i128) -> Option<usize> {
    // Over 64 bits, which is quicker: a value times its scale is below 2^62.
    let (scale, exact) = (kernels::scale(kernel, 14) as i64, exact as i64);
    let lower = exact.div_euclid(scale);
    (2 * (exact - lower * scale) == scale).then(|| {
        let odd = lower.rem_euclid(2) as usize;
        odd + if exact < 0 { 2 } else { 0 }
    })
}

/// How far `state`'s next value lies above the half that is nearest to it, times `scale`.
pub fn above_half(state: &State) -> i128 {
    let scale = kernels::scale(state.kernel, 14);
    state::exact(state).rem_euclid(scale) - scale / 2
}

/// The nearest that a value comes to a half without being one, times `scale`: one step of the
/// kernel's power of u. For kernel 3, whose steps are very many, 32 of them.
pub fn nearest(kernel: u8) -> i128 {
    [1 << 28, 1 << 14, 1 << 14, 32][kernel as usize]
}

/// States at a half, so many of each kind.
pub fn exact(random: &mut Random, kernel: u8, count: usize) -> Vec<State> {
    let (mut found, mut missing) = (Vec::new(), [count; KINDS.len()]);
    while missing != [0; KINDS.len()] {
        let register = (random.below(15) as u32 + 1) << 28;
        let size = random.pick(&[3, 200, 65536]);
        let sample = |_: i16| (random.below(size) as i64 - size as i64 / 2) as i16;
        let window = [0; 4].map(sample);
        let state = State { kernel, needed: 0, register, word: 1 << 32, window };
        if let Some(kind) = kind(kernel, state::exact(&state)).filter(|&kind| missing[kind] > 0) {
            missing[kind] -= 1;
            found.push(state);
        }
    }
    found
}

/// The limits of 16 bits, and a half past each, in halves. By request U5 the first is neither high
/// nor low, the second high and the others neither: by request U6 the halves are rounded to the even
/// neighbours, 32768 and −32768.
pub const LIMITS: [i128; 4] = [65534, 65535, -65536, -65537];

/// Those that a kernel comes to: the value of the linear one lies between its samples.
pub fn limits(kernel: u8) -> Vec<i128> {
    match kernel {
        0 => vec![LIMITS[0], LIMITS[2]],
        _ => LIMITS.to_vec(),
    }
}

/// A register in sixteenths of a sample, the whole ones left out, and anything in the bits that m
/// does not have.
pub fn sixteenths(random: &mut Random) -> u32 {
    (random.below(15) as u32 + 1) << 28 | random.below(1 << 18) as u32
}

/// A state at such a register whose next value is so many halves, one of the limits: three samples
/// are drawn, and the fourth is what is missing.
pub fn at_limit(random: &mut Random, kernel: u8, register: u32, halves: i128) -> State {
    let weights = weights(kernel, register);
    let missing = if kernels::reach(kernel) == 1 { 2 } else { 3 };
    let wanted = halves as i64 * (kernels::scale(kernel, 14) / 2) as i64;
    loop {
        let near = random.below(64) as i64;
        let far = random.next() as i16 as i64;
        let outermost = if halves > 0 { 32767 - near } else { near - 32768 };
        let sample = |_: i64| random.pick(&[outermost, outermost, far, -outermost]);
        let mut samples = [0; 4].map(sample).map(|sample| sample.clamp(-32768, 32767));
        samples[missing] = 0;
        let given = samples.iter().zip(weights).map(|(sample, weight)| sample * weight);
        let rest = wanted - given.sum::<i64>();
        samples[missing] = rest / weights[missing];
        let found = samples[missing] * weights[missing] == rest;
        if let (true, Ok(_)) = (found, i16::try_from(samples[missing])) {
            let state = joined(kernel, register, samples.map(|sample| sample as i16));
            assert_eq!(2 * state::exact(&state), halves * kernels::scale(kernel, 14));
            return state;
        }
    }
}

/// States next to a half, at least four on either side: at most `nearest` from it. A value is the
/// sum of what xm and x0 give and of what x1 and x2 give. So two tables are made for some m: what is
/// missing to a half with many pairs of the former, and what many pairs of the latter give. Rows
/// that lie next to each other make a state.
pub fn narrow(random: &mut Random, kernel: u8) -> Vec<State> {
    let mut found = Vec::new();
    for side in [-1, 1] {
        let enough = found.len() + 4;
        while found.len() < enough {
            let register = (2 * random.below(8192) as u32 + 1) << 18 | random.next() as u32 >> 14;
            let [at_xm, at_x0, at_x1, at_x2] = weights(kernel, register);
            let half = kernels::scale(kernel, 14) as i64 / 2;
            let missing = table(random, kernel, |xm, x0| half - at_xm * xm - at_x0 * x0);
            let given = table(random, kernel, |x1, x2| at_x1 * x1 + at_x2 * x2);
            let pairs = neighbours(&missing, &given, side, nearest(kernel) as i64);
            let states = pairs.map(|samples| joined(kernel, register, samples));
            let near =
                |state: &State| (1..=nearest(kernel)).contains(&(side as i128 * above_half(state)));
            found.extend(states.filter(near).take(2));
        }
    }
    found
}

/// The samples of rows of `given` that lie at most `limit` above (side 1) or below (side −1) a row
/// of `missing`. Both tables are sorted.
fn neighbours<'a>(
    missing: &'a [Row],
    given: &'a [Row],
    side: i64,
    limit: i64,
) -> impl Iterator<Item = [i16; 4]> + 'a {
    let mut place = 0;
    missing.iter().filter_map(move |row| {
        // The first row above what is missing, or the last below it.
        let passed = |other: &Row| other.0 < row.0 || side == 1 && other.0 == row.0;
        while place < given.len() && passed(&given[place]) {
            place += 1;
        }
        let other = given.get(if side == 1 { place } else { place.wrapping_sub(1) })?;
        let distance = side * (other.0 - row.0);
        (distance <= limit).then_some([row.1, row.2, other.1, other.2])
    })
}

/// A number modulo `scale`, and the two samples that it comes from.
type Row = (i64, i16, i16);

/// What the numbers are for many pairs of samples, by size.
fn table(random: &mut Random, kernel: u8, number: impl Fn(i64, i64) -> i64) -> Vec<Row> {
    let scale = kernels::scale(kernel, 14) as i64;
    let row = |_| {
        let (one, other) = (random.next() as i16, random.next() as i16);
        (number(one as i64, other as i64).rem_euclid(scale), one, other)
    };
    let mut rows = (0..TABLE).map(row).collect::<Vec<Row>>();
    rows.sort_unstable();
    rows
}

/// What each sample counts in the value, times `scale`.
fn weights(kernel: u8, register: u32) -> [i64; 4] {
    let m = oscillator::filter_fraction(oscillator::fraction(kernel, register as i128));
    [[1, 0, 0, 0], [0, 1, 0, 0], [0, 0, 1, 0], [0, 0, 0, 1]]
        .map(|[xm, x0, x1, x2]| kernels::value(kernel, &Near { xm, x0, x1, x2 }, m, 14) as i64)
}

fn joined(kernel: u8, register: u32, [xm, x0, x1, x2]: [i16; 4]) -> State {
    let window = match kernels::reach(kernel) {
        1 => [x2, xm, x0, x1],
        _ => [xm, x0, x1, x2],
    };
    State { kernel, needed: 0, register, word: 1 << 32, window }
}
