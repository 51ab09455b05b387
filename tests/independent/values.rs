//! What the program `check_values` must write: for each kernel two hashes over the outputs of
//! fixed cases, drawn ones and edges. And the output of one case.

use crate::clips::{Clips, Side};
use crate::draw::Draw;
use crate::kernels;
use crate::listings;
use crate::oscillator;
use crate::state::{self, State};

/// A register, and "the newest four samples (oldest first)".
type Case = (u32, [i16; 4]);

pub fn lines() -> Result<String, String> {
    let mut text = String::new();
    for (name, cases) in [("drawn", drawn()), ("edges", edges())] {
        for kernel in 0..4 {
            text += &line(kernel, name, &cases)?;
        }
    }
    Ok(text)
}

/// The output of a kernel, a register in hexadecimal and a window, and its side; m, and the value
/// before it is rounded.
pub fn one(words: &[&str]) -> Result<String, String> {
    let wanted = "a kernel, a register in hexadecimal and four samples are wanted";
    let (kernel, case) = read(words).ok_or(wanted)?;
    let (output, side) = output(kernel, case)?;
    let side = format!("{side:?}").to_lowercase();
    let m = oscillator::filter_fraction(oscillator::fraction(kernel, case.0 as i128));
    let value = state::exact(&standing(kernel, case));
    let exact = listings::in_lowest_terms(value, kernels::scale(kernel, 14));
    Ok(format!("{output} {side}\nm {m}, exact {exact}\n"))
}

fn read(words: &[&str]) -> Option<(u8, Case)> {
    let [kernel, register, samples @ ..] = words else { return None };
    let samples = samples.iter().map(|sample| sample.parse().ok());
    let window = samples.collect::<Option<Vec<i16>>>()?.try_into().ok()?;
    let register = u32::from_str_radix(register.trim_start_matches("0x"), 16).ok()?;
    Some((kernel.parse().ok()?, (register, window)))
}

/// A state that needs no sample.
fn standing(kernel: u8, (register, window): Case) -> State {
    State { kernel, needed: 0, register, word: 1, window }
}

/// The next output of such a state, and its side by the counts of a feed.
pub fn output(kernel: u8, case: Case) -> Result<(i16, Side), String> {
    let mut place = [0];
    let fed = state::feed(standing(kernel, case), &[], &mut place)
        .map_err(|refusal| format!("kernel {kernel}: refusal {refusal}"))?;
    match (fed.clips.high, fed.clips.low) {
        (0, 0) => Ok((place[0], Side::Neither)),
        (1, 0) => Ok((place[0], Side::High)),
        (0, 1) => Ok((place[0], Side::Low)),
        _ => Err(format!("kernel {kernel}: one output with {:?}", fed.clips)),
    }
}

fn line(kernel: u8, name: &str, cases: &[Case]) -> Result<String, String> {
    let (mut hash, mut clips) = (0, Clips::default());
    for &case in cases {
        let (output, side) = output(kernel, case)?;
        let number = match side {
            Side::Neither => 0,
            Side::High => 1,
            Side::Low => 2,
        };
        hash = (hash * 65599 + output as u16 as u64 * 3 + number) % (1 << 31);
        clips.count(side);
    }
    let (count, Clips { high, low }) = (cases.len(), clips);
    Ok(format!("kernel {kernel} {name}: {count} cases, hash {hash}, high {high}, low {low}\n"))
}

fn drawn() -> Vec<Case> {
    let mut draw = Draw(1);
    let case = |_| {
        let register = draw.long() as u32;
        let outermost = draw.below(4) == 0;
        let window = [0; 4].map(|_: i16| match (outermost, draw.below(65536)) {
            (true, number) => [i16::MIN, i16::MAX][number as usize % 2],
            (false, number) => number as i16,
        });
        (register, window)
    };
    (0..20000).map(case).collect()
}

fn edges() -> Vec<Case> {
    let edge = |number: usize| [-32768, -1, 0, 1, 32767][number % 5];
    let window = |n: usize| [edge(n / 125), edge(n / 25), edge(n / 5), edge(n)];
    let registers =
        [0, 0x3ffff, 0x40000, 0x7fffffff, 0x80000000, 0x80040000, 0xc0000000, 0xffffffff];
    let cases = |register| (0..625).map(move |number| (register, window(number)));
    registers.into_iter().flat_map(cases).collect()
}
