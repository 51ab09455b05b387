//! Random arguments for the calls on frame lines: fields, lines, buffers and their faults.

use crate::frame_image::{self, DATA, START};
use crate::frames::{self, Data, Start, LONGEST_LINE, MOST_SAMPLES};
use crate::generate;
use crate::host::{self, Call, LARGEST_BUFFER};
use crate::lines;
use crate::processes;
use crate::random::Random;
use crate::settings::LARGEST_WORD;

/// The largest count that is drawn, above the most samples of a line.
pub const LARGEST_COUNT: usize = MOST_SAMPLES + 2;

/// A call of any of the four kinds.
pub fn call(random: &mut Random) -> Call {
    match random.below(8) {
        0..=2 => {
            let samples = samples(random);
            let line = line_buffer(random, frames::data_length(samples.len() / 2));
            host::write_data(generate::phase(random), samples, line)
        }
        3 => {
            let line = line_buffer(random, frames::START_LENGTH);
            host::write_start(&start(random), line)
        }
        4..=6 => {
            let data = good_data(random);
            let places = places(random, data.samples.len());
            let line = lent(random, lines::data_line(&data));
            host::read_data(line, data_frame(random, data.sequence), places)
        }
        _ => {
            let line = lines::start_line(&start(random));
            let frame = if random.one_in(16) { wrong_frame(random, START) } else { START };
            host::read_start(lent(random, line), contents(random, frame))
        }
    }
}

/// The fields of a D line with so many samples.
pub fn data(random: &mut Random, count: usize) -> Data {
    Data { sequence: generate::phase(random), samples: generate::samples(random, count) }
}

/// Those of a line that is accepted.
fn good_data(random: &mut Random) -> Data {
    let count = 1 + random.below(MOST_SAMPLES as u64) as usize;
    data(random, count)
}

pub fn good_start(random: &mut Random) -> Start {
    let kernel = random.below(4) as u32;
    Start { kernel, word: generate::good_word(random), phase: generate::phase(random) }
}

/// Kernels that are refused, those with good ones in their low bits among them.
pub const BAD_KERNELS: [u32; 8] = [4, 5, 16, 255, 256, 259, 1 << 31, u32::MAX];
/// Words that are refused: those that nine digits have room for, and larger ones.
pub const BAD_WORDS: [u64; 4] = [0, LARGEST_WORD + 1, 1 << 35, (1 << 36) - 1];
pub const LARGER_WORDS: [u64; 4] = [1 << 36, (1 << 36) + 1, 1 << 63, u64::MAX];

/// Any kernel, word and phase.
fn start(random: &mut Random) -> Start {
    let mut start = Start { word: generate::word(random), ..good_start(random) };
    if random.one_in(8) {
        start.kernel = random.pick(&BAD_KERNELS);
    }
    start
}

/// The bytes of 0 to 66 samples, now and then of odd length or of many more.
fn samples(random: &mut Random) -> Vec<u8> {
    let count = random.below(LARGEST_COUNT as u64 + 1) as usize;
    let mut bytes = host::bytes(&generate::samples(random, count));
    match random.below(128) {
        0..=5 => bytes.push(0x55),
        6 => bytes.resize(many(random), 0x55),
        _ => {}
    }
    bytes
}

/// A length of samples in bytes about the largest, or above it.
fn many(random: &mut Random) -> usize {
    let near = LARGEST_BUFFER - 3 + random.below(8) as usize;
    random.pick(&[near, near, near, 2 * LARGEST_BUFFER, LARGEST_BUFFER + 1 + 4 * near])
}

/// A buffer for a line of so many bytes: of every length from none to 4 bytes more, and now and then
/// much longer.
fn line_buffer(random: &mut Random, line: usize) -> Vec<u8> {
    let length = match random.below(16) {
        0 => 0,
        1 | 2 => line.saturating_sub(1),
        3 | 4 => random.below(line as u64 + 1) as usize,
        5..=8 => line,
        9..=13 => line + random.below(5) as usize,
        14 => line + random.below(300) as usize,
        _ if random.one_in(16) => LARGEST_BUFFER + random.below(line as u64) as usize,
        _ => line + random.magnitude(13) as usize,
    };
    contents(random, length)
}

/// So many bytes that a buffer may hold before a call; some are those of lines.
pub fn contents(random: &mut Random, length: usize) -> Vec<u8> {
    match random.below(4) {
        0 => vec![0xee; length],
        1 => vec![random.pick(&[0, 10, b'0', b'D', b'K', 0xff]); length],
        _ => random.bytes(length),
    }
}

/// A line with what may follow it: nothing, another line, part of one, or anything. One time in two
/// something of it is changed, taken out, put in or cut off.
fn lent(random: &mut Random, mut line: Vec<u8>) -> Vec<u8> {
    match random.below(4) {
        0 => line.extend(lines::data_line(&good_data(random))),
        1 => {
            let length = if random.one_in(64) { LARGEST_BUFFER as u64 } else { random.below(300) };
            line.extend(contents(random, length as usize));
        }
        _ => {}
    }
    if random.one_in(2) {
        for _ in 0..1 + random.below(2) {
            processes::damage(random, &mut line);
        }
    }
    line
}

/// A frame for a line with this number: mostly one that the line follows, and now and then of another
/// length than it has to have.
fn data_frame(random: &mut Random, sequence: u32) -> Vec<u8> {
    match random.below(16) {
        0 => {
            let length = wrong_frame(random, DATA);
            contents(random, length)
        }
        1..=4 => not_before(random, sequence),
        _ => before(random, sequence),
    }
}

/// A frame that a line with this number follows: the number before it, or none, with anything beside
/// the count of 0.
pub fn before(random: &mut Random, sequence: u32) -> Vec<u8> {
    match sequence.checked_sub(1) {
        Some(last) if !random.one_in(3) => frame_image::encode(last, count(random)),
        _ => frame_image::encode(near(random, sequence), 0),
    }
}

/// A frame that it does not follow.
pub fn not_before(random: &mut Random, sequence: u32) -> Vec<u8> {
    let last = near(random, sequence);
    let last = if last.checked_add(1) == Some(sequence) { sequence } else { last };
    frame_image::encode(last, count(random))
}

/// A number about this one, or like the one before it but for a bit or the order of its bytes.
fn near(random: &mut Random, sequence: u32) -> u32 {
    let before = sequence.wrapping_sub(1);
    match random.below(8) {
        0 => sequence,
        1..=3 => sequence.wrapping_add(random.below(7) as u32).wrapping_sub(4),
        4 => before ^ 1 << random.below(32),
        5 => before.swap_bytes(),
        6 => random.pick(&[0, u32::MAX]),
        _ => random.next() as u32,
    }
}

/// A count other than 0, every second one no line's.
fn count(random: &mut Random) -> u32 {
    let (line, any) = (1 + random.below(64) as u32, (random.next() as u32).max(1));
    let other = random.pick(&[65, 255, 1 << 8, 1 << 16, 1 << 24, 1 << 31, u32::MAX, any]);
    random.pick(&[line, other])
}

/// Another length than the right one.
fn wrong_frame(random: &mut Random, right: usize) -> usize {
    let near = random.pick(&[right - 1, right + 1, right - 4, right + 4]);
    let other = random.pick(&[24 - right, 0, 1, 40, 256 + right, LARGEST_BUFFER + right]);
    random.pick(&[near, other])
}

/// A sample buffer for so many samples: as many places, less, up to 4 bytes more, and now and then
/// one of odd length or many more.
fn places(random: &mut Random, count: usize) -> Vec<u8> {
    let right = 2 * count;
    let length = match random.below(32) {
        0 => 0,
        1 | 2 => right - 1,
        3 | 4 => random.below(right as u64 + 1) as usize,
        5..=14 => right,
        15..=29 => right + 2 * random.below(3) as usize,
        30 => right + random.below(5) as usize,
        _ if random.one_in(4) => many(random),
        _ => 2 * random.below(400) as usize,
    };
    contents(random, length)
}

/// A refusal, and whether a call is given its fault.
pub type Fault = (u32, bool);

/// Every set of faults of these refusals.
pub fn sets<const N: usize>(refusals: [u32; N]) -> impl Iterator<Item = Vec<Fault>> {
    (0..1 << N).map(move |set| {
        let fault = |(place, refusal): (usize, &u32)| (*refusal, set >> place & 1 == 1);
        refusals.iter().enumerate().map(fault).collect()
    })
}

/// A read of a D line with so many samples and with these faults.
pub fn faulty_data(random: &mut Random, count: usize, faults: &[Fault]) -> Call {
    let has = |refusal: u32| faults.contains(&(refusal, true));
    let data = data(random, count);
    let mut line = lines::data_line(&data);
    if has(10) {
        let place = random.pick(&[1, 8, 11, line.len() - 3, line.len() - 2]);
        line[place] = if line[place] == b'0' { b'1' } else { b'0' };
    }
    spoil(random, &mut line, &has);
    let mut places = if has(11) { 2 * random.below(count as u64) as usize } else { 2 * count };
    if has(12) {
        places = if has(11) || random.one_in(2) { places + 1 } else { LARGEST_BUFFER + 2 };
    }
    let told = if has(15) { not_before } else { before };
    let mut frame = told(random, data.sequence);
    if has(5) {
        frame.resize(wrong_frame(random, DATA), 0xee);
    }
    host::read_data(line, frame, contents(random, places))
}

/// A read of a K line with these faults.
pub fn faulty_start(random: &mut Random, faults: &[Fault]) -> Call {
    let has = |refusal: u32| faults.contains(&(refusal, true));
    let mut start = good_start(random);
    if has(1) {
        start.kernel = 4 + random.below(12) as u32;
    }
    if has(4) {
        start.word = random.pick(&BAD_WORDS);
    }
    let mut line = lines::start_line(&start);
    spoil(random, &mut line, &has);
    let frame = if has(5) { wrong_frame(random, START) } else { START };
    host::read_start(line, contents(random, frame))
}

/// Gives a line its faults from 6 to 9, the last first, so that each stays.
fn spoil(random: &mut Random, line: &mut Vec<u8>, has: &dyn Fn(u32) -> bool) {
    if has(9) && (random.one_in(2) || line.len() == LONGEST_LINE) {
        line.remove(line.len() - 2);
    } else if has(9) {
        line.insert(line.len() - 2, b'0');
    }
    if has(8) {
        let place = 1 + random.below(line.len() as u64 - 2) as usize;
        line[place] = random.pick(&[b'a', b'f', b'G', b'@', b'/', b':', b' ', 13, 0, 0xff]);
    }
    if has(7) {
        line[0] = random.pick(&[line[0] ^ 0x20, line[0] ^ b'K' ^ b'D', b'0', 0]);
    }
    if has(6) {
        line.pop();
        if random.one_in(2) {
            line.resize(LONGEST_LINE + random.below(3) as usize, b'0');
            line.push(10);
        }
    }
}
