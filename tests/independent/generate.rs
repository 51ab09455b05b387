//! Random arguments for the calls: settings, samples, lengths and images, with the corners.

use crate::host::{self, Call, LARGEST_BUFFER};
use crate::image;
use crate::lane_image;
use crate::lanes;
use crate::random::Random;
use crate::settings::{Setting, LARGEST_WORD};
use crate::state::State;

/// A word that is accepted: corners, around 2^32, and every magnitude.
pub fn good_word(random: &mut Random) -> u64 {
    let near = |middle: u64, random: &mut Random| middle - 3 + random.below(7);
    match random.below(8) {
        0 => random.pick(&[1, 2, 3, 1 << 31, 1 << 32, 1 << 33, LARGEST_WORD - 1, LARGEST_WORD]),
        1 => near(1 << 32, random),
        2 => near(1 << random.pick(&[14, 18, 20, 30, 31, 33]), random),
        3 => (1 << 32) + random.magnitude(28),
        4 => (1 << 32) - random.magnitude(28),
        5 => LARGEST_WORD - random.magnitude(30),
        _ => 1 + random.magnitude(34),
    }
}

pub fn word(random: &mut Random) -> u64 {
    match random.below(6) {
        0 => random.pick(&[0, LARGEST_WORD + 1, LARGEST_WORD * 2, u64::MAX, 1 << 63, 1 << 35]),
        1 => random.next(),
        _ => good_word(random),
    }
}

/// The bits of a ratio: halves between words, bit patterns of any kind, and around the limits.
fn ratio(random: &mut Random) -> u64 {
    let word = good_word(random);
    let exact = (word as f64 / 4294967296.0).to_bits();
    let half = ((2 * word + 1) as f64 / 8589934592.0).to_bits();
    let near = |bits: u64, random: &mut Random| bits - 2 + random.below(5);
    match random.below(12) {
        0 => random.next(),
        1 => random.magnitude(52),
        2 => 1 << 63 | random.pick(&[exact, half, 0, 1, f64::INFINITY.to_bits()]),
        3 => f64::INFINITY.to_bits() + random.magnitude(51),
        4 => near(2f64.powi(random.pick(&[-33, -34, -32, 2])).to_bits(), random),
        5 => near((4.0 + 2f64.powi(-33)).to_bits(), random),
        6 => near(half, random),
        7 => half,
        8 => exact + random.magnitude(40),
        9 => random.pick(&[0, 1, f64::INFINITY.to_bits(), f64::MAX.to_bits(), u64::MAX]),
        _ => exact,
    }
}

fn rates(random: &mut Random) -> (u32, u32) {
    let usual = [8000, 11025, 16000, 22050, 32000, 44100, 48000, 96000, 192000];
    let corner = [0, 1, 2, 3, 4, 5, u32::MAX - 1, u32::MAX, 1 << 30, 1 << 31];
    match random.below(7) {
        0 => (random.pick(&corner), random.pick(&corner)),
        1 => (random.next() as u32, random.next() as u32),
        2 => (random.magnitude(32) as u32, random.magnitude(32) as u32),
        3 => {
            let fout = 1 + random.magnitude(29) as u32;
            (4 * fout - 2 + random.below(5) as u32, fout)
        }
        4 => {
            let fout = random.next() as u32 | 1;
            let (above, below) = next_to_half(fout);
            (random.pick(&[above, below]), fout)
        }
        5 => (random.below(3) as u32, random.pick(&usual)),
        _ => (random.pick(&usual), random.pick(&usual)),
    }
}

/// For an odd output rate, the two input rates below it that give quotients next to a half: with
/// the remainder (Fout + 1)/2, and with (Fout − 1)/2. (Fout + 1)/2 is the inverse of 2, so that its
/// 33rd power times 2^32 leaves itself.
pub fn next_to_half(fout: u32) -> (u32, u32) {
    let modulus = fout as u64;
    let inverse = modulus.div_ceil(2);
    let above = (0..33).fold(1, |power, _| power * inverse % modulus);
    (above as u32, (modulus - above) as u32)
}

/// A setting of any of the three forms, accepted or not.
pub fn setting(random: &mut Random) -> Setting {
    match random.below(3) {
        0 => Setting::Word(word(random)),
        1 => Setting::Ratio(ratio(random)),
        _ => {
            let (fin, fout) = rates(random);
            Setting::Rates(fin, fout)
        }
    }
}

/// A start phase or a register.
pub fn phase(random: &mut Random) -> u32 {
    let corners = [0, 1, 0x3ffff, 0x40000, 0x7fffffff, 0x80000000, 0xc0000000, 0xffffffff];
    match random.below(3) {
        0 => random.pick(&corners),
        1 => random.pick(&corners).wrapping_add(random.below(5) as u32).wrapping_sub(2),
        _ => random.next() as u32,
    }
}

/// What a start is given: kernel, setting and phase.
pub type Start = (u32, Setting, u32);

pub fn start(random: &mut Random) -> Start {
    let kernel = match random.below(12) {
        0 => random.pick(&[4, 5, 255, 256, 259, 1 << 16, 1 << 31, u32::MAX]),
        _ => random.below(4) as u32,
    };
    (kernel, setting(random), phase(random))
}

/// A start that is accepted.
pub fn good_start(random: &mut Random) -> Start {
    let setting = Setting::Word(good_word(random));
    (random.below(4) as u32, setting, phase(random))
}

/// A number of samples from 0 to 32,768: every magnitude, and the corners.
fn good_length(random: &mut Random) -> usize {
    let length = match random.below(40) {
        0 => random.pick(&[32766, 32767, 32768]),
        1 => random.below(32769),
        2..=9 => random.below(6),
        _ => random.magnitude(9),
    };
    length as usize
}

/// Samples: noise over the whole range, extremes, ramps, zeros, levels, squares and quiet noise.
pub fn samples(random: &mut Random, length: usize) -> Vec<i16> {
    let extremes = [-32768, -32767, 32766, 32767];
    let level = random.next() as i16;
    let step = random.magnitude(15) as i16;
    let period = 1 + random.below(9) as usize;
    let kind = random.below(8);
    let sample = |place: usize| match kind {
        0 => 0,
        1 | 2 => random.pick(&extremes),
        3 => level.wrapping_add((place as i16).wrapping_mul(step)),
        4 => [i16::MIN, i16::MAX][place / period % 2],
        5 => (random.below(7) as i16) - 3,
        6 => level,
        _ => random.next() as i16,
    };
    (0..length).map(sample).collect()
}

/// A feed with lengths that are accepted.
pub fn feed(random: &mut Random, image: &[u8]) -> Call {
    let (mut taken, mut written) = (good_length(random), good_length(random));
    if random.one_in(60) {
        // Both long, so that large words make many outputs too.
        (taken, written) = (32768 - taken / 2, 32768 - written / 2);
    }
    let output = places(random, written);
    host::feed(image.to_vec(), host::bytes(&samples(random, taken)), output)
}

/// The bytes of so many output places before a feed.
fn places(random: &mut Random, count: usize) -> Vec<u8> {
    match random.below(2) {
        0 => vec![0xee; 2 * count],
        _ => random.bytes(2 * count),
    }
}

/// A feed with a buffer, or both, of a length that is refused.
pub fn bad_feed(random: &mut Random, image: &[u8]) -> Call {
    let call = feed(random, image);
    spoilt(random, call)
}

fn spoilt(random: &mut Random, mut call: Call) -> Call {
    let which = random.below(3);
    let largest = LARGEST_BUFFER as u64;
    for (buffer, spoilt) in call.buffers[1..].iter_mut().zip([which != 1, which != 0]) {
        let length = match random.below(4) {
            0 => largest + random.pick(&[1, 2, 3, 4]),
            1 => largest + 1 + random.below(70000),
            2 => largest - 1,
            _ => 1 + 2 * random.magnitude(8),
        };
        if spoilt {
            buffer.resize(length as usize, 0x55);
        }
    }
    call
}

/// A stored state that need not come from a start, with any counts.
pub fn wild_image(random: &mut Random) -> Vec<u8> {
    let state = State {
        kernel: random.below(4) as u8,
        needed: random.below(5) as u8,
        register: phase(random),
        word: good_word(random),
        window: samples(random, 4).try_into().unwrap(),
    };
    let mut image = image::encode_fresh(state);
    let counts = match random.below(3) {
        0 => vec![0xff; 16],
        _ => random.bytes(16),
    };
    image[image::COUNTS..].copy_from_slice(&counts);
    image
}

/// An image that is refused, made from a good one of so many bytes by one to three damages.
pub fn damaged_image(random: &mut Random, good: &[u8], length: usize) -> Vec<u8> {
    let mut image = good.to_vec();
    image.resize(length, 0);
    for _ in 0..=random.magnitude(1) + random.magnitude(1) {
        match random.below(6) {
            0 => image[image::ZEROS + random.below(2) as usize] = 1 + random.below(255) as u8,
            1 => image[image::KERNEL] = 4 + random.below(252) as u8,
            2 => image[image::NEEDED] = 5 + random.below(251) as u8,
            3 => image[image::WORD..image::WINDOW].fill(0),
            4 => {
                let word = random.pick(&[LARGEST_WORD + 1, 1 << 63, u64::MAX, 1 << 35]);
                image[image::WORD..image::WINDOW].copy_from_slice(&word.to_le_bytes());
            }
            _ => return wrong_length(random, image, length),
        }
    }
    image
}

/// An image of another length than the right one.
pub fn wrong_length(random: &mut Random, mut image: Vec<u8>, right: usize) -> Vec<u8> {
    let length = match random.below(4) {
        0 => 0,
        1 => right - 1,
        2 => right + 1,
        _ => random.below(100) as usize,
    };
    image.resize(if length == right { 2 * right } else { length }, 0);
    image
}

/// Stored lanes that need not come from a start, with any counts.
pub fn wild_lanes(random: &mut Random) -> Vec<u8> {
    let mut image = wild_image(random);
    for _ in 1..lanes::MOST {
        image.extend(host::bytes(&samples(random, 4)));
    }
    let clips = random.bytes(lane_image::LENGTH - lane_image::CLIPS);
    image.extend(clips);
    image
}

/// A number of samples for each of so many lanes: all together at most 32,768.
fn lane_length(random: &mut Random, count: u32) -> usize {
    let most = LARGEST_BUFFER as u64 / 2 / count as u64;
    let length = match random.below(80) {
        0 => random.pick(&[most - 1, most]),
        1 => random.below(most + 1),
        2..=19 => random.below(6),
        _ => random.magnitude(6),
    };
    length as usize
}

/// A feed of so many lanes, or now and then of another number of them, with lengths that are
/// accepted.
pub fn feed_lanes(random: &mut Random, image: &[u8], usual: u32) -> Call {
    let any = 1 + random.below(lanes::MOST as u64) as u32;
    let count = random.pick(&[usual, usual, usual, any]);
    let (taken, written) = (lane_length(random, count), lane_length(random, count));
    let input = (0..count).flat_map(|_| samples(random, taken)).collect::<Vec<i16>>();
    let output = places(random, written * count as usize);
    host::feed_lanes(image.to_vec(), count, host::bytes(&input), output)
}

/// Lane counts that are refused: around the limits, and with good ones in their low bits.
pub const BAD_COUNTS: [u32; 9] = [0, 17, 18, 255, 257, 65552, 1 << 31 | 1, u32::MAX - 15, u32::MAX];

/// A feed of lanes that is refused with 12 or 13, but for a few: the lane count, a number of samples
/// that is no multiple, or a length, and now and then several of them.
pub fn bad_feed_lanes(random: &mut Random, image: &[u8], usual: u32) -> Call {
    let count = random.pick(&[usual, lanes::MOST as u32 + 1]);
    let mut call = feed_lanes(random, image, count);
    let faults = random.below(8);
    if faults & 1 != 0 {
        call.numbers[0] = random.pick(&BAD_COUNTS) as u64;
    }
    if faults & 2 != 0 {
        let buffer = 1 + random.below(2) as usize;
        let length = call.buffers[buffer].len() + 2 + 2 * random.below(15) as usize;
        call.buffers[buffer].resize(length, 0x55);
    }
    match faults & 4 {
        0 => call,
        _ => spoilt(random, call),
    }
}
