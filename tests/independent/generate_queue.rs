//! Arguments for pushes and draws: bytes of queues, marks of every kind, bursts and spaces.

use crate::generate;
use crate::host::LARGEST_BUFFER;
use crate::image;
use crate::marks_image;
use crate::queue::{Marks, LARGEST};
use crate::random::Random;
use crate::settings::LARGEST_WORD;

/// Samples of the queues that are compared most.
pub const SHORT: [usize; 5] = [0, 1, 2, 3, 7];
pub const MIDDLE: usize = 64;
pub const LONG: [usize; 2] = [LARGEST - 1, LARGEST];

/// Bytes of queues in which faults are tried: two for a sample, odd lengths, and above 16,384 samples.
pub fn queue_bytes() -> Vec<usize> {
    let samples = SHORT.into_iter().chain([MIDDLE]).chain(LONG).chain([LARGEST + 1]);
    samples.flat_map(|samples| [2 * samples, 2 * samples + 1]).collect()
}

/// The samples of a queue for a list of calls.
pub fn length(random: &mut Random) -> usize {
    match random.below(80) {
        0 => random.pick(&LONG),
        1 => 1 + random.below(LARGEST as u64) as usize,
        2..=9 => MIDDLE,
        10..=19 => 1 + random.below(300) as usize,
        20..=59 => random.pick(&SHORT),
        _ => 4 + random.below(20) as usize,
    }
}

/// Marks that agree with a queue of so many samples and hold so many.
pub fn good_marks(random: &mut Random, length: usize, held: usize) -> Marks {
    let front = if length == 0 { 0 } else { random.below(length as u64) as usize };
    Marks { front, held }
}

/// Marks that agree with a queue of so many samples, in bytes, and then one of each kind that does
/// not: of another length, with a front or a held count that is too large, by one, in its high bytes
/// or at most, and with both.
pub fn marks(random: &mut Random, length: usize) -> Vec<Vec<u8>> {
    let held = random.below(length as u64 + 1) as usize;
    let good = good_marks(random, length, held);
    let top = u32::MAX as usize;
    let mut kinds = vec![good];
    let fronts = [length.max(1), length + 1, good.front + (1 << 16), good.front + (1 << 31), top];
    kinds.extend(fronts.map(|front| Marks { front, ..good }));
    let helds = [length + 1, good.held + (1 << 16), good.held + (1 << 31), top];
    kinds.extend(helds.map(|held| Marks { held, ..good }));
    kinds.push(Marks { front: length + 1, held: length + 1 });
    let mut bytes = kinds.into_iter().map(marks_image::encode).collect::<Vec<Vec<u8>>>();
    for length in [0, 7, 9, 16] {
        let mut other = marks_image::encode(good);
        other.resize(length, 0);
        bytes.push(other);
    }
    bytes
}

/// Bytes of bursts for a queue with so many samples free, of so many in all: nothing, one sample, as
/// many as fit, one more, twice the length; odd lengths, and above 65,536.
pub fn burst_bytes(free: usize, length: usize) -> Vec<usize> {
    let samples = [0, 1, free, free + 1, 2 * length].map(|samples| 2 * samples);
    let large = LARGEST_BUFFER;
    samples.into_iter().chain([1, 2 * free + 1, large - 1, large, large + 1, large + 2]).collect()
}

/// How many samples to push where so many are free: up to twice the length, or near what fits.
pub fn burst(random: &mut Random, free: usize, length: usize) -> usize {
    match random.below(8) {
        0 => random.below(2 * length as u64 + 1) as usize,
        1 => free,
        2 => free + 1,
        3 => 2 * length,
        4 => random.below(3) as usize,
        _ => random.below(free as u64 + 1) as usize,
    }
}

/// How many outputs a draw has space for.
pub fn space(random: &mut Random) -> usize {
    let space = match random.below(200) {
        0 => random.pick(&[32767, 32768]),
        1 => random.below(32769),
        2..=79 => random.below(6),
        _ => random.magnitude(8),
    };
    space as usize
}

/// A stored image that is accepted, and one with each fault.
pub fn images(random: &mut Random) -> Vec<Vec<u8>> {
    let good = generate::wild_image(random);
    let with = |place: usize, bytes: &[u8]| {
        let mut image = good.clone();
        image[place..][..bytes.len()].copy_from_slice(bytes);
        image
    };
    let mut images = vec![good.clone()];
    images.extend([4, 255].map(|kernel| with(image::KERNEL, &[kernel])));
    images.extend([5, 255].map(|needed| with(image::NEEDED, &[needed])));
    images.extend([0, 1].map(|place| with(image::ZEROS + place, &[0x80])));
    images.extend([0, LARGEST_WORD + 1].map(|word| with(image::WORD, &word.to_le_bytes())));
    for length in [0, image::LENGTH - 1, image::LENGTH + 1, 288] {
        let mut other = good.clone();
        other.resize(length, 0);
        images.push(other);
    }
    images
}
