//! The image: a state saved in bytes. Document 01, "Saved state for the C host".

use crate::clips::Shown;
use crate::state::{self, End, Fed, State};

pub const LENGTH: usize = 40;
/// Where the parts begin; the counts are taken, written, clips and end.
pub const KERNEL: usize = 0;
pub const NEEDED: usize = 1;
pub const ZEROS: usize = 2;
pub const REGISTER: usize = 4;
pub const WORD: usize = 8;
pub const WINDOW: usize = 16;
pub const COUNTS: usize = 24;
pub const CLIPS: usize = COUNTS + 8;

/// A field of a buffer: its name, its place, the bytes of a number, and how many numbers it has.
pub type Field = (String, usize, usize, usize);

pub fn fields() -> Vec<Field> {
    let fields = [
        ("kernel", KERNEL, 1, 1),
        ("needed", NEEDED, 1, 1),
        ("zeros", ZEROS, 2, 1),
        ("register", REGISTER, 4, 1),
        ("word", WORD, 8, 1),
        ("window", WINDOW, 2, 4),
        ("taken", COUNTS, 4, 1),
        ("written", COUNTS + 4, 4, 1),
        ("clips", CLIPS, 4, 1),
        ("end", COUNTS + 12, 4, 1),
    ];
    fields.map(|(name, place, size, count)| (name.to_string(), place, size, count)).to_vec()
}

/// The state in an image, or refusal 5: "image not 40 bytes or bytes 2, 3 not zero", or a state
/// that is refused. Taken, written, clips and end are "anything on entry".
pub fn decode(image: &[u8]) -> Result<State, u32> {
    if image.len() != LENGTH || image[ZEROS] != 0 || image[ZEROS + 1] != 0 {
        return Err(5);
    }
    let state = State {
        kernel: image[KERNEL],
        needed: image[NEEDED],
        register: little(&image[REGISTER..WORD]) as u32,
        word: word(image),
        window: [0, 2, 4, 6].map(|place| little(&image[WINDOW + place..][..2]) as u16 as i16),
    };
    state::check(&state)?;
    Ok(state)
}

/// "40 bytes, little-endian: kernel, needed count, two zero bytes, register (4), word (8), window
/// (four of 2), then taken, written, clips, and 0 for HUNGRY or 1 for FULL (4 each)"; the clips are
/// the sum of both counts.
pub fn encode(fed: &Fed) -> Vec<u8> {
    let state = &fed.state;
    let mut image = vec![state.kernel, state.needed, 0, 0];
    image.extend(state.register.to_le_bytes());
    image.extend(state.word.to_le_bytes());
    for sample in state.window {
        image.extend(sample.to_le_bytes());
    }
    let end = match fed.end {
        End::Hungry => 0,
        End::Full => 1,
    };
    for count in [fed.taken as u32, fed.written as u32, fed.clips.sum() as u32, end] {
        image.extend(count.to_le_bytes());
    }
    image
}

/// What a start leaves: the fresh state, zero counts, HUNGRY.
pub fn encode_fresh(state: State) -> Vec<u8> {
    encode(&state.unfed())
}

/// The word of an image of the right length.
pub fn word(image: &[u8]) -> u64 {
    little(&image[WORD..WINDOW])
}

/// Taken, written, clips and end of an image of the right length.
pub fn counts(image: &[u8]) -> [u32; 4] {
    [0, 4, 8, 12].map(|place| little(&image[COUNTS + place..][..4]) as u32)
}

/// What a feed left in an image, if that is a state that is accepted.
pub fn fed(image: &[u8]) -> Result<Fed<Shown>, u32> {
    let [taken, written, clips, end] = counts(image).map(|count| count as usize);
    let end = if end == 1 { End::Full } else { End::Hungry };
    Ok(Fed { state: decode(image)?, taken, written, clips: Shown::Sum(clips), end })
}

pub fn little(bytes: &[u8]) -> u64 {
    bytes.iter().rev().fold(0, |sum, &byte| sum << 8 | byte as u64)
}
