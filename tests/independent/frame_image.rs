//! The frame of the C host: the fields of a line that was read, low byte first.

use crate::frames::{Data, Last, Start};
use crate::image::{self, Field};

/// The bytes of a D line's frame, and of a K line's.
pub const DATA: usize = 8;
pub const START: usize = 16;

pub fn data_fields() -> Vec<Field> {
    vec![("sequence".to_string(), 0, 4, 1), ("count".to_string(), 4, 4, 1)]
}

pub fn start_fields() -> Vec<Field> {
    let fields = [("kernel", 0, 4, 1), ("phase", 4, 4, 1), ("word", 8, 8, 1)];
    fields.map(|(name, place, size, count)| (name.to_string(), place, size, count)).to_vec()
}

pub fn encode_data(data: &Data) -> Vec<u8> {
    encode(data.sequence, data.samples.len() as u32)
}

/// The frame of a D line with this number and this count.
pub fn encode(sequence: u32, count: u32) -> Vec<u8> {
    [sequence, count].map(u32::to_le_bytes).concat()
}

/// The number and the count of a D line.
pub fn decode_data(frame: &[u8]) -> (u32, usize) {
    (image::little(&frame[..4]) as u32, image::little(&frame[4..]) as usize)
}

/// What a D line's frame tells the next read: a count of 0, which no line has, says that there was
/// no last number, whatever stands beside it.
pub fn told(frame: &[u8]) -> Last {
    match decode_data(frame) {
        (_, 0) => None,
        (sequence, _) => Some(sequence),
    }
}

pub fn encode_start(start: &Start) -> Vec<u8> {
    let mut frame = [start.kernel, start.phase].map(u32::to_le_bytes).concat();
    frame.extend(start.word.to_le_bytes());
    frame
}

pub fn decode_start(frame: &[u8]) -> Start {
    let number = |bytes: &[u8]| image::little(bytes) as u32;
    let (kernel, phase) = (number(&frame[..4]), number(&frame[4..8]));
    Start { kernel, word: image::little(&frame[8..]), phase }
}
