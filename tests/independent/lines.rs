//! The writer of frame lines. Request U2.

use crate::frames::{Data, Start, MOST_SAMPLES};
use crate::settings::Setting;
use crate::state;

/// A D line.
pub fn data_line(data: &Data) -> Vec<u8> {
    counted_line(data, data.samples.len() as u8)
}

/// A D line whose count need not be that of its samples: "these bytes, check included, sum to 0
/// modulo 256".
pub fn counted_line(data: &Data, count: u8) -> Vec<u8> {
    let mut bytes = data.sequence.to_be_bytes().to_vec();
    bytes.push(count);
    bytes.extend(data.samples.iter().flat_map(|sample| sample.to_be_bytes()));
    let sum = bytes.iter().fold(0u8, |sum, &byte| sum.wrapping_add(byte));
    bytes.push(sum.wrapping_neg());
    let digits = bytes.iter().map(|byte| format!("{byte:02X}")).collect::<String>();
    format!("D{digits}\n").into_bytes()
}

/// A K line.
pub fn start_line(start: &Start) -> Vec<u8> {
    let Start { kernel, word, phase } = start;
    format!("K{kernel:X}{word:09X}{phase:08X}\n").into_bytes()
}

/// "14, no samples, above 64, or a buffer shorter than the line": of so many bytes.
pub fn write_data(data: &Data, room: usize) -> Result<Vec<u8>, u32> {
    match (1..=MOST_SAMPLES).contains(&data.samples.len()) {
        true => fitting(data_line(data), room),
        false => Err(14),
    }
}

/// "A K line can be written too, with refusals 1 and 4 as at start"; 14 is "last in order for either
/// line".
pub fn write_start(start: &Start, room: usize) -> Result<Vec<u8>, u32> {
    state::start(start.kernel, Setting::Word(start.word), start.phase)?;
    fitting(start_line(start), room)
}

fn fitting(line: Vec<u8>, room: usize) -> Result<Vec<u8>, u32> {
    match line.len() <= room {
        true => Ok(line),
        false => Err(14),
    }
}
