//! The marks of a queue in bytes: "front (4), held (4), both in samples", low byte first. Request U7.

use crate::image::{self, Field};
use crate::queue::Marks;

pub const LENGTH: usize = 8;
const HELD: usize = 4;

pub fn fields() -> Vec<Field> {
    vec![("front".to_string(), 0, 4, 1), ("held".to_string(), HELD, 4, 1)]
}

/// The marks, or refusal 5: not 8 bytes. Whether they agree with a buffer is another question.
pub fn decode(bytes: &[u8]) -> Result<Marks, u32> {
    if bytes.len() != LENGTH {
        return Err(5);
    }
    let number = |bytes: &[u8]| image::little(bytes) as usize;
    Ok(Marks { front: number(&bytes[..HELD]), held: number(&bytes[HELD..]) })
}

pub fn encode(marks: Marks) -> Vec<u8> {
    [marks.front, marks.held].map(|number| (number as u32).to_le_bytes()).concat()
}
