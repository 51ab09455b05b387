//! The reader of frame lines. Document 01, "Frame lines", and request U4.

/// "ending in byte 10, which must be among the first 270 bytes"
pub const LONGEST_LINE: usize = 270;

/// The bytes of a K line: letter, 18 digits and byte 10.
pub const START_LENGTH: usize = 20;

/// Those of a D line of so many samples: letter, "12 + 4 times count" digits and byte 10.
pub fn data_length(count: usize) -> usize {
    14 + 4 * count
}

/// The digits of a line's first letter on, and the bytes that follow the line.
type Line<'a> = (Vec<u32>, &'a [u8]);

/// "2 digits count (1 to 64)"
pub const MOST_SAMPLES: usize = 64;

/// The fields of a K line.
#[derive(Clone, Copy, PartialEq, Eq)]
pub struct Start {
    pub kernel: u32,
    pub word: u64,
    pub phase: u32,
}

/// Those of a D line; its count is that of the samples.
#[derive(Clone, PartialEq, Eq)]
pub struct Data {
    pub sequence: u32,
    pub samples: Vec<i16>,
}

/// The last number accepted, "or that there was none".
pub type Last = Option<u32>;

/// "with none, any number is accepted"; else only the next one, and "No number follows FFFFFFFF".
pub fn follows(sequence: u32, last: Last) -> bool {
    last.map_or(true, |last| last as u64 + 1 == sequence as u64)
}

/// Refusals 6, 7 and 8, which both kinds of line share.
fn digits(bytes: &[u8], letter: u8) -> Result<Line<'_>, u32> {
    let first = &bytes[..bytes.len().min(LONGEST_LINE)];
    let end = first.iter().position(|&byte| byte == 10).ok_or(6u32)?;
    if end == 0 || bytes[0] != letter {
        return Err(7);
    }
    let digit = |&byte: &u8| match byte {
        b'0'..=b'9' => Ok((byte - b'0') as u32),
        b'A'..=b'F' => Ok((byte - b'A') as u32 + 10),
        _ => Err(8u32),
    };
    let digits = bytes[1..end].iter().map(digit).collect::<Result<Vec<u32>, u32>>()?;
    Ok((digits, &bytes[end + 1..]))
}

fn number(digits: &[u32]) -> u64 {
    digits.iter().fold(0, |sum, &digit| sum << 4 | digit as u64)
}

/// "`K`, 1 digit kernel, 9 digits word, 8 digits phase." Refusals 1 and 4, tested after 6 to 9,
/// are the start's.
pub fn read_k(bytes: &[u8]) -> Result<(Start, &[u8]), u32> {
    let (digits, rest) = digits(bytes, b'K')?;
    if digits.len() != 18 {
        return Err(9);
    }
    let start = Start {
        kernel: digits[0],
        word: number(&digits[1..10]),
        phase: number(&digits[10..]) as u32,
    };
    Ok((start, rest))
}

/// "`D`, 8 digits sequence number, 2 digits count (1 to 64), 4 digits for each sample in two's
/// complement, 2 digits check. Each pair of digits after `D` is a byte; these bytes, check
/// included, sum to 0 modulo 256." Refusal 15 comes "after 10 and before 11".
pub fn read_d(bytes: &[u8], last: Last, room: usize) -> Result<(Data, &[u8]), u32> {
    let (digits, rest) = digits(bytes, b'D')?;
    if digits.len() < 12 {
        return Err(9);
    }
    let count = number(&digits[8..10]) as usize;
    if count == 0 || count > MOST_SAMPLES || digits.len() != 12 + 4 * count {
        return Err(9);
    }
    if digits.chunks(2).map(number).sum::<u64>() % 256 != 0 {
        return Err(10);
    }
    let sequence = number(&digits[..8]) as u32;
    if !follows(sequence, last) {
        return Err(15);
    }
    if room < count {
        return Err(11);
    }
    let sample = |four: &[u32]| number(four) as u16 as i16;
    let samples = digits[10..10 + 4 * count].chunks(4).map(sample).collect();
    Ok((Data { sequence, samples }, rest))
}
