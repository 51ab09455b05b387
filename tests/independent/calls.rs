//! The text format of host calls, by their table. vectors/README.md says what it is.

use crate::frame_image;
use crate::host::{self, Answer, Call, Number, Role};
use crate::image::{self, Field};
use crate::lane_image;
use crate::marks_image;
use std::collections::BTreeMap;

const WIDTH: usize = 108;
const LONGEST_UNIT: usize = 32;

/// What the call before left in the buffers, by name.
pub type Left = BTreeMap<&'static str, Vec<u8>>;

/// One call with its answer.
pub fn block(call: &Call, answer: &Answer, left: &Left) -> String {
    let mut text = head(call) + "\n";
    let buffers = call.row.buffers.iter().zip(call.buffers.iter().zip(&answer.buffers));
    for ((name, role), (before, _)) in buffers.clone() {
        text += &match left.get(name) {
            Some(last) if host::may_be_last(name, *role) && last == before => {
                format!("{name} last\n")
            }
            _ => field(name, "", before),
        };
    }
    text += &format!("result {}\n", answer.result);
    for ((name, _), (before, after)) in buffers.filter(|((_, role), _)| *role != Role::Read) {
        text += &match before == after {
            true => format!("{name}-after same\n"),
            false => field(name, "-after", after),
        };
    }
    text
}

fn head(call: &Call) -> String {
    let mut text = call.row.name.to_string();
    for (number, form) in call.numbers.iter().zip(call.row.numbers) {
        text += &match form {
            Number::Whole => format!(" {number}"),
            Number::Float => format!(" {number:016X}"),
        };
    }
    text
}

/// Where the library's answer to a call differs first, by field, in decimal and hexadecimal.
pub fn difference(call: &Call, expected: &Answer, found: &Answer) -> String {
    if expected.result != found.result {
        return format!("result: expected {}, got {}", expected.result, found.result);
    }
    let buffers = call.row.buffers.iter().zip(expected.buffers.iter().zip(&found.buffers));
    for ((name, _), (expected, found)) in buffers {
        for (field, place, size) in numbers(name, expected.len()) {
            let (one, other) = (&expected[place..place + size], &found[place..place + size]);
            if one != other {
                let (one, other) = (shown(one), shown(other));
                return format!("{field}: expected {one}, got {other}");
            }
        }
    }
    "no difference".to_string()
}

type Layout = (&'static str, usize, fn() -> Vec<Field>);

/// Buffers with fields, by name and length.
const LAYOUTS: &[Layout] = &[
    ("image", image::LENGTH, image::fields),
    ("image", lane_image::LENGTH, lane_image::fields),
    ("frame", frame_image::DATA, frame_image::data_fields),
    ("frame", frame_image::START, frame_image::start_fields),
    ("marks", marks_image::LENGTH, marks_image::fields),
];

/// The fields of a buffer that has some.
fn fields(name: &str, length: usize) -> Option<Vec<Field>> {
    let layout = LAYOUTS.iter().find(|(of, long, _)| (*of, *long) == (name, length));
    layout.map(|(_, _, fields)| fields())
}

/// The numbers in a buffer: what each is called, its place and its bytes. A buffer without fields
/// has samples; a line, and one of odd length, has bytes.
fn numbers(name: &str, length: usize) -> Vec<(String, usize, usize)> {
    let Some(fields) = fields(name, length) else {
        let size = if name == "line" || length % 2 == 1 { 1 } else { 2 };
        return (0..length / size).map(|i| (format!("{name} {i}"), i * size, size)).collect();
    };
    let mut numbers = Vec::new();
    for (field, place, size, count) in fields {
        for i in 0..count {
            let title = if count == 1 { field.clone() } else { format!("{field} {i}") };
            numbers.push((title, place + i * size, size));
        }
    }
    numbers
}

/// A number, the low byte first; two bytes are a sample.
fn shown(bytes: &[u8]) -> String {
    let number = image::little(bytes);
    match bytes.len() {
        2 => format!("{} ({number:04X})", number as u16 as i16),
        size => format!("{number} ({number:0width$X})", width = 2 * size),
    }
}

/// A buffer on a line of its own; a line that begins with a space goes on with the one before.
fn field(name: &str, ending: &str, bytes: &[u8]) -> String {
    let mut text = format!("{name}{ending}");
    let mut width = text.len();
    for part in parts(name, bytes) {
        if width + 1 + part.len() > WIDTH {
            text += "\n";
            width = 0;
        }
        width += 1 + part.len();
        text += " ";
        text += &part;
    }
    text + "\n"
}

/// The parts of a buffer: one with fields by these, any other with runs and up to 16 bytes a part. A
/// feed's input or output of 40 bytes is cut as an image.
fn parts(name: &str, bytes: &[u8]) -> Vec<String> {
    if bytes.is_empty() {
        return vec!["-".to_string()];
    }
    let as_image = ["input", "output"].contains(&name) && bytes.len() == image::LENGTH;
    let cut_as = if as_image { "image" } else { name };
    if let Some(fields) = fields(cut_as, bytes.len()) {
        let part = |(_, place, size, count): Field| digits(&bytes[place..place + size * count]);
        return fields.into_iter().map(part).collect();
    }
    let (mut parts, mut place, mut plain) = (Vec::new(), 0, 0);
    while place < bytes.len() {
        let (unit, times) = run(&bytes[place..]);
        if times > 1 || place - plain == 16 {
            parts.extend((plain < place).then(|| digits(&bytes[plain..place])));
            plain = place;
        }
        if times > 1 {
            parts.push(format!("{}*{times}", digits(&bytes[place..place + unit])));
            plain = place + unit * times;
        }
        place += unit * times;
    }
    parts.extend((plain < place).then(|| digits(&bytes[plain..])));
    parts
}

/// The unit at the beginning of the bytes whose repetition saves most: its length and how often it
/// stands there. One byte, once, if nothing is saved.
fn run(bytes: &[u8]) -> (usize, usize) {
    let mut best = (1, 1);
    let mut most = 4;
    for unit in 1..=LONGEST_UNIT.min(bytes.len() / 2) {
        let same = bytes.iter().zip(&bytes[unit..]).take_while(|(a, b)| a == b).count();
        let times = 1 + same / unit;
        if unit * (times - 1) > most {
            most = unit * (times - 1);
            best = (unit, times);
        }
    }
    best
}

fn digits(bytes: &[u8]) -> String {
    bytes.iter().map(|byte| format!("{byte:02X}")).collect()
}
