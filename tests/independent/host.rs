//! The host calls over bytes, by table: a call is its name, its numbers, the buffers that it is lent
//! and which of them it may write, what it must answer, and how it is made in C.

use crate::frame_image;
use crate::frames::{self, Data, Start};
use crate::image;
use crate::lane_image;
use crate::lanes;
use crate::lines;
use crate::marks_image;
use crate::queue;
use crate::settings::Setting;
use crate::state;

/// How a number is written: in decimal, or a float as the 16 digits of its bits.
#[derive(Clone, Copy)]
pub enum Number {
    Whole,
    Float,
}

/// What a buffer is to a call: kept by the host from call to call, read only, or written only.
#[derive(Clone, Copy, PartialEq, Eq)]
pub enum Role {
    Kept,
    Read,
    Written,
}

pub struct Row {
    pub name: &'static str,
    pub numbers: &'static [Number],
    pub buffers: &'static [(&'static str, Role)],
    /// The answers that a comparison has to meet.
    pub answers: &'static [u32],
    /// What an accepted call leaves in its buffers, or the refusal.
    accept: fn(&Call) -> Result<Vec<Vec<u8>>, u32>,
    #[cfg(library)]
    pub make: fn(&[u64], &[crate::library::Lent]) -> u32,
}

/// One call with its buffers as they are lent.
#[derive(Clone)]
pub struct Call {
    pub row: &'static Row,
    pub numbers: Vec<u64>,
    pub buffers: Vec<Vec<u8>>,
}

/// What a call returns, and its buffers as it leaves them.
#[derive(Clone, PartialEq, Eq)]
pub struct Answer {
    pub result: u32,
    pub buffers: Vec<Vec<u8>>,
}

use {Number::*, Role::*};

const IMAGE: &[(&str, Role)] = &[("image", Kept)];
const FEED: &[(&str, Role)] = &[("image", Kept), ("input", Read), ("output", Written)];
const WRITE_DATA: &[(&str, Role)] = &[("samples", Read), ("line", Written)];
const READ_DATA: &[(&str, Role)] = &[("line", Read), ("frame", Kept), ("samples", Written)];
const READ_START: &[(&str, Role)] = &[("line", Read), ("frame", Kept)];
const PUSH: &[(&str, Role)] = &[("marks", Kept), ("queue", Kept), ("samples", Read)];
const DRAW: &[(&str, Role)] =
    &[("image", Kept), ("marks", Kept), ("queue", Read), ("output", Written)];

/// A row: name, numbers, buffers, the answers to meet, what is accepted; and the call in C, each
/// argument with its type, where n[i] is a number and b[i] a buffer.
macro_rules! rows {
    (|$n:ident, $b:ident| $($name:ident, $numbers:expr, $buffers:expr, $answers:expr, $accept:expr,
        $symbol:ident($($value:expr => $kind:ty),*);)*) => {
        #[allow(unused_variables)] // of a call without numbers
        pub static ROWS: &[Row] = &[$(Row {
            name: stringify!($name),
            numbers: $numbers,
            buffers: $buffers,
            answers: $answers,
            accept: $accept,
            #[cfg(library)]
            make: |$n, $b| {
                extern "C" {
                    fn $symbol($(_: $kind),*) -> u32;
                }
                // Safe: the buffers are those that `Library::answer` lends.
                unsafe { $symbol($($value),*) }
            },
        }),*];
    };
}

rows! { |n, b|
    feed, &[], FEED, &[0, 5, 12], fed_alone,
        resampler_feed(b[0].at => *mut u8, b[0].length => usize, b[1].at => *const u8,
            b[1].length => usize, b[2].at => *mut u8, b[2].length => usize);
    start_word, &[Whole; 3], IMAGE, &[0, 1, 4, 5],
        |call| started(call, Setting::Word(call.numbers[1]), fresh),
        resampler_start_word(b[0].at => *mut u8, b[0].length => usize, n[0] as u32 => u32,
            n[1] => u64, n[2] as u32 => u32);
    start_ratio, &[Whole, Float, Whole], IMAGE, &[0, 1, 2, 4, 5],
        |call| started(call, Setting::Ratio(call.numbers[1]), fresh),
        resampler_start_ratio(b[0].at => *mut u8, b[0].length => usize, n[0] as u32 => u32,
            f64::from_bits(n[1]) => f64, n[2] as u32 => u32);
    start_rates, &[Whole; 4], IMAGE, &[0, 1, 3, 4, 5],
        |call| started(call, rates(&call.numbers[1..3]), fresh),
        resampler_start_rates(b[0].at => *mut u8, b[0].length => usize, n[0] as u32 => u32,
            n[1] as u32 => u32, n[2] as u32 => u32, n[3] as u32 => u32);
    retune_word, &[Whole], IMAGE, &[0, 4, 5],
        |call| retuned(call, Setting::Word(call.numbers[0]), whole),
        resampler_retune_word(b[0].at => *mut u8, b[0].length => usize, n[0] => u64);
    retune_ratio, &[Float], IMAGE, &[0, 2, 4, 5],
        |call| retuned(call, Setting::Ratio(call.numbers[0]), whole),
        resampler_retune_ratio(b[0].at => *mut u8, b[0].length => usize,
            f64::from_bits(n[0]) => f64);
    retune_rates, &[Whole; 2], IMAGE, &[0, 3, 4, 5],
        |call| retuned(call, rates(&call.numbers), whole),
        resampler_retune_rates(b[0].at => *mut u8, b[0].length => usize, n[0] as u32 => u32,
            n[1] as u32 => u32);
    feed_lanes, &[Whole], FEED, &[0, 5, 12, 13], fed_lanes,
        resampler_feed_lanes(b[0].at => *mut u8, b[0].length => usize, n[0] as u32 => u32,
            b[1].at => *const u8, b[1].length => usize, b[2].at => *mut u8, b[2].length => usize);
    start_lanes_word, &[Whole; 3], IMAGE, &[0, 1, 4, 5],
        |call| started(call, Setting::Word(call.numbers[1]), fresh_lanes),
        resampler_start_lanes_word(b[0].at => *mut u8, b[0].length => usize, n[0] as u32 => u32,
            n[1] => u64, n[2] as u32 => u32);
    start_lanes_ratio, &[Whole, Float, Whole], IMAGE, &[0, 1, 2, 4, 5],
        |call| started(call, Setting::Ratio(call.numbers[1]), fresh_lanes),
        resampler_start_lanes_ratio(b[0].at => *mut u8, b[0].length => usize, n[0] as u32 => u32,
            f64::from_bits(n[1]) => f64, n[2] as u32 => u32);
    start_lanes_rates, &[Whole; 4], IMAGE, &[0, 1, 3, 4, 5],
        |call| started(call, rates(&call.numbers[1..3]), fresh_lanes),
        resampler_start_lanes_rates(b[0].at => *mut u8, b[0].length => usize, n[0] as u32 => u32,
            n[1] as u32 => u32, n[2] as u32 => u32, n[3] as u32 => u32);
    retune_lanes_word, &[Whole], IMAGE, &[0, 4, 5],
        |call| retuned(call, Setting::Word(call.numbers[0]), front),
        resampler_retune_word(b[0].at => *mut u8, front(b[0].length) => usize, n[0] => u64);
    retune_lanes_ratio, &[Float], IMAGE, &[0, 2, 4, 5],
        |call| retuned(call, Setting::Ratio(call.numbers[0]), front),
        resampler_retune_ratio(b[0].at => *mut u8, front(b[0].length) => usize,
            f64::from_bits(n[0]) => f64);
    retune_lanes_rates, &[Whole; 2], IMAGE, &[0, 3, 4, 5],
        |call| retuned(call, rates(&call.numbers), front),
        resampler_retune_rates(b[0].at => *mut u8, front(b[0].length) => usize,
            n[0] as u32 => u32, n[1] as u32 => u32);
    write_data, &[Whole], WRITE_DATA, &[0, 12, 14], data_written,
        resampler_write_data(n[0] as u32 => u32, b[0].at => *const u8, b[0].length => usize,
            b[1].at => *mut u8, b[1].length => usize);
    write_start, &[Whole; 3], &[("line", Written)], &[0, 1, 4, 14], start_written,
        resampler_write_start(n[0] as u32 => u32, n[1] => u64, n[2] as u32 => u32,
            b[0].at => *mut u8, b[0].length => usize);
    read_data, &[], READ_DATA, &[0, 5, 6, 7, 8, 9, 10, 11, 12, 15], data_read,
        resampler_read_data(b[0].at => *const u8, b[0].length => usize, b[1].at => *mut u8,
            b[1].length => usize, b[2].at => *mut u8, b[2].length => usize);
    read_start, &[], READ_START, &[0, 1, 4, 5, 6, 7, 8, 9], start_read,
        resampler_read_start(b[0].at => *const u8, b[0].length => usize, b[1].at => *mut u8,
            b[1].length => usize);
    push, &[], PUSH, &[0, 5, 12, 16], pushed,
        resampler_push(b[0].at => *mut u8, b[0].length => usize, b[1].at => *mut u8,
            b[1].length => usize, b[2].at => *const u8, b[2].length => usize);
    draw, &[], DRAW, &[0, 5, 12], drawn,
        resampler_draw(b[0].at => *mut u8, b[0].length => usize, b[1].at => *mut u8,
            b[1].length => usize, b[2].at => *const u8, b[2].length => usize, b[3].at => *mut u8,
            b[3].length => usize);
}

/// Whether `last` may stand for a buffer: it is kept by the host, or has what another call wrote.
pub fn may_be_last(name: &str, role: Role) -> bool {
    let written = |row: &Row| row.buffers.iter().any(|of| of.0 == name && of.1 != Read);
    role == Kept || role == Read && ROWS.iter().any(written)
}

/// A call of a row, by the row's name.
fn call(name: &str, numbers: Vec<u64>, buffers: Vec<Vec<u8>>) -> Call {
    let row = ROWS.iter().find(|row| row.name == name).expect(name);
    Call { row, numbers, buffers }
}

pub fn feed(image: Vec<u8>, input: Vec<u8>, output: Vec<u8>) -> Call {
    call("feed", Vec::new(), vec![image, input, output])
}

pub fn feed_lanes(image: Vec<u8>, count: u32, input: Vec<u8>, output: Vec<u8>) -> Call {
    call("feed_lanes", vec![count as u64], vec![image, input, output])
}

pub fn write_data(sequence: u32, samples: Vec<u8>, line: Vec<u8>) -> Call {
    call("write_data", vec![sequence as u64], vec![samples, line])
}

pub fn write_start(start: &Start, line: Vec<u8>) -> Call {
    call("write_start", vec![start.kernel as u64, start.word, start.phase as u64], vec![line])
}

pub fn read_data(line: Vec<u8>, frame: Vec<u8>, samples: Vec<u8>) -> Call {
    call("read_data", Vec::new(), vec![line, frame, samples])
}

pub fn read_start(line: Vec<u8>, frame: Vec<u8>) -> Call {
    call("read_start", Vec::new(), vec![line, frame])
}

pub fn push(marks: Vec<u8>, queue: Vec<u8>, samples: Vec<u8>) -> Call {
    call("push", Vec::new(), vec![marks, queue, samples])
}

pub fn draw(image: Vec<u8>, marks: Vec<u8>, queue: Vec<u8>, output: Vec<u8>) -> Call {
    call("draw", Vec::new(), vec![image, marks, queue, output])
}

/// A start by the form of the setting; the name is "start" or "start_lanes".
pub fn start(name: &str, image: Vec<u8>, kernel: u32, setting: Setting, phase: u32) -> Call {
    let (form, numbers) = parts(setting);
    let numbers = [&[kernel as u64], &numbers[..], &[phase as u64]].concat();
    call(&format!("{name}_{form}"), numbers, vec![image])
}

/// The same for a retune; the name is "retune" or "retune_lanes".
pub fn retune(name: &str, image: Vec<u8>, setting: Setting) -> Call {
    let (form, numbers) = parts(setting);
    call(&format!("{name}_{form}"), numbers, vec![image])
}

/// The end of a call's name by the form of a setting, and the setting's numbers.
fn parts(setting: Setting) -> (&'static str, Vec<u64>) {
    match setting {
        Setting::Word(word) => ("word", vec![word]),
        Setting::Ratio(bits) => ("ratio", vec![bits]),
        Setting::Rates(fin, fout) => ("rates", vec![fin as u64, fout as u64]),
    }
}

fn rates(numbers: &[u64]) -> Setting {
    Setting::Rates(numbers[0] as u32, numbers[1] as u32)
}

/// The answer that document 01 asks for. A refused call leaves every buffer as it came.
pub fn answer(call: &Call) -> Answer {
    match (call.row.accept)(call) {
        Ok(buffers) => Answer { result: 0, buffers },
        Err(result) => Answer { result, buffers: call.buffers.clone() },
    }
}

/// Refusals 1 to 4, then 5: "The lowest that applies is returned". The phase is the last number;
/// `image` makes the image that an accepted start writes.
fn started(
    call: &Call,
    setting: Setting,
    image: fn(u32, Setting, u32) -> Result<Vec<u8>, u32>,
) -> Result<Vec<Vec<u8>>, u32> {
    let phase = call.numbers[call.numbers.len() - 1] as u32;
    let image = image(call.numbers[0] as u32, setting, phase)?;
    if call.buffers[0].len() != image.len() {
        return Err(5);
    }
    Ok(vec![image])
}

fn fresh(kernel: u32, setting: Setting, phase: u32) -> Result<Vec<u8>, u32> {
    state::start(kernel, setting, phase).map(image::encode_fresh)
}

fn fresh_lanes(kernel: u32, setting: Setting, phase: u32) -> Result<Vec<u8>, u32> {
    lanes::start(kernel, setting, phase).map(lane_image::encode_fresh)
}

/// "retune tests 5 first"; "Retune replaces the word only." It is lent the first bytes of the image,
/// as many as `lent` says of its length.
fn retuned(call: &Call, setting: Setting, lent: fn(usize) -> usize) -> Result<Vec<Vec<u8>>, u32> {
    let mut image = call.buffers[0].clone();
    let state = image::decode(&image[..lent(image.len())])?;
    let word = state::retune(state, setting)?.word;
    image[image::WORD..image::WINDOW].copy_from_slice(&word.to_le_bytes());
    Ok(vec![image])
}

fn whole(length: usize) -> usize {
    length
}

/// Of an image of lanes a retune is lent lane 0's image, which has the word that all lanes share.
fn front(length: usize) -> usize {
    length.min(image::LENGTH)
}

pub const LARGEST_BUFFER: usize = 65536;

/// "12: host sample buffer of odd length or above 65,536 bytes"
fn check_samples(buffer: &[u8]) -> Result<(), u32> {
    match buffer.len() % 2 == 1 || buffer.len() > LARGEST_BUFFER {
        true => Err(12),
        false => Ok(()),
    }
}

/// "The host call feeds from an input buffer to an output buffer and, when accepted, writes the
/// whole image anew; output bytes past those written keep their contents." Refusal 5 is that of
/// `decode`; `feed` makes the image.
fn fed<T>(
    call: &Call,
    decode: fn(&[u8]) -> Result<T, u32>,
    feed: impl Fn(T, &[i16], &mut [i16]) -> Result<Vec<u8>, u32>,
) -> Result<Vec<Vec<u8>>, u32> {
    let [image, input, output] = &call.buffers[..] else { panic!("a feed has three buffers") };
    let state = decode(image)?;
    check_samples(input)?;
    check_samples(output)?;
    let mut places = samples(output);
    let image = feed(state, &samples(input), &mut places)?;
    Ok(vec![image, input.clone(), bytes(&places)])
}

fn fed_alone(call: &Call) -> Result<Vec<Vec<u8>>, u32> {
    fed(call, image::decode, |state, input, output| {
        state::feed(state, input, output).map(|fed| image::encode(&fed))
    })
}

/// The lane count is the one number. Refusal 13 comes after 12, which is that of a whole buffer.
fn fed_lanes(call: &Call) -> Result<Vec<Vec<u8>>, u32> {
    let count = call.numbers[0] as u32;
    fed(call, lane_image::decode, |lanes, input, output| {
        lanes::feed(lanes, count, input, output).map(|fed| lane_image::encode(&fed))
    })
}

/// Refusal 12, then 14; "The rest of the lent buffer is untouched."
fn data_written(call: &Call) -> Result<Vec<Vec<u8>>, u32> {
    let [samples, line] = &call.buffers[..] else { panic!("a write of data has two buffers") };
    check_samples(samples)?;
    let written = lines::write_data(&data_of(call), line.len())?;
    Ok(vec![samples.clone(), over(written, line)])
}

/// Refusals 1, 4 and 14.
fn start_written(call: &Call) -> Result<Vec<Vec<u8>>, u32> {
    let line = &call.buffers[0];
    Ok(vec![over(lines::write_start(&start_of(call), line.len())?, line)])
}

/// The fields that a write is given.
pub fn data_of(write: &Call) -> Data {
    Data { sequence: write.numbers[0] as u32, samples: samples(&write.buffers[0]) }
}

pub fn start_of(write: &Call) -> Start {
    let [kernel, word, phase] = write.numbers[..] else { panic!("a K line has three numbers") };
    Start { kernel: kernel as u32, word, phase: phase as u32 }
}

/// Refusal 5, "tested first as the lowest", is of the frame's length; then 6 to 10, 15 and 11, those
/// of the reader, which the frame tells the last number; then 12.
fn data_read(call: &Call) -> Result<Vec<Vec<u8>>, u32> {
    let [line, frame, places] = &call.buffers[..] else { panic!("a read of data has three") };
    check_frame(frame, frame_image::DATA)?;
    let (data, _) = frames::read_d(line, frame_image::told(frame), places.len() / 2)?;
    check_samples(places)?;
    let frame = frame_image::encode_data(&data);
    Ok(vec![line.clone(), frame, over(bytes(&data.samples), places)])
}

/// Refusals 5, 6 to 9, then 1 and 4, which are the start's.
fn start_read(call: &Call) -> Result<Vec<Vec<u8>>, u32> {
    let [line, frame] = &call.buffers[..] else { panic!("a read of a start has two buffers") };
    check_frame(frame, frame_image::START)?;
    let (start, _) = frames::read_k(line)?;
    state::start(start.kernel, Setting::Word(start.word), start.phase)?;
    Ok(vec![line.clone(), frame_image::encode_start(&start)])
}

fn check_frame(frame: &[u8], length: usize) -> Result<(), u32> {
    match frame.len() == length {
        true => Ok(()),
        false => Err(5),
    }
}

/// Refusals 5, 12 and 16. 5 is of the marks and of the buffer, which "has half as many samples as
/// bytes, rounded down"; 12 of "queue or samples of odd length, samples above 65,536 bytes".
fn pushed(call: &Call) -> Result<Vec<Vec<u8>>, u32> {
    let [marks, queue, offered] = &call.buffers[..] else { panic!("a push has three buffers") };
    let before = marks_image::decode(marks)?;
    queue::check(queue.len() / 2, before)?;
    check_pairs(queue)?;
    check_samples(offered)?;
    let mut places = samples(queue);
    let after = queue::push(&mut places, before, &samples(offered))?;
    Ok(vec![marks_image::encode(after), bytes(&places), offered.clone()])
}

/// "Draw: 5 (those, and any reason of the image), 12 (queue of odd length, output odd or above 65,536
/// bytes)"; accepted, it "writes the marks and the whole image anew".
fn drawn(call: &Call) -> Result<Vec<Vec<u8>>, u32> {
    let [image, marks, queue, output] = &call.buffers[..] else {
        panic!("a draw has four buffers")
    };
    let before = marks_image::decode(marks)?;
    queue::check(queue.len() / 2, before)?;
    let state = image::decode(image)?;
    check_pairs(queue)?;
    check_samples(output)?;
    let mut places = samples(output);
    let (after, fed) = queue::draw(&samples(queue), before, state, &mut places)?;
    Ok(vec![image::encode(&fed), marks_image::encode(after), queue.clone(), bytes(&places)])
}

/// The part of refusal 12 that is of a queue.
fn check_pairs(queue: &[u8]) -> Result<(), u32> {
    match queue.len() % 2 {
        0 => Ok(()),
        _ => Err(12),
    }
}

/// A buffer with other bytes at its front.
fn over(front: Vec<u8>, buffer: &[u8]) -> Vec<u8> {
    [&front, &buffer[front.len()..]].concat()
}

/// "The host's samples are byte pairs, little-endian."
pub fn samples(bytes: &[u8]) -> Vec<i16> {
    let pair = |pair: &[u8]| i16::from_le_bytes([pair[0], pair[1]]);
    bytes.chunks_exact(2).map(pair).collect()
}

pub fn bytes(samples: &[i16]) -> Vec<u8> {
    samples.iter().flat_map(|sample| sample.to_le_bytes()).collect()
}
