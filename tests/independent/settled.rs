//! The settled examples of document 01, starred or not, the printed examples of the program, and
//! what requests U1 to U7 settle, run on the implementation before every command.

use crate::clips::{Clips, Side, Side::*};
use crate::frame_image;
use crate::frames::{self, Data, Start};
use crate::host;
use crate::image;
use crate::judge;
use crate::kernels;
use crate::lane_image;
use crate::lines;
use crate::oscillator;
use crate::paper::Paper;
use crate::program;
use crate::random::Random;
use crate::settings::{self, Setting};
use crate::settled_queue;
use crate::state::{self, End, Fed};
use crate::turned_lists;
use crate::values;

const HALF: u64 = 1 << 31;
/// How many lists of calls are made with turned samples too (request U6), and how many on lanes.
const TURNED: [usize; 2] = [40, 10];

/// Runs all examples: how many hold, or which does not.
pub fn run() -> Result<usize, String> {
    let mut examples = Vec::new();
    examples.extend(streams());
    examples.extend(single_outputs());
    examples.extend(fractions());
    examples.extend(words());
    examples.extend(empty_buffers());
    examples.extend(programs());
    examples.extend(lanes());
    examples.extend(lines());
    examples.extend(table());
    examples.extend(order());
    examples.extend(sides());
    examples.extend(counts());
    examples.extend(evens());
    examples.extend(settled_queue::examples());
    examples.extend(facts());
    if let Some((name, _)) = examples.iter().find(|(_, holds)| !holds) {
        return Err(format!("settled example does not hold: {name}"));
    }
    turned_lists::on_model(1, TURNED)?;
    Ok(examples.len())
}

pub type Example = (&'static str, bool);

/// The outputs of one feed after a start, with room for all, from the state over samples, from the
/// host calls and from the paper, which must agree. "Output places past those written keep their
/// contents."
fn outputs(kernel: u8, word: u64, phase: u32, samples: &[i16]) -> Vec<i16> {
    let setting = Setting::Word(word);
    let fresh = state::start(kernel as u32, setting, phase).unwrap();
    let mut places = [7; 32];
    let fed = state::feed(fresh, samples, &mut places).unwrap();
    assert!(places[fed.written..].iter().all(|&place| place == 7));
    let start = host::start("start", vec![0xee; image::LENGTH], kernel as u32, setting, phase);
    let image = host::answer(&start).buffers.remove(0);
    let feed = host::feed(image, host::bytes(samples), host::bytes(&[7; 32]));
    assert_eq!(host::answer(&feed).buffers[2], host::bytes(&places));
    let mut paper = Paper::start(kernel as u32, setting, phase).unwrap();
    let outputs = &places[..fed.written];
    judge::feed(&mut paper, samples, outputs, 32, &fed, |_| ()).unwrap();
    outputs.to_vec()
}

fn streams() -> Vec<Example> {
    let nine = [5, 1, 2, 3, 9, 1, 2, 3, 7];
    vec![
        (
            "kernel 0, half word, 0, 100, 40: 0, 50, 100, 70",
            outputs(0, HALF, 0, &[0, 100, 40]) == [0, 50, 100, 70],
        ),
        (
            "kernel 3, half word, 16, 32, 48, 80: 16, 24, 32, 39",
            outputs(3, HALF, 0, &[16, 32, 48, 80]) == [16, 24, 32, 39],
        ),
        (
            "kernel 1, P C0000000, over 10, 20, 40 the first gives 17",
            outputs(1, 1 << 30, 0xc0000000, &[10, 20, 40])[0] == 17,
        ),
        (
            "word 2^34, kernel 0, nine samples, P 0: two outputs",
            outputs(0, 1 << 34, 0, &nine) == [5, 9],
        ),
    ]
}

fn single_outputs() -> Vec<Example> {
    let at = |kernel, register, window| values::output(kernel, (register, window)).unwrap();
    let at_half = |kernel, window| at(kernel, 1 << 31, window);
    vec![
        (
            "kernel 2 at u = 1/2 over 16, 32, 48, 80: 38",
            at_half(2, [16, 32, 48, 80]) == (38, Neither),
        ),
        ("kernel 0 at 1/2: 0, 1 gives 0 (request U6)", at_half(0, [0, 0, 0, 1]) == (0, Neither)),
        ("kernel 0 at 1/2: 0, -1 gives 0", at_half(0, [0, 0, 0, -1]) == (0, Neither)),
        (
            "kernel 3 at 1/2: -32768, 32767, 32767, -32768 gives 32767, one clip",
            at_half(3, [-32768, 32767, 32767, -32768]) == (32767, High),
        ),
        (
            "kernel 1, b 1 with m -4096, 10, 20, 40: 17",
            at(1, 0xc0000000, [0, 10, 20, 40]) == (17, Neither),
        ),
    ]
}

fn fractions() -> Vec<Example> {
    let at = |kernel, position| {
        let fraction = oscillator::fraction(kernel, position);
        let m = oscillator::filter_fraction(fraction);
        (oscillator::basepoint(kernel, position), m)
    };
    vec![
        (
            "kernel 1, P C0000000, word 2^30: b is 1 with m -4096, then 1 with m 0",
            at(1, 0xc0000000) == (1, -4096) && at(1, 0xc0000000 + (1 << 30)) == (1, 0),
        ),
        ("kernel 1: P 7FFFFFFF has b 0, m 8191", at(1, 0x7fffffff) == (0, 8191)),
        ("kernel 1: P 80000000 has b 1, m -8192", at(1, 0x80000000) == (1, -8192)),
        ("fraction 3FFFF: m 0", oscillator::filter_fraction(0x3ffff) == 0),
        ("fraction 40000: m 1", oscillator::filter_fraction(0x40000) == 1),
    ]
}

fn words() -> Vec<Example> {
    let ratio = |ratio: f64| settings::word(Setting::Ratio(ratio.to_bits()));
    let rates = |fin, fout| settings::word(Setting::Rates(fin, fout));
    let two = |power: i32| 2f64.powi(power);
    vec![
        ("rates 1 and 3: 1431655765", rates(1, 3) == Ok(1431655765)),
        ("rates 2 and 3: 2863311531", rates(2, 3) == Ok(2863311531)),
        ("rates 1 and 0: refusal 3", rates(1, 0) == Err(3)),
        ("ratio 2^-33: word 1", ratio(two(-33)) == Ok(1)),
        ("ratio 2^-34: refusal 4", ratio(two(-34)) == Err(4)),
        ("ratio -1: refusal 2", ratio(-1.0) == Err(2)),
        ("ratio 4 + 2^-34: word 2^34", ratio(4.0 + two(-34)) == Ok(1 << 34)),
        ("ratio 4 + 2^-33: refusal 4", ratio(4.0 + two(-33)) == Err(4)),
        ("ratio 2^1000: refusal 4", ratio(two(1000)) == Err(4)),
        ("ratio minus zero is zero: refusal 4", ratio(-0.0) == Err(4)),
    ]
}

/// "Empty input and empty output: FULL if none is needed, else HUNGRY."
fn empty_buffers() -> Vec<Example> {
    let fresh = state::start(2, Setting::Word(HALF), 0).unwrap();
    let end = |needed| {
        let state = state::State { needed, ..fresh };
        let Fed { taken, written, end, .. } = state::feed(state, &[], &mut []).unwrap();
        (taken, written, end)
    };
    let hungry = (1..=4).all(|needed| end(needed) == (0, 0, End::Hungry));
    vec![
        ("empty input and output, none needed: FULL", end(0) == (0, 0, End::Full)),
        ("empty input and output, some needed: HUNGRY", hungry),
    ]
}

/// Request U1, on the image of fresh lanes.
fn lanes() -> Vec<Example> {
    let start = |length| host::start("start_lanes", vec![0; length], 0, Setting::Word(HALF), 0);
    let fresh = host::answer(&start(lane_image::LENGTH));
    let image = |kernel: u8| {
        let mut image = fresh.buffers[0].clone();
        image[image::KERNEL] = kernel;
        image
    };
    let feed = |kernel, count, input: &[i16], places| {
        host::answer(&host::feed_lanes(image(kernel), count, host::bytes(input), vec![0; places]))
    };
    let refused = |kernel, count, input: &[i16], places| feed(kernel, count, input, places).result;
    let fed = feed(0, 2, &[0, 100, 40, 0, -1, 0], 16);
    let outputs = host::bytes(&[0, 50, 100, 70, 0, 0, -1, 0]);
    vec![
        ("the image of lanes has 288 bytes", fresh.result == 0 && lane_image::LENGTH == 288),
        (
            "a start of lanes with the image of one: refusal 5",
            host::answer(&start(image::LENGTH)).result == 5,
        ),
        ("a start of lanes with 224 bytes: refusal 5", host::answer(&start(224)).result == 5),
        ("lanes one after another in the buffers", fed.result == 0 && fed.buffers[2] == outputs),
        ("two lanes and 6 bytes: refusal 13", refused(0, 2, &[1, 2, 3], 8) == 13),
        ("two lanes and 6 bytes of output: refusal 13", refused(0, 2, &[1, 2], 6) == 13),
        ("lane counts 0 and 17: refusal 13", [0, 17].map(|n| refused(0, n, &[], 0)) == [13, 13]),
        ("lane count 16 and empty buffers", refused(0, 16, &[], 0) == 0),
        ("12 before 13", refused(0, 17, &[], 1) == 12),
        ("5 before 12 and 13", refused(4, 17, &[], 1) == 5),
    ]
}

/// Request U2, with the lines of document 01's example.
fn lines() -> Vec<Example> {
    let (kernel_line, samples_line) = (b"K008000000000000000\n", b"D000000000300000064002871\n");
    let samples = host::bytes(&[0, 100, 40]);
    let data = |samples: &[u8], room| {
        host::answer(&host::write_data(0, samples.to_vec(), vec![0xee; room]))
    };
    let start = |kernel, word, room| {
        host::answer(&host::write_start(&Start { kernel, word, phase: 0 }, vec![0xee; room]))
    };
    let read = |line: &[u8], room| {
        let frame = frame_image::encode(0xeeeeeeee, 0);
        host::answer(&host::read_data(line.to_vec(), frame, vec![0xee; room])).buffers
    };
    let counts = [0, 65].map(|count| data(&vec![0; 2 * count], 300).result);
    let check = data(&host::bytes(&[-256]), 18).buffers.remove(1);
    let (written, started) = (data(&samples, 28), start(0, HALF, 20));
    let back = read(&written.buffers[1], 8);
    vec![
        ("the K line of the printed example is written", started.buffers[0] == kernel_line),
        (
            "its D line is written, and the rest of the buffer is untouched",
            written.buffers[1] == [&samples_line[..], &[0xee; 2]].concat(),
        ),
        (
            "the written line is read back",
            back[1..] == [vec![0, 0, 0, 0, 3, 0, 0, 0], [&samples[..], &[0xee; 2]].concat()],
        ),
        ("it is written back", data(&back[2][..6], 26).buffers[1] == samples_line),
        ("the check is 00 where the other bytes sum to 0", check == b"D0000000001FF0000\n"),
        ("a buffer of one byte less: refusal 14", data(&samples, 25).result == 14),
        ("no samples, and 65: refusal 14", counts == [14, 14]),
        ("12 before 14", data(&[0], 0).result == 12),
        ("a K line: 1 before 4 and 14", start(4, 0, 19).result == 1),
        ("a K line: 4 before 14", start(0, 0, 19).result == 4),
        ("a K line and 19 bytes: refusal 14", start(0, HALF, 19).result == 14),
    ]
}

fn programs() -> Vec<Example> {
    let short = program::run(b"K00800000000000000\n");
    let half = program::run(b"K008000000000000000\nD000000000300000064002871\n");
    let printed = b"0000\n0032\n0064\n0046\nE00000000000000040000000000000000\n";
    vec![
        ("the program: one digit too few prints R09", short == b"R09\n"),
        ("the program: the printed example", half == printed),
        ("the program: empty input gives R06", program::run(b"") == b"R06\n"),
        (
            "the program: bytes left with no byte 10 give R06",
            program::run(b"K008000000000000000\nD0") == b"R06\n",
        ),
    ]
}

/// Request U3 and source document 001, section 4.3: kernel 1's advance is the whole part of the
/// word and the increase of a printed row, for drawn registers and words, and for all multiples of
/// an eighth of a sample, words up to 4, with the numbers next to them; each printed case is among
/// these; and the two worked examples are "corresponding to case 3 and case 1".
fn table() -> Vec<Example> {
    let mut random = Random(2);
    let drawn = (0..10000).map(|_| (random.next() as u32, random.magnitude(34) + 1));
    let near =
        |eighths: u64| (0..3u64).map(move |by| (eighths << 29).wrapping_add(by).wrapping_sub(1));
    let words = (0..=32).flat_map(near).filter(|word| (1..=1 << 34).contains(word));
    let edges =
        words.flat_map(|word| (0..8).flat_map(near).map(move |register| (register as u32, word)));
    let steps: Vec<(u32, u64)> = drawn.chain(edges).collect();
    let right = |&(register, word): &(u32, u64)| {
        oscillator::advance_by_table(register, word) == Some(oscillator::advance(1, register, word))
    };
    let occurs = |case| {
        steps.iter().any(|&(register, word)| oscillator::printed_case(register, word) == Some(case))
    };
    let tenths = |n: u64| n * (1 << 32) / 10;
    let example = |word, case| {
        let step = (tenths(7) as u32, tenths(word));
        oscillator::printed_case(step.0, step.1) == Some(case)
            && oscillator::advance(1, step.0, step.1) == 0
    };
    vec![
        ("kernel 1's advance is whole part and printed row", steps.iter().all(right)),
        ("each printed case occurs", (1..=6).all(occurs)),
        ("register 0.7, word 0.2: case 3, no advance", example(2, 3)),
        ("register 0.7, word 0.4: case 1, no advance", example(4, 1)),
    ]
}

/// Request U4, on lines of three samples: which number follows which, the order of the refusals,
/// and what the program makes of them.
fn order() -> Vec<Example> {
    let line = |number, wrong: bool| {
        let write = host::write_data(number, host::bytes(&[0, 100, 40]), vec![0xee; 26]);
        let mut line = host::answer(&write).buffers.remove(1);
        if wrong {
            line[24] = if line[24] == b'0' { b'1' } else { b'0' };
        }
        line
    };
    let answer = |last, number, wrong, room| {
        frames::read_d(&line(number, wrong), last, room).err().unwrap_or(0)
    };
    let read = |last, number| answer(last, number, false, 3);
    let top = u32::MAX;
    let input = |numbers: &[u32]| {
        let mut input = b"K008000000000000000\n".to_vec();
        numbers.iter().for_each(|&number| input.extend(line(number, false)));
        program::run(&input)
    };
    let ended = |numbers: &[u32]| input(numbers).iter().rev().nth(33) == Some(&b'E');
    vec![
        ("with none any number is accepted", [0, 1, 8, top].map(|n| read(None, n)) == [0; 4]),
        ("only 8 follows 7", [0, 6, 7, 8, 9].map(|n| read(Some(7), n)) == [15, 15, 15, 0, 15]),
        ("no number follows FFFFFFFF", [0, 1, top].map(|n| read(Some(top), n)) == [15; 3]),
        ("0 follows no number", [0, 1, top].map(|last| read(Some(last), 0)) == [15; 3]),
        ("10 before 15", answer(Some(7), 7, true, 3) == 10),
        ("15 before 11", answer(Some(7), 7, false, 2) == 15),
        ("11 where the number is the next", answer(Some(7), 8, false, 2) == 11),
        ("the program: lines numbered by one end with E", ended(&[7, 8, 9])),
        (
            "the program: of 7, 9, 8 the outputs of 7, and R15",
            input(&[7, 9, 8]) == b"0000\n0032\n0064\n0046\nR15\n",
        ),
        ("the program: FFFFFFFF may come first", ended(&[top])),
    ]
}

/// Request U5, on single outputs at u = 1/2, of kernel 1 at −1/2. A row says how many eighths the
/// exact value lies above 32767, or below −32768, has windows of kernels 1, 2 and 3 that give it, as
/// distances from that sample, and the side above and below.
fn sides() -> Vec<Example> {
    let is = |(eighths, windows, high, low): Row| {
        let each = |top: i16, sign: i16, side| {
            (1..4).zip(windows).all(|(kernel, window)| {
                let window = window.map(|distance| top - sign * distance);
                let state = state::State { kernel, needed: 0, register: 1 << 31, word: 1, window };
                let exact = 8 * top as i128 + sign as i128 * eighths;
                8 * state::exact(&state) == exact * kernels::scale(kernel, 14)
                    && values::output(kernel, (1 << 31, window)) == Ok((top, side))
            })
        };
        each(32767, 1, high) && each(-32768, -1, low)
    };
    type Row = (i128, [[i16; 4]; 3], Side, Side);
    let exactly: Row = (0, [[0, 1, 0, 3], [2, 0, 1, 3], [3, 0, 1, 6]], Neither, Neither);
    let less = (3, [[0, 0, 0, 3], [1, 0, 0, 2], [3, 0, 0, 3]], Neither, Neither);
    let half = (4, [[0, 0, 0, 4], [2, 0, 0, 2], [4, 0, 0, 4]], High, Neither);
    let more = (5, [[0, 0, 0, 5], [2, 0, 0, 3], [5, 0, 0, 5]], High, Low);
    vec![
        ("32767 and -32768 are not held: neither", is(exactly)),
        ("32767 3/8 and -32768 3/8 are rounded to these: neither", is(less)),
        ("32767 1/2 is rounded to 32768: high; -32768 1/2 to -32768: neither", is(half)),
        ("32767 5/8 is rounded to 32768: high; -32768 5/8 to -32769: low", is(more)),
        (
            "kernel 3 at 1/2: 32767, -32768, -32768, 32767 gives -32768, low",
            values::output(3, (1 << 31, [32767, -32768, -32768, 32767])) == Ok((-32768, Low)),
        ),
    ]
}

/// Request U5, on a run of kernel 3 with one clip on either side: the two counts, and where their
/// sum stands.
fn counts() -> Vec<Example> {
    let samples = [-32768, 32767, 32767, -32768, -32768, 32767];
    let setting = Setting::Word(HALF);
    let fresh = state::start(3, setting, 0).unwrap();
    let fed = state::feed(fresh, &samples, &mut [0; 8]).unwrap();
    let image = image::encode(&fed);
    let start = host::start("start_lanes", vec![0xee; lane_image::LENGTH], 3, setting, 0);
    let mut lanes = host::answer(&start).buffers.remove(0);
    let fresh_counts = lanes[lane_image::CLIPS..].iter().all(|&byte| byte == 0);
    lanes[lane_image::CLIPS..].fill(0xee);
    let input = host::bytes(&[samples, [0; 6], samples].concat());
    let feed = host::feed_lanes(lanes, 3, input, vec![0; 48]);
    let lanes = host::answer(&feed).buffers.remove(0);
    let count = |place: usize| image::little(&lanes[place..][..4]);
    let sides = |lane: usize| [160 + 8 * lane, 164 + 8 * lane].map(count);
    let written = lines::data_line(&Data { sequence: 0, samples: samples.to_vec() });
    let ended = program::run(&[&b"K308000000000000000\n"[..], &written].concat());
    vec![
        ("one high clip and one low", fed.clips == Clips { high: 1, low: 1 }),
        ("the image of one has their sum", image::little(&image[32..36]) == 2),
        ("the image of lanes has both", [0, 1, 2].map(sides) == [[1, 1], [0, 0], [1, 1]]),
        ("in lane 0's image their sum", count(32) == 2),
        ("lanes past the count report none", (3..16).all(|lane| sides(lane) == [0, 0])),
        ("a start of lanes leaves none", fresh_counts),
        ("the E line has their sum", ended.ends_with(b"E00000000000000080000000000000002\n")),
    ]
}

/// Request U6, on single outputs at u = 1/2, of kernel 1 at −1/2: a half past `lower`, and its even
/// neighbour. The windows of the kernels are distances from `lower` that give the half. And words
/// "from ratios and rates still go upward"; rates give no halves.
fn evens() -> Vec<Example> {
    let windows = [[0, 0, 0, -1], [0, 0, 0, 4], [2, 0, 0, 2], [4, 0, 0, 4]];
    let is = |lower: i16, even: i16| {
        (0..4).zip(windows).all(|(kernel, window)| {
            let window = window.map(|distance| lower - distance);
            let state = state::State { kernel, needed: 0, register: 1 << 31, word: 1, window };
            2 * state::exact(&state) == (2 * lower as i128 + 1) * kernels::scale(kernel, 14)
                && values::output(kernel, (1 << 31, window)) == Ok((even, Neither))
        })
    };
    let word = |halves: f64| settings::word(Setting::Ratio((halves * 2f64.powi(-33)).to_bits()));
    vec![
        ("1/2 gives 0, and -1/2", is(0, 0) && is(-1, 0)),
        ("1 1/2 gives 2, -1 1/2 gives -2", is(1, 2) && is(-2, -2)),
        ("2 1/2 gives 2, -2 1/2 gives -2", is(2, 2) && is(-3, -2)),
        ("255 1/2 gives 256, -256 1/2 gives -256", is(255, 256) && is(-257, -256)),
        ("32765 1/2 gives 32766, -32763 1/2 gives -32764", is(32765, 32766) && is(-32764, -32764)),
        ("32766 1/2 gives 32766, -32762 1/2 gives -32762", is(32766, 32766) && is(-32763, -32762)),
        (
            "1/2, 1 1/2 and 2 1/2 as words give 1, 2 and 3",
            [1.0, 3.0, 5.0].map(word) == [Ok(1), Ok(2), Ok(3)],
        ),
    ]
}

/// Facts that the text states: the advance by carry and top bits is the basepoint's; a negative
/// fraction is not cut toward zero; and the scale of the paper's values is a multiple of K.
fn facts() -> Vec<Example> {
    let mut random = Random(1);
    let carry = (0..10000).all(|_| {
        let (kernel, register) = (random.below(4) as u8, random.next() as u32);
        let word = random.magnitude(34) + 1;
        let advance = oscillator::advance(kernel, register, word);
        advance == oscillator::advance_by_carry(kernel, register, word) && advance <= 4
    });
    let whole = |kernel| kernels::scale(kernel, 32) % kernels::bound_divisor(kernel) == 0;
    vec![
        ("the advance is whole part, carry and top bits", carry),
        ("fraction -1: m -1", oscillator::filter_fraction(-1) == -1),
        ("the scale is a multiple of K", (0..4).all(whole)),
    ]
}
