//! The comparison of a program with the implementation's, over generated inputs.

use crate::frames::{Data, Start};
use crate::generate;
use crate::lines;
use crate::program;
use crate::random::Random;
use std::collections::BTreeMap;
use std::io::{self, Error, Read, Write};
use std::process::{Command, Stdio};
use std::sync::mpsc;
use std::thread;
use std::time::Duration;

const INPUTS: usize = 900;
/// For one run.
const LIMIT: Duration = Duration::from_secs(60);
/// Above so many outputs an input is left out.
const LARGEST: usize = 400_000;

/// The ends that there have to be among the runs.
const ENDS: [&str; 9] = ["E", "R01", "R04", "R06", "R07", "R08", "R09", "R10", "R15"];

/// Runs the program on every input and prints what was compared.
pub fn run(command: &[&str]) -> Result<(), String> {
    let mut random = Random(2);
    let mut ends = BTreeMap::<String, usize>::new();
    for _ in 0..INPUTS {
        *ends.entry(compare(command, &damaged(&mut random))?).or_default() += 1;
    }
    let counts = ends.iter().map(|(end, count)| format!(" {end} {count}"));
    println!("the program agrees on {INPUTS} inputs; ends:{}", counts.collect::<String>());
    match ENDS.iter().find(|&&end| !ends.contains_key(end)) {
        Some(end) => Err(format!("no run ended with {end}")),
        None => Ok(()),
    }
}

/// Runs the program on one input and compares what it writes: how it ended, E or a refusal.
fn compare(command: &[&str], input: &[u8]) -> Result<String, String> {
    let told = |what: &str| format!("{}: {what}\ninput:\n{}", command[0], shown(input));
    let expected = program::run(input);
    let written = output_of(command, input).map_err(|error| told(&error.to_string()))?;
    let line = |bytes: &[u8], place: usize| match bytes.split(|&byte| byte == 10).nth(place) {
        Some(line) => shown(line),
        None => "missing".to_string(),
    };
    if written != expected {
        let lines = written.split(|&byte| byte == 10).zip(expected.split(|&byte| byte == 10));
        let place = lines.take_while(|(one, other)| one == other).count();
        let (one, other) = (line(&written, place), line(&expected, place));
        return Err(told(&format!("line {} is {one}, expected {other}", place + 1)));
    }
    let text = String::from_utf8_lossy(&expected);
    let last = text.lines().last().unwrap_or("");
    Ok(if last.starts_with('E') { "E" } else { last }.to_string())
}

fn shown(bytes: &[u8]) -> String {
    bytes.escape_ascii().to_string().replace("\\n", "\n")
}

fn output_of(command: &[&str], input: &[u8]) -> io::Result<Vec<u8>> {
    let mut child = Command::new(command[0]);
    child.args(&command[1..]).stdin(Stdio::piped()).stdout(Stdio::piped());
    let mut child = child.spawn()?;
    let (mut to, mut from) = (child.stdin.take().unwrap(), child.stdout.take().unwrap());
    let input = input.to_vec();
    // A program that refuses a line may stop reading: then the rest cannot be written, and need not.
    let writer = thread::spawn(move || to.write_all(&input));
    let (sender, receiver) = mpsc::channel();
    thread::spawn(move || {
        let mut bytes = Vec::new();
        sender.send(from.read_to_end(&mut bytes).map(|_| bytes))
    });
    let Ok(written) = receiver.recv_timeout(LIMIT) else {
        child.kill()?;
        return Err(Error::other(format!("not done after {} s", LIMIT.as_secs())));
    };
    let _ = writer.join();
    match child.wait()?.code() {
        Some(_) => written,
        None => Err(Error::other("it was ended by a signal")),
    }
}

/// A stream, damaged two times in three.
fn damaged(random: &mut Random) -> Vec<u8> {
    let mut input = stream(random);
    if random.one_in(3) {
        return input;
    }
    for _ in 0..1 + random.below(2) {
        damage(random, &mut input);
    }
    match program_outputs(&input) > LARGEST {
        true => Vec::new(),
        false => input,
    }
}

/// At most how many outputs an input can have: 64 samples a line, each at the word's rate.
fn program_outputs(input: &[u8]) -> usize {
    let digits = input.get(2..11).and_then(|digits| std::str::from_utf8(digits).ok());
    let word = digits.and_then(|digits| usize::from_str_radix(digits, 16).ok());
    let lines = input.iter().filter(|&&byte| byte == b'D').count() + 1;
    (64 * lines << 32) / word.unwrap_or(1 << 32).max(1)
}

/// The numbers of so many lines: they rise by one, and after FFFFFFFF comes 0, which is refused. One
/// time in five two are swapped, or one is repeated, left out or drawn.
pub fn numbers(random: &mut Random, lines: usize) -> Vec<u32> {
    let first = if random.one_in(2) { 0 } else { generate::phase(random) };
    let mut numbers = (0..=lines as u32).map(|n| first.wrapping_add(n)).collect::<Vec<u32>>();
    if lines > 0 && random.one_in(5) {
        let place = random.below(lines as u64) as usize;
        match random.below(4) {
            0 => numbers.swap(place, place + 1),
            1 => numbers.insert(place, numbers[place]),
            2 => {
                numbers.remove(place);
            }
            _ => numbers[place] = random.next() as u32,
        }
    }
    numbers.truncate(lines);
    numbers
}

/// A K line and D lines that are accepted, but now and then for the kernel, the word or a number.
fn stream(random: &mut Random) -> Vec<u8> {
    let kernel = if random.one_in(20) { random.below(16) } else { random.below(4) } as u32;
    let lines = random.below(12) as usize;
    let word = match random.below(20) {
        0 => random.next() & 0xfffffffff,
        1 => random.pick(&[0, (1 << 34) + 1]),
        2 => (1 << 22) + random.magnitude(26),
        3 => 1 << 34,
        _ => generate::good_word(random).max(1 << 27),
    };
    let phase = generate::phase(random);
    let start = Start { kernel, word, phase };
    let mut text = lines::start_line(&start);
    for sequence in numbers(random, lines) {
        let any = 1 + random.below(64) as usize;
        let count = random.pick(&[1, 2, 3, 64, any]);
        let samples = generate::samples(random, count);
        text.extend(lines::data_line(&Data { sequence, samples }));
    }
    match program_outputs(&text) > LARGEST {
        true => lines::start_line(&Start { word: 1, ..start }),
        false => text,
    }
}

/// Changes, takes out, puts in or cuts off something.
pub fn damage(random: &mut Random, input: &mut Vec<u8>) {
    let place = random.below(input.len() as u64) as usize;
    let odd = [b'0', b'9', b'A', b'F', b'G', b'a', b'f', b' ', b'\r', b'\n', 0, 0xff, b'K', b'D'];
    match random.below(8) {
        0 => input[place] = random.next() as u8,
        1 => input[place] = random.pick(&odd),
        2 => {
            input.remove(place);
            input.push(b'\n');
        }
        3 => input.insert(place, random.pick(&odd)),
        4 => input.truncate(place + 1),
        5 => {
            input.pop();
        }
        6 => input[place] = input[place].to_ascii_lowercase(),
        _ => {
            let many = 1 + random.below(300) as usize;
            input.splice(place..place, std::iter::repeat(b'0').take(many));
        }
    }
    if input.is_empty() {
        input.push(b'\n');
    }
}
