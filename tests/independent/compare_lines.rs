//! The part of the comparison that is of frame lines. Each line that is written is read back, and
//! each that is read is written back, by the library and by the implementation.

use crate::compare::{described, Comparison};
use crate::frame_image::{self, DATA, START};
use crate::frames::{self, data_length, Data, Last, Start, MOST_SAMPLES, START_LENGTH};
use crate::generate;
use crate::generate_lines::{self, Fault, BAD_KERNELS, BAD_WORDS, LARGER_WORDS, LARGEST_COUNT};
use crate::host::{self, Answer, Call, Row, LARGEST_BUFFER};
use crate::lines;
use crate::processes;
use crate::random::Random;
use crate::settings::LARGEST_WORD;
use std::collections::BTreeMap;

/// Whether a row of the table is a call on lines.
pub fn has(row: &&Row) -> bool {
    row.name.starts_with("write_") || row.name.starts_with("read_")
}

/// Makes calls with buffers of every length, with every change of one byte of a line, with every set
/// of faults, with numbers that follow one another or not, and at least so many that are drawn; prints
/// what was compared.
pub fn run(comparison: &mut Comparison, drawn: u64) -> Result<(), String> {
    let mut lines = Lines {
        comparison,
        read_back: [0; PLACES],
        written_back: [0; PLACES],
        several: 0,
        told: BTreeMap::new(),
    };
    lines.every_length_written()?;
    lines.every_length_read()?;
    lines.every_count_read()?;
    lines.every_change()?;
    lines.faults_of_writes()?;
    lines.faults_of_reads()?;
    lines.every_step()?;
    lines.streams(drawn / 100)?;
    for _ in 0..drawn {
        let call = generate_lines::call(lines.random());
        lines.make(&call)?;
    }
    lines.tell(drawn)
}

/// Words that are accepted, the outermost among them.
const GOOD_WORDS: [u64; 3] = [1, 1 << 31, LARGEST_WORD];

/// Counts by the samples of a line; the first is that of K lines.
const PLACES: usize = MOST_SAMPLES + 1;

/// What a read can be told, beside the number of its line.
const TOLD: [&str; 7] =
    ["none", "the one before", "an earlier", "the same", "a later", AFTER_THE_LAST, NO_COUNT];
const AFTER_THE_LAST: &str = "FFFFFFFF before 0";
const NO_COUNT: &str = "one beside a count above 64";

struct Lines<'a> {
    comparison: &'a mut Comparison,
    /// Lines that were written and then read, and those that were read and then written.
    read_back: [u64; PLACES],
    written_back: [u64; PLACES],
    /// Calls with several faults.
    several: u64,
    /// What the reads were told that came to the test of the number.
    told: BTreeMap<&'static str, u64>,
}

impl Lines<'_> {
    fn random(&mut self) -> &mut Random {
        &mut self.comparison.random
    }

    /// Every count from 0 to 66, with line buffers of every length to 4 bytes above the line; the same
    /// for each kernel of a K line.
    fn every_length_written(&mut self) -> Result<(), String> {
        for count in 0..=LARGEST_COUNT {
            for length in 0..=data_length(count) + 4 {
                let random = self.random();
                let Data { sequence, samples } = generate_lines::data(random, count);
                let line = generate_lines::contents(random, length);
                self.make(&host::write_data(sequence, host::bytes(&samples), line))?;
            }
        }
        for kernel in 0..4 {
            for length in 0..=START_LENGTH + 4 {
                let random = self.random();
                let start = Start { kernel, ..generate_lines::good_start(random) };
                let line = generate_lines::contents(random, length);
                self.make(&host::write_start(&start, line))?;
            }
        }
        Ok(())
    }

    /// Lines of every count cut off after each of their bytes; with sample buffers of every length to
    /// 4 bytes above the samples, and with every length of a frame to 40 bytes.
    fn every_length_read(&mut self) -> Result<(), String> {
        for count in 1..=MOST_SAMPLES {
            let data = generate_lines::data(self.random(), count);
            let (line, sequence) = (lines::data_line(&data), data.sequence);
            for length in 0..=line.len() {
                self.lend_data(line[..length].to_vec(), sequence, DATA, 2 * count)?;
            }
            for length in 0..=2 * count + 4 {
                self.lend_data(line.clone(), sequence, DATA, length)?;
            }
            for length in 0..=40 {
                self.lend_data(line.clone(), sequence, length, 2 * count)?;
            }
        }
        for _ in 0..4 {
            let start = generate_lines::good_start(self.random());
            let line = lines::start_line(&start);
            for length in 0..=START_LENGTH {
                self.lend_start(line[..length].to_vec(), START)?;
            }
            for length in 0..=40 {
                self.lend_start(line.clone(), length)?;
            }
        }
        Ok(())
    }

    /// Lines with every pair of digits as count and with 0 to 66 samples, their checks right; lines
    /// with byte 10 at every place to 280; every kernel digit with words at the limits.
    fn every_count_read(&mut self) -> Result<(), String> {
        for samples in 0..=LARGEST_COUNT {
            for count in 0..=u8::MAX {
                let data = generate_lines::data(self.random(), samples);
                let line = lines::counted_line(&data, count);
                self.lend_data(line, data.sequence, DATA, 2 * LARGEST_COUNT)?;
            }
        }
        for place in 0..280 {
            for letter in [b'D', b'K'] {
                let mut line = vec![b'0'; 280];
                (line[0], line[place]) = (letter, 10);
                self.lend_data(line.clone(), 0, DATA, 2 * MOST_SAMPLES)?;
                self.lend_start(line, START)?;
            }
        }
        for kernel in 0..16 {
            for word in GOOD_WORDS.into_iter().chain(BAD_WORDS) {
                let phase = generate::phase(self.random());
                self.lend_start(lines::start_line(&Start { kernel, word, phase }), START)?;
            }
        }
        Ok(())
    }

    /// All changes of one byte of a D line with three samples, and of a K line. No such D line is
    /// accepted: a digit that is changed changes the sum.
    fn every_change(&mut self) -> Result<(), String> {
        let data = generate_lines::data(self.random(), 3);
        let start = lines::start_line(&generate_lines::good_start(self.random()));
        let answers = self.changes(&lines::data_line(&data), |lines, line| {
            lines.lend_data(line, data.sequence, DATA, 6)
        })?;
        self.changes(&start, |lines, line| lines.lend_start(line, START))?;
        match answers.contains_key(&0) {
            true => Err("a D line with one byte changed was accepted".to_string()),
            false => Ok(()),
        }
    }

    /// How many changes of a line had which answer, which is printed too.
    fn changes(
        &mut self,
        line: &[u8],
        lend: impl Fn(&mut Self, Vec<u8>) -> Result<u32, String>,
    ) -> Result<BTreeMap<u32, u64>, String> {
        let mut answers = BTreeMap::<u32, u64>::new();
        for place in 0..line.len() {
            for change in 1..=u8::MAX {
                let mut line = line.to_vec();
                line[place] ^= change;
                *answers.entry(lend(self, line)?).or_default() += 1;
            }
        }
        let counts = answers.iter().map(|(answer, count)| format!(" {answer}: {count}"));
        let (letter, counts) = (line[0] as char, counts.collect::<Vec<String>>().join(","));
        println!(
            "{} bytes of a {letter} line changed to 255 others, by answer:{counts}",
            line.len()
        );
        Ok(answers)
    }

    /// Writes with every set of their faults.
    fn faults_of_writes(&mut self) -> Result<(), String> {
        let bad_words = BAD_WORDS.into_iter().chain(LARGER_WORDS).map(|word| (word, true));
        let words = GOOD_WORDS.map(|word| (word, false)).into_iter().chain(bad_words);
        for kernel in (0..4).chain(BAD_KERNELS) {
            for (word, bad) in words.clone() {
                for length in [0, 1, START_LENGTH - 1, START_LENGTH, START_LENGTH + 1, 300] {
                    let random = self.random();
                    let start = Start { kernel, word, phase: generate::phase(random) };
                    let line = generate_lines::contents(random, length);
                    let faults = [(1, kernel > 3), (4, bad), (14, length < START_LENGTH)];
                    self.lowest(&host::write_start(&start, line), &faults)?;
                }
            }
        }
        let largest = LARGEST_BUFFER;
        let near = [largest - 2, largest - 1, largest, largest + 1, largest + 2];
        for bytes in [0, 1, 2, 3, 4, 127, 128, 129, 130, 131, 256].into_iter().chain(near) {
            let (count, right) = (bytes / 2, data_length(bytes / 2));
            for length in [0, 1, right - 1, right, right + 1, 270, 274, largest + 8] {
                let random = self.random();
                let (samples, sequence) = (random.bytes(bytes), generate::phase(random));
                let line = generate_lines::contents(random, length);
                let none = count == 0 || count > MOST_SAMPLES;
                let faults =
                    [(12, bytes % 2 == 1 || bytes > largest), (14, none || length < right)];
                self.lowest(&host::write_data(sequence, samples, line), &faults)?;
            }
        }
        Ok(())
    }

    /// Reads with every set of their faults, each line several times.
    fn faults_of_reads(&mut self) -> Result<(), String> {
        for count in [1, 2, 3, 17, 63, 64, 64, 64] {
            for faults in generate_lines::sets([5, 6, 7, 8, 9, 10, 15, 11, 12]) {
                let call = generate_lines::faulty_data(self.random(), count, &faults);
                self.lowest(&call, &faults)?;
            }
        }
        for faults in (0..8).flat_map(|_| generate_lines::sets([5, 6, 7, 8, 9, 1, 4])) {
            let call = generate_lines::faulty_start(self.random(), &faults);
            self.lowest(&call, &faults)?;
        }
        Ok(())
    }

    /// Numbers at the corners, each after each, beside counts that lines have and others.
    fn every_step(&mut self) -> Result<(), String> {
        let low = [0, 1, 2, 0xff, 0x100, 0xffff, 0x10000, 0xffffff, 0x1000000, 0x7fffffff];
        let corners = low.into_iter().chain(low.map(|number| !number)).collect::<Vec<u32>>();
        for &sequence in &corners {
            for &last in &corners {
                for count in [0, 1, 64, 65, 1 << 8, 1 << 16, 1 << 24, 1 << 31, u32::MAX] {
                    let random = self.random();
                    let samples = generate::samples(random, 1);
                    let line = lines::data_line(&Data { sequence, samples });
                    let places = generate_lines::contents(random, 2);
                    let call = host::read_data(line, frame_image::encode(last, count), places);
                    let next = last.checked_add(1) == Some(sequence);
                    self.lowest(&call, &[(15, count > 0 && !next)])?;
                }
            }
        }
        Ok(())
    }

    /// So many streams of lines, each read with one frame; now and then into too short a buffer first,
    /// which leaves the frame as it is.
    fn streams(&mut self, streams: u64) -> Result<(), String> {
        for _ in 0..streams {
            let (mut last, mut frame) =
                (None, frame_image::encode(generate::phase(self.random()), 0));
            for sequence in processes::numbers(self.random(), 12) {
                let count = 1 + self.random().below(4) as usize;
                let data = Data { sequence, ..generate_lines::data(self.random(), count) };
                let refused = last.is_some_and(|last: u32| last.checked_add(1) != Some(sequence));
                let short = self.random().one_in(4).then_some(2 * count - 2);
                for length in short.into_iter().chain([2 * count]) {
                    let places = generate_lines::contents(self.random(), length);
                    let call = host::read_data(lines::data_line(&data), frame.clone(), places);
                    self.lowest(&call, &[(15, refused), (11, length < 2 * count)])?;
                }
                if !refused {
                    (last, frame) = (Some(sequence), frame_image::encode_data(&data));
                }
            }
        }
        Ok(())
    }

    /// A call with these faults: the first of them is answered, by the implementation too.
    fn lowest(&mut self, call: &Call, faults: &[Fault]) -> Result<(), String> {
        let has = faults.iter().filter(|(_, has)| *has).collect::<Vec<&Fault>>();
        let first = has.first().map_or(0, |(refusal, _)| *refusal);
        self.several += (has.len() > 1) as u64;
        match self.make(call)? == first {
            true => Ok(()),
            false => {
                let what = format!("refusal {first} is the first that applies");
                Err(described(&what, call, &host::answer(call)))
            }
        }
    }

    /// A read with buffers of so many bytes: its answer. A frame of the right length is one that this
    /// number follows.
    fn lend_data(
        &mut self,
        line: Vec<u8>,
        sequence: u32,
        frame: usize,
        places: usize,
    ) -> Result<u32, String> {
        let random = self.random();
        let frame = match frame {
            DATA => generate_lines::before(random, sequence),
            length => generate_lines::contents(random, length),
        };
        let places = generate_lines::contents(random, places);
        self.make(&host::read_data(line, frame, places))
    }

    fn lend_start(&mut self, line: Vec<u8>, frame: usize) -> Result<u32, String> {
        let frame = generate_lines::contents(self.random(), frame);
        self.make(&host::read_start(line, frame))
    }

    /// Makes a call on both sides and, if it is accepted, the call that takes it back: its answer.
    fn make(&mut self, call: &Call) -> Result<u32, String> {
        let answer = self.comparison.answer(call)?;
        if call.row.name == "read_data" && [0, 11, 12, 15].contains(&answer.result) {
            self.count_told(call);
        }
        if answer.result == 0 {
            match call.row.name {
                "write_data" => self.data_written(call, &answer)?,
                "write_start" => self.start_written(call, &answer)?,
                "read_data" => self.data_read(call, &answer)?,
                _ => self.start_read(call, &answer)?,
            }
        }
        Ok(answer.result)
    }

    fn count_told(&mut self, call: &Call) {
        let digits = String::from_utf8_lossy(&call.buffers[0][1..9]);
        let sequence = u32::from_str_radix(&digits, 16).unwrap_or_default();
        let frame = &call.buffers[1];
        *self.told.entry(beside(sequence, frame_image::told(frame))).or_default() += 1;
        if frame_image::decode_data(frame).1 > MOST_SAMPLES {
            *self.told.entry(NO_COUNT).or_default() += 1;
        }
    }

    /// "Reading a written line returns its fields": the line that is left is read, with all that
    /// follows it in the buffer, and "with the number before it told, or none".
    fn data_written(&mut self, call: &Call, answer: &Answer) -> Result<(), String> {
        let (data, left) = (host::data_of(call), &answer.buffers[1]);
        let count = data.samples.len();
        let rest = &call.buffers[1][data_length(count)..];
        let random = self.random();
        let frame = generate_lines::before(random, data.sequence);
        let last = frame_image::told(&frame);
        let read = frames::read_d(left, last, count) == Ok((data.clone(), rest));
        held(read, "the implementation's reader", call, answer)?;
        let more = 2 * random.below(4) as usize;
        let places = generate_lines::contents(random, 2 * count + more);
        let samples = [&call.buffers[0], &places[2 * count..]].concat();
        let expected = vec![left.clone(), frame_image::encode_data(&data), samples];
        self.gives(&host::read_data(left.clone(), frame, places), expected)?;
        self.read_back[count] += 1;
        Ok(())
    }

    fn start_written(&mut self, call: &Call, answer: &Answer) -> Result<(), String> {
        let (start, left) = (host::start_of(call), &answer.buffers[0]);
        let rest = &call.buffers[0][START_LENGTH..];
        let read = frames::read_k(left) == Ok((start, rest));
        held(read, "the implementation's reader", call, answer)?;
        let frame = generate_lines::contents(self.random(), START);
        let expected = vec![left.clone(), frame_image::encode_start(&start)];
        self.gives(&host::read_start(left.clone(), frame), expected)?;
        self.read_back[0] += 1;
        Ok(())
    }

    /// "Writing the fields of a read line returns its bytes": the fields are those that the library
    /// left.
    fn data_read(&mut self, call: &Call, answer: &Answer) -> Result<(), String> {
        let (sequence, count) = frame_image::decode_data(&answer.buffers[1]);
        let samples = answer.buffers[2][..2 * count].to_vec();
        let line = &call.buffers[0][..data_length(count)];
        let (buffer, expected) = self.longer(line);
        let expected = vec![samples.clone(), expected];
        self.gives(&host::write_data(sequence, samples, buffer), expected)?;
        self.written_back[count] += 1;
        Ok(())
    }

    fn start_read(&mut self, call: &Call, answer: &Answer) -> Result<(), String> {
        let start = frame_image::decode_start(&answer.buffers[1]);
        let (buffer, expected) = self.longer(&call.buffers[0][..START_LENGTH]);
        self.gives(&host::write_start(&start, buffer), vec![expected])?;
        self.written_back[0] += 1;
        Ok(())
    }

    /// A buffer that a line fits in, before and after it is written there.
    fn longer(&mut self, line: &[u8]) -> (Vec<u8>, Vec<u8>) {
        let random = self.random();
        let more = random.below(4) as usize;
        let buffer = generate_lines::contents(random, line.len() + more);
        let expected = [line, &buffer[line.len()..]].concat();
        (buffer, expected)
    }

    /// A call that has to be accepted, and to leave this.
    fn gives(&mut self, call: &Call, buffers: Vec<Vec<u8>>) -> Result<(), String> {
        let expected = Answer { result: 0, buffers };
        let found = self.comparison.answer(call)?;
        held(found == expected, "the library", call, &expected)
    }

    /// Prints what was counted; a comparison that misses some of it says nothing.
    fn tell(&self, drawn: u64) -> Result<(), String> {
        self.comparison.tally.print_calls(&format!(", {drawn} of them drawn"));
        let mut fewest = u64::MAX;
        for (what, counts) in
            [("written and read", &self.read_back), ("read and written", &self.written_back)]
        {
            let (starts, data) = (counts[0], &counts[1..]);
            let (all, least) = (data.iter().sum::<u64>(), *data.iter().min().unwrap_or(&0));
            println!("lines {what} back: {starts} K; {all} D, of each count at least {least}");
            fewest = fewest.min(starts).min(least);
        }
        println!("calls with several faults: {}", self.several);
        let told = TOLD.map(|what| (what, *self.told.get(what).unwrap_or(&0)));
        let counts = told.map(|(what, count)| format!("{what} {count}"));
        println!("numbers told: {}", counts.join(", "));
        if let Some((what, _)) = told.iter().find(|(_, count)| *count < 1 + drawn / 1000) {
            return Err(format!("too few reads were told {what}"));
        }
        match fewest < 1 + drawn / 1000 {
            true => Err(format!("only {fewest} lines of a kind or count came back")),
            false => self.comparison.tally.complete_calls(),
        }
    }
}

/// What is told, beside the number of the line.
fn beside(sequence: u32, last: Last) -> &'static str {
    match last {
        None => "none",
        Some(u32::MAX) if sequence == 0 => AFTER_THE_LAST,
        Some(last) if last == sequence => "the same",
        Some(last) if last > sequence => "a later",
        Some(last) if last + 1 == sequence => "the one before",
        Some(_) => "an earlier",
    }
}

fn held(holds: bool, who: &str, call: &Call, answer: &Answer) -> Result<(), String> {
    match holds {
        true => Ok(()),
        false => Err(described(&format!("{who} gives other fields or bytes back"), call, answer)),
    }
}
