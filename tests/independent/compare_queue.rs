//! The part of the comparison that is of queues. A list of calls on one queue is held to the paper
//! with a queue of its own, and what was drawn is fed once more without a queue, by the library.

use crate::compare::{described, Comparison};
use crate::generate;
use crate::generate_queue::{self, LONG, MIDDLE, SHORT};
use crate::host::{self, Answer, Call, Row, LARGEST_BUFFER};
use crate::image;
use crate::marks_image;
use crate::paper::Paper;
use crate::queue::{Marks, Queue};
use crate::queue_paper::QueuePaper;
use crate::random::Random;
use crate::settings::{Setting, LARGEST_WORD};
use crate::state::{self, State};
use crate::tally::print_row;
use std::collections::{BTreeMap, BTreeSet};

/// Whether a row of the table is a call on a queue, and whether it is one of those that are made here.
pub fn is_queue(row: &Row) -> bool {
    row.buffers.iter().any(|(name, _)| *name == "queue")
}

pub fn has(row: &&Row) -> bool {
    is_queue(row) || row.name.starts_with("retune_") && !row.name.contains("_lanes")
}

/// How often a list has to go round its ring, of each length but 0.
const ROUNDS: usize = 100;

/// Makes pushes and draws at every place of short rings, with every fault and several, lists that go
/// round the ring, and lists that are drawn, until there are at least so many calls; prints what was
/// compared.
pub fn run(comparison: &mut Comparison, calls: u64) -> Result<(), String> {
    let mut queues = Queues { comparison, counts: Counts::default() };
    queues.every_place()?;
    queues.faults_of_pushes()?;
    queues.faults_of_draws()?;
    queues.go_round()?;
    while !queues.comparison.tally.reached(calls, 0) {
        queues.list()?;
    }
    queues.tell()
}

/// What a comparison has to meet beside the answers, and how often at least.
const MET: [(&str, u64); 11] = [
    ("pushes that go round the end", 1000),
    ("pushes that just fit", 1000),
    ("pushes of one sample too many", 500),
    ("pushes of twice the length", 500),
    ("pushes of nothing to a full queue", 100),
    ("draws from both parts", 1000),
    ("draws with clips in both parts", 100),
    ("draws that leave samples", 1000),
    ("draws that empty the queue at another place than 0", 1000),
    ("draws with nothing held that write", 500),
    ("draws refused, with samples held", 1000),
];

#[derive(Default)]
struct Counts {
    /// Of `MET`, by name.
    met: BTreeMap<&'static str, u64>,
    /// By the queue's samples: pushes accepted, draws accepted, and the most rounds of a list.
    pushes: BTreeMap<usize, u64>,
    draws: BTreeMap<usize, u64>,
    rounds: BTreeMap<usize, usize>,
    /// Fronts of accepted calls, with the queue's samples.
    fronts: BTreeSet<(usize, usize)>,
    /// Lists that were fed without a queue, and their outputs.
    plain: [u64; 2],
}

impl Counts {
    fn meet(&mut self, what: &'static str, met: bool) {
        assert!(MET.iter().any(|(name, _)| *name == what));
        *self.met.entry(what).or_default() += met as u64;
    }
}

/// What was drawn between two retunes, and the outputs.
#[derive(Default)]
struct Part {
    retuned: Option<Setting>,
    samples: Vec<i16>,
    outputs: Vec<i16>,
}

/// A queue and a converter that calls are made on, one after the other.
struct List {
    image: Vec<u8>,
    marks: Vec<u8>,
    queue: Vec<u8>,
    paper: QueuePaper,
    /// The image at the beginning, and whether it comes from a start.
    first: Vec<u8>,
    fresh: bool,
    parts: Vec<Part>,
    taken: usize,
}

impl List {
    fn length(&self) -> usize {
        self.queue.len() / 2
    }

    fn before(&self) -> Marks {
        marks_image::decode(&self.marks).expect("marks of a list")
    }

    fn free(&self) -> usize {
        self.length() - self.before().held
    }
}

struct Queues<'a> {
    comparison: &'a mut Comparison,
    counts: Counts,
}

impl Queues<'_> {
    fn random(&mut self) -> &mut Random {
        &mut self.comparison.random
    }

    /// A list from an image that is accepted, with marks that agree with a queue of so many samples.
    fn stored(&mut self, image: Vec<u8>, length: usize, marks: Marks) -> Result<List, String> {
        let state = image::decode(&image).map_err(|_| "an image that is refused")?;
        let queue = self.random().bytes(2 * length);
        let held =
            Queue::of(&host::samples(&queue), marks).map_err(|_| "marks that are refused")?;
        let mut paper = QueuePaper::new(Paper::resume(&state), length);
        paper.push(&held.held());
        let marks = marks_image::encode(marks);
        let (first, parts) = (image.clone(), vec![Part::default()]);
        Ok(List { image, marks, queue, paper, first, fresh: false, parts, taken: 0 })
    }

    /// A list from an accepted start with nothing held.
    fn started(&mut self, start: generate::Start, length: usize) -> Result<List, String> {
        let (kernel, setting, phase) = start;
        let call = host::start("start", vec![0xee; image::LENGTH], kernel, setting, phase);
        let image = self.comparison.agree(&call)?.buffers.remove(0);
        let marks = generate_queue::good_marks(self.random(), length, 0);
        let mut list = self.stored(image, length, marks)?;
        let paper = Paper::start(kernel, setting, phase).ok_or("a start that is refused")?;
        (list.paper, list.fresh) = (QueuePaper::new(paper, length), true);
        Ok(list)
    }

    /// Every front and every number held of short rings, with bursts of up to twice the length, and
    /// with draws of each kernel. Of a longer ring every front too.
    fn every_place(&mut self) -> Result<(), String> {
        for length in SHORT {
            for held in 0..=length {
                self.every_front(length, held, &(0..=2 * length + 1).collect::<Vec<usize>>())?;
            }
        }
        for held in [0, 1, MIDDLE / 2, MIDDLE - 1, MIDDLE] {
            let free = MIDDLE - held;
            self.every_front(MIDDLE, held, &[0, 1, free / 2, free, free + 1, 2 * MIDDLE])?;
        }
        Ok(())
    }

    fn every_front(&mut self, length: usize, held: usize, bursts: &[usize]) -> Result<(), String> {
        for front in 0..length.max(1) {
            let marks = Marks { front, held };
            for &burst in bursts {
                let image = generate::wild_image(self.random());
                let mut list = self.stored(image, length, marks)?;
                self.push(&mut list, burst)?;
                let space = generate_queue::space(self.random()) % (4 * length + 4);
                self.draw(&mut list, space)?;
                self.end(&list)?;
            }
            for kernel in 0..4 {
                let mut image = generate::wild_image(self.random());
                image[image::KERNEL] = kernel;
                for space in [0, 1, held, 3 * held + 1] {
                    let mut list = self.stored(image.clone(), length, marks)?;
                    self.draw(&mut list, space)?;
                    self.end(&list)?;
                }
            }
        }
        Ok(())
    }

    /// Queues of every length, marks of every kind and samples of every length, each with the others.
    fn faults_of_pushes(&mut self) -> Result<(), String> {
        for bytes in generate_queue::queue_bytes() {
            let length = bytes / 2;
            for marks in generate_queue::marks(self.random(), length) {
                let held = marks_image::decode(&marks).map_or(0, |marks| marks.held.min(length));
                for samples in generate_queue::burst_bytes(length - held, length) {
                    let queue = self.random().bytes(bytes);
                    let call = host::push(marks.clone(), queue, vec![0x55; samples]);
                    let answer = self.comparison.answer(&call)?;
                    self.pushed(&call, &answer);
                }
            }
        }
        Ok(())
    }

    /// The same for draws, with images of every kind.
    fn faults_of_draws(&mut self) -> Result<(), String> {
        let images = generate_queue::images(self.random());
        for bytes in generate_queue::queue_bytes() {
            let queue = self.random().bytes(bytes);
            for marks in generate_queue::marks(self.random(), bytes / 2) {
                for image in &images {
                    for space in [0, 8, 7, LARGEST_BUFFER + 2] {
                        let output = vec![0xee; space];
                        let call = host::draw(image.clone(), marks.clone(), queue.clone(), output);
                        let answer = self.comparison.answer(&call)?;
                        self.drawn(&call, &answer);
                    }
                }
            }
        }
        Ok(())
    }

    /// Lists that go round the ring, with retunes: short rings with each kernel, long ones with one.
    fn go_round(&mut self) -> Result<(), String> {
        for length in SHORT.into_iter().chain([MIDDLE]).filter(|length| *length > 0) {
            for kernel in 0..4 {
                self.round(length, kernel, 1 << 31)?;
            }
        }
        self.round(LONG[0], 1, 1 << 33)?;
        self.round(LONG[1], 3, 1 << 33)
    }

    /// With words from the smallest on.
    fn round(&mut self, length: usize, kernel: u32, smallest: u64) -> Result<(), String> {
        let word =
            |random: &mut Random| Setting::Word(smallest + random.below(LARGEST_WORD - smallest));
        let (setting, phase) = (word(self.random()), generate::phase(self.random()));
        let mut list = self.started((kernel, setting, phase), length)?;
        while list.taken <= (ROUNDS + 1) * length {
            let random = self.random();
            let burst = match random.one_in(8) {
                true => generate_queue::burst(random, list.free(), length),
                false => list.free() - random.below(list.free() as u64 / 2 + 1) as usize,
            };
            self.push(&mut list, burst)?;
            let space = match self.random().one_in(4) {
                true => self.random().below(length as u64 + 1) as usize,
                false => 2 * length + 1,
            };
            self.draw(&mut list, space.min(LARGEST_BUFFER / 2))?;
            if self.random().one_in(8) {
                let setting = word(self.random());
                self.retune(&mut list, setting)?;
            }
        }
        self.end(&list)
    }

    /// A drawn list; three of four begin with a start.
    fn list(&mut self) -> Result<(), String> {
        self.comparison.tally.chains += 1;
        let random = self.random();
        let length = generate_queue::length(random);
        let mut list = match random.one_in(4) {
            true => {
                let held = random.below(length as u64 + 1) as usize;
                let marks = generate_queue::good_marks(random, length, held);
                let image = generate::wild_image(random);
                self.stored(image, length, marks)?
            }
            false => {
                let start = generate::good_start(random);
                self.started(start, length)?
            }
        };
        for _ in 0..1 + self.random().below(60) {
            self.step(&mut list)?;
        }
        self.end(&list)
    }

    fn step(&mut self, list: &mut List) -> Result<(), String> {
        let random = &mut self.comparison.random;
        match random.below(32) {
            0..=11 => {
                let burst = generate_queue::burst(random, list.free(), list.length());
                self.push(list, burst)
            }
            12..=23 => {
                let space = generate_queue::space(random);
                self.draw(list, space)
            }
            24..=26 => {
                let setting = generate::setting(random);
                self.retune(list, setting)
            }
            27 => {
                let bytes = random.pick(&generate_queue::burst_bytes(list.free(), list.length()));
                let call =
                    host::push(list.marks.clone(), list.queue.clone(), vec![0x55; bytes | 1]);
                self.comparison.answer(&call).map(|_| ())
            }
            28 => {
                let bytes = random.pick(&[1, 7, 65535, 65537, 65538, 70000]);
                let output = vec![0xee; bytes];
                let (marks, queue) = (list.marks.clone(), list.queue.clone());
                let call = host::draw(list.image.clone(), marks, queue, output);
                self.comparison.answer(&call).map(|_| ())
            }
            _ => self.aside(list),
        }
    }

    /// A call on damaged copies of what the list has, which it then leaves aside.
    fn aside(&mut self, list: &List) -> Result<(), String> {
        let random = &mut self.comparison.random;
        let (mut image, mut marks) = (list.image.clone(), list.marks.clone());
        let mut queue = list.queue.clone();
        let faults = 1 + random.below(7);
        if faults & 1 != 0 {
            image = generate::damaged_image(random, &image, image::LENGTH);
        }
        if faults & 2 != 0 {
            let kinds = generate_queue::marks(random, list.length());
            marks = kinds[1 + random.below(kinds.len() as u64 - 1) as usize].clone();
        }
        if faults & 4 != 0 {
            let lengths = generate_queue::queue_bytes();
            queue.resize(random.pick(&lengths), 0x55);
        }
        let call = match random.below(5) {
            0 => host::retune("retune", image, generate::setting(random)),
            1 | 2 => host::push(marks, queue, random.bytes(2 * list.length())),
            _ => host::draw(image, marks, queue, vec![0xee; 16]),
        };
        let answer = self.comparison.answer(&call)?;
        if call.row.name == "draw" {
            self.drawn(&call, &answer);
        }
        Ok(())
    }

    /// Pushes so many samples, and holds the answer to that of the paper's own queue.
    fn push(&mut self, list: &mut List, count: usize) -> Result<(), String> {
        let samples = generate::samples(self.random(), count);
        let (marks, queue) = (list.marks.clone(), list.queue.clone());
        let call = host::push(marks, queue, host::bytes(&samples));
        let answer = self.comparison.answer(&call)?;
        if 2 * count > LARGEST_BUFFER {
            return Ok(());
        }
        let expected = list.paper.push(&samples);
        if answer.result != expected {
            return Err(described(&format!("on paper it is {expected}"), &call, &answer));
        }
        self.pushed(&call, &answer);
        (list.marks, list.queue) = (answer.buffers[0].clone(), answer.buffers[1].clone());
        Ok(())
    }

    /// Counts a push.
    fn pushed(&mut self, call: &Call, answer: &Answer) {
        let Ok(before) = marks_image::decode(&call.buffers[0]) else { return };
        let (length, count) = (call.buffers[1].len() / 2, call.buffers[2].len() / 2);
        let (counts, full) = (&mut self.counts, before.held == length);
        if answer.result == 16 {
            counts.meet("pushes of one sample too many", before.held + count == length + 1);
            counts.meet("pushes of twice the length", count == 2 * length);
        }
        if answer.result == 0 {
            let end = before.front + before.held;
            let round = end < length && end + count > length;
            counts.meet("pushes that go round the end", round);
            counts.meet("pushes that just fit", count > 0 && before.held + count == length);
            counts.meet("pushes of nothing to a full queue", count == 0 && full && length > 0);
            *counts.pushes.entry(length).or_default() += 1;
            counts.fronts.insert((length, before.front));
        }
    }

    /// Draws with space for so many outputs. An accepted draw is held to demand 3.
    fn draw(&mut self, list: &mut List, space: usize) -> Result<(), String> {
        let (image, marks) = (list.image.clone(), list.marks.clone());
        let call = host::draw(image, marks, list.queue.clone(), vec![0xee; 2 * space]);
        let answer = self.comparison.answer(&call)?;
        let told = |what: &str| described(what, &call, &answer);
        if answer.result != 0 {
            return Err(told("a draw in a list is refused"));
        }
        let refused = |_| told("an image that is refused was left");
        let fed = image::fed(&answer.buffers[0]).map_err(refused)?;
        let outputs = host::samples(&answer.buffers[3]);
        let outputs = outputs.get(..fed.written);
        let outputs = outputs.ok_or_else(|| told("more is written than there is space"))?;
        let seen = |output: &_| self.comparison.tally.hold(fed.state.kernel, output);
        let page = list.paper.draw(outputs, space, &fed, seen).map_err(|what| told(&what))?;
        self.comparison.tally.fed(&fed, list.fresh);
        self.drawn(&call, &answer);
        let part = list.parts.last_mut().expect("a list has parts");
        let drawn = list.paper.drawn();
        part.samples.extend(&drawn[drawn.len() - page.joined..]);
        part.outputs.extend(outputs);
        list.taken += page.joined;
        (list.image, list.marks) = (answer.buffers[0].clone(), answer.buffers[1].clone());
        Ok(())
    }

    /// Counts a draw.
    fn drawn(&mut self, call: &Call, answer: &Answer) {
        let Ok(before) = marks_image::decode(&call.buffers[1]) else { return };
        let length = call.buffers[2].len() / 2;
        let counts = &mut self.counts;
        if answer.result != 0 {
            counts.meet("draws refused, with samples held", before.held > 0);
            return;
        }
        let [taken, written, clips, _] = image::counts(&answer.buffers[0]).map(|n| n as usize);
        let left = before.held - taken;
        let emptied = taken > 0 && left == 0 && before.front + taken != length;
        counts.meet("draws that leave samples", left > 0);
        counts.meet("draws that empty the queue at another place than 0", emptied);
        counts.meet("draws with nothing held that write", before.held == 0 && written > 0);
        if before.front + taken > length {
            counts.meet("draws from both parts", true);
            let of_first = clips_of_first(call, before, written);
            counts.meet("draws with clips in both parts", of_first > 0 && of_first < clips);
        }
        *counts.draws.entry(length).or_default() += 1;
        counts.fronts.insert((length, before.front));
    }

    fn retune(&mut self, list: &mut List, setting: Setting) -> Result<(), String> {
        let call = host::retune("retune", list.image.clone(), setting);
        let answer = self.comparison.answer(&call)?;
        let told = |what: &str| described(what, &call, &answer);
        list.image = answer.buffers[0].clone();
        let state = image::decode(&list.image).map_err(|_| told("an image that is refused"))?;
        list.paper.retune(setting, &state).map_err(|what| told(&what))?;
        if answer.result == 0 {
            list.parts.push(Part { retuned: Some(setting), ..Part::default() });
        }
        Ok(())
    }

    /// At the end nothing is lost, and plain feeds of what was drawn give the same.
    fn end(&mut self, list: &List) -> Result<(), String> {
        let marks = list.before();
        let queue = Queue::of(&host::samples(&list.queue), marks);
        let queue = queue.map_err(|_| format!("{marks:?} are left, which are refused"))?;
        list.paper.nothing_lost(&queue.held())?;
        if list.length() > 0 {
            let rounds = self.counts.rounds.entry(list.length()).or_default();
            *rounds = (*rounds).max(list.taken / list.length());
        }
        self.plain(list)
    }

    /// Feeds all samples drawn by the library without a queue: between two retunes in as few feeds as
    /// there can be, with space for the outputs that the draws wrote.
    fn plain(&mut self, list: &List) -> Result<(), String> {
        let mut image = list.first.clone();
        for Part { retuned, samples, outputs } in &list.parts {
            if let Some(setting) = retuned {
                let call = host::retune("retune", image, *setting);
                image = self.comparison.agree(&call)?.buffers.remove(0);
            }
            let fed = self.fed(&mut image, samples, outputs.len())?;
            if fed != *outputs {
                let place = fed.iter().zip(outputs).take_while(|(one, other)| one == other).count();
                let (fed, drawn) = (&fed[place..], &outputs[place..]);
                return Err(format!(
                    "fed without a queue, output {place} is {:?}, drawn it is {:?}",
                    fed.first(),
                    drawn.first()
                ));
            }
            self.counts.plain[1] += fed.len() as u64;
        }
        if image[..image::COUNTS] != list.image[..image::COUNTS] {
            return Err("fed without a queue, the state is another".to_string());
        }
        self.counts.plain[0] += 1;
        Ok(())
    }

    /// The outputs of plain feeds, with space for so many in all.
    fn fed(
        &mut self,
        image: &mut Vec<u8>,
        samples: &[i16],
        space: usize,
    ) -> Result<Vec<i16>, String> {
        let most = LARGEST_BUFFER / 2;
        let (mut rest, mut outputs) = (samples, Vec::new());
        while !rest.is_empty() || outputs.len() < space {
            let input = host::bytes(&rest[..rest.len().min(most)]);
            let places = vec![0xee; 2 * most.min(space - outputs.len())];
            let call = host::feed(image.clone(), input, places);
            let answer = self.comparison.agree(&call)?;
            let [taken, written, ..] = image::counts(&answer.buffers[0]).map(|n| n as usize);
            if taken + written == 0 {
                return Err(format!("fed without a queue, {} samples are left", rest.len()));
            }
            rest = &rest[taken..];
            outputs.extend(&host::samples(&answer.buffers[2])[..written]);
            *image = answer.buffers[0].clone();
        }
        Ok(outputs)
    }

    /// Prints what was compared; a comparison that misses some of it says nothing.
    fn tell(&self) -> Result<(), String> {
        let Counts { met, pushes, draws, rounds, fronts, plain } = &self.counts;
        self.comparison.tally.print();
        for (what, fewest) in MET {
            let count = met.get(what).copied().unwrap_or(0);
            println!("{what}: {count}");
            if count < fewest {
                return Err(format!("fewer than {fewest} of these: compare more"));
            }
        }
        print_row("samples of queue", ["pushes", "draws", "rounds of a list"]);
        for length in SHORT.into_iter().chain([MIDDLE]).chain(LONG) {
            let of = |counts: &BTreeMap<usize, u64>| counts.get(&length).copied().unwrap_or(0);
            let most = rounds.get(&length).copied().unwrap_or(0);
            print_row(&length.to_string(), [of(pushes), of(draws), most as u64]);
            if of(pushes) == 0 || of(draws) == 0 || (most < ROUNDS && length > 0) {
                return Err("too few of these: compare more".to_string());
            }
        }
        let each = |length: usize| (0..length).all(|front| fronts.contains(&(length, front)));
        if !SHORT.into_iter().chain([MIDDLE]).all(each) {
            return Err("a front of a short ring was never met: compare more".to_string());
        }
        let [lists, outputs] = plain;
        println!("{lists} lists are fed without a queue too, with {outputs} outputs");
        self.comparison.tally.complete_draws()
    }
}

/// The clips among the first outputs that a feed of the part up to the buffer's end would write.
fn clips_of_first(call: &Call, before: Marks, written: usize) -> usize {
    let state: Result<State, u32> = image::decode(&call.buffers[0]);
    let queue = host::samples(&call.buffers[2]);
    let fed =
        state.and_then(|state| state::feed(state, &queue[before.front..], &mut vec![0; written]));
    fed.map_or(0, |fed| fed.clips.sum())
}
