//! What the program `check_queue` must write: for each of its groups of drawn lists of pushes, draws
//! and retunes a hash over all that the calls answered, and totals. A list that begins with an
//! accepted start, and is handed no other state and marks, is also held to demand 3, call by call,
//! by the paper with a queue of its own.

use crate::draw::Draw;
use crate::paper::Paper;
use crate::queue::{self, Marks, Queue, LARGEST};
use crate::queue_paper::QueuePaper;
use crate::runs::Tally;
use crate::settings::{Setting, LARGEST_WORD};
use crate::state::{self, Fed, State};

/// So many lists of so many calls on a queue of `length` samples. In some a call is handed a state
/// and marks of the program's own now and then.
struct Group {
    name: &'static str,
    length: usize,
    lists: usize,
    calls: usize,
    handed_in: bool,
}

const fn group(name: &'static str, length: usize, lists: usize, calls: usize) -> Group {
    Group { name, length, lists, calls, handed_in: false }
}

const GROUPS: [Group; 11] = [
    group("length 0", 0, 500, 30),
    group("length 1", 1, 2500, 30),
    group("length 2", 2, 2500, 30),
    group("length 3", 3, 2500, 30),
    group("length 7", 7, 4000, 30),
    group("length 64", 64, 4000, 30),
    Group { handed_in: true, ..group("handed in, length 7", 7, 4000, 30) },
    group("long lists, length 7", 7, 20, 3000),
    group("length 16383", 16383, 6, 30),
    group("length 16384", 16384, 6, 30),
    group("length 16385", 16385, 2, 30),
];

/// Output places that are drawn, with a short queue and with a long one.
const PLACES: usize = 24;
const MANY_PLACES: usize = 8192;
const SHORT: usize = 64;

/// How often a list has to go round its ring.
const ROUNDS: usize = 100;

pub fn lines() -> Result<String, String> {
    let mut seen = Seen::default();
    let lines = GROUPS.iter().zip(0..).map(|(group, seed)| line(group, seed, &mut seen));
    let lines = lines.collect::<Result<String, String>>()?;
    let Seen { rounds, full, left, of_nothing, lists } = seen;
    eprintln!(
        "{lists} lists, of which one goes round its ring {rounds} times; {full} pushes fill a queue, \
         {left} draws leave samples, {of_nothing} draws of nothing write"
    );
    match rounds < ROUNDS || [full, left, of_nothing].contains(&0) {
        true => Err("the lists do not come to what they have to".to_string()),
        false => Ok(lines),
    }
}

/// What is seen in all lists: how often one goes round its ring at the most; pushes that fill a queue,
/// draws that leave samples, and draws of nothing that write.
#[derive(Default)]
struct Seen {
    lists: usize,
    rounds: usize,
    full: usize,
    left: usize,
    of_nothing: usize,
}

fn line(group: &Group, seed: u64, seen: &mut Seen) -> Result<String, String> {
    let (mut draw, mut tally) = (Draw(seed), Tally::default());
    for number in 0..group.lists {
        let mut list = List::begin(group, &mut draw, &mut tally)?;
        let told = |what: String| format!("{}, list {number}: {what}", group.name);
        for _ in 0..group.calls {
            list.call(group, &mut draw, &mut tally, seen).map_err(told)?;
        }
        list.end(seen).map_err(told)?;
    }
    Ok(format!("{}: {}\n", group.name, tally.totals()))
}

/// The buffer, and the state and the marks that the last call of a list returned; and the paper's
/// run beside it, if there is one.
struct List {
    buffer: Vec<i16>,
    state: State,
    marks: Marks,
    taken: usize,
    paper: Option<QueuePaper>,
}

impl List {
    /// A refused start returns "no state": all zeros, which every draw refuses.
    fn begin(group: &Group, draw: &mut Draw, tally: &mut Tally) -> Result<List, String> {
        let length = group.length;
        let (kernel, setting) = (draw.below(4) as u32, Setting::Word(word(draw)));
        let phase = draw.long() as u32;
        let answer = state::start(kernel, setting, phase);
        let state = answer.unwrap_or_default();
        tally.answered(&state, &[], answer.err().unwrap_or(0));
        let front = if length == 0 { 0 } else { draw.below(length as u64) as usize };
        let paper = Paper::start(kernel, setting, phase).filter(|_| !group.handed_in);
        let paper = paper.map(|paper| QueuePaper::new(paper, length));
        let buffer = samples(draw, length);
        Ok(List { buffer, state, marks: Marks { front, held: 0 }, taken: 0, paper })
    }

    fn call(
        &mut self,
        group: &Group,
        draw: &mut Draw,
        tally: &mut Tally,
        seen: &mut Seen,
    ) -> Result<(), String> {
        if group.handed_in && draw.below(2) == 0 {
            self.state = handed_in(draw);
            self.marks = marks(draw);
        }
        match draw.below(8) {
            0 => self.retune(draw, tally),
            1..=3 => self.push(draw, tally, seen),
            _ => self.draw(draw, tally, seen),
        }
    }

    fn retune(&mut self, draw: &mut Draw, tally: &mut Tally) -> Result<(), String> {
        let setting = Setting::Word(word(draw));
        let answer = state::retune(self.state, setting);
        self.state = answer.unwrap_or(self.state);
        tally.answered(&self.state, &[], answer.err().unwrap_or(0));
        match &mut self.paper {
            Some(paper) => paper.retune(setting, &self.state),
            None => Ok(()),
        }
    }

    /// A burst of up to twice the length, every second one or so of up to half of it.
    fn push(&mut self, draw: &mut Draw, tally: &mut Tally, seen: &mut Seen) -> Result<(), String> {
        let length = self.buffer.len();
        let most = if draw.below(2) == 0 { 2 * length } else { length - length / 2 };
        let count = draw.below(most as u64 + 1) as usize;
        let burst = samples(draw, 2 * length);
        let answer = queue::push(&mut self.buffer, self.marks, &burst[..count]);
        self.marks = answer.unwrap_or(self.marks);
        let refusal = answer.err().unwrap_or(0);
        mix(tally, self.marks);
        tally.called(refusal);
        tally.mix_samples(&self.buffer);
        seen.full += (refusal == 0 && count > 0 && self.marks.held == length) as usize;
        let Some(paper) = &mut self.paper else { return Ok(()) };
        let expected = if length > LARGEST { 5 } else { paper.push(&burst[..count]) };
        match refusal == expected {
            true => Ok(()),
            false => Err(format!("a push is answered with {refusal}, on paper with {expected}")),
        }
    }

    /// A refusal "hands back the state or slice that came, with counts 0".
    fn draw(&mut self, draw: &mut Draw, tally: &mut Tally, seen: &mut Seen) -> Result<(), String> {
        let places = if self.buffer.len() > SHORT { MANY_PLACES } else { PLACES };
        let space = draw.below(places as u64 + 1) as usize;
        let mut output = samples(draw, places);
        let held = self.marks.held;
        let answer = queue::draw(&self.buffer, self.marks, self.state, &mut output[..space]);
        let (after, fed) = answer.unwrap_or((self.marks, self.state.unfed()));
        (self.marks, self.state) = (after, fed.state);
        tally.answered(&self.state, &[], answer.err().unwrap_or(0));
        mix(tally, self.marks);
        tally.fed(&fed, &[fed.clips], &output);
        self.taken += fed.taken;
        seen.left += (answer.is_ok() && self.marks.held > 0) as usize;
        seen.of_nothing += (held == 0 && fed.written > 0) as usize;
        self.judge(&fed, &output[..space], answer.err())
    }

    /// "no draw is refused", but for those of too large a buffer.
    fn judge(&mut self, fed: &Fed, output: &[i16], refusal: Option<u32>) -> Result<(), String> {
        let large = self.buffer.len() > LARGEST;
        match (&mut self.paper, refusal) {
            (Some(_), Some(5)) if large => Ok(()),
            (Some(_), Some(refusal)) => Err(format!("a draw is refused with {refusal}")),
            (Some(paper), None) => {
                paper.draw(&output[..fed.written], output.len(), fed, |_| ()).map(|_| ())
            }
            (None, _) => Ok(()),
        }
    }

    /// What was drawn and what is held are what was pushed.
    fn end(&self, seen: &mut Seen) -> Result<(), String> {
        seen.lists += 1;
        seen.rounds = seen.rounds.max(self.taken / self.buffer.len().max(1));
        let (Some(paper), Ok(queue)) = (&self.paper, Queue::of(&self.buffer, self.marks)) else {
            return Ok(());
        };
        paper.nothing_lost(&queue.held())
    }
}

fn mix(tally: &mut Tally, marks: Marks) {
    tally.mix(&[marks.front as u64, marks.held as u64]);
}

/// A word, one in sixteen or so refused.
fn word(draw: &mut Draw) -> u64 {
    match draw.below(16) {
        0 => 1,
        1 => LARGEST_WORD,
        2 => draw.below(2) * (LARGEST_WORD + 1),
        3..=8 => draw.long(),
        _ => draw.long() * 4 + draw.below(4),
    }
}

/// So many samples, outermost ones or any.
fn samples(draw: &mut Draw, count: usize) -> Vec<i16> {
    let outermost = draw.below(2) == 0;
    let sample = |_| match outermost {
        true => [i16::MIN, i16::MAX][draw.below(2) as usize],
        false => draw.below(65536) as i16,
    };
    (0..count).map(sample).collect()
}

/// A state that is accepted, whether or not a run reaches it, or one with a field that is not.
fn handed_in(draw: &mut Draw) -> State {
    let state = State {
        kernel: draw.below(4) as u8,
        needed: draw.below(5) as u8,
        register: draw.long() as u32,
        word: draw.long() + 1,
        window: samples(draw, 4).try_into().unwrap(),
    };
    match draw.below(8) {
        0 => State { kernel: 4, ..state },
        1 => State { needed: 5, ..state },
        2 => State { word: 0, ..state },
        3 => State { word: LARGEST_WORD + 1, ..state },
        _ => state,
    }
}

/// Marks that agree with a queue of 7 samples or not.
fn marks(draw: &mut Draw) -> Marks {
    let (front, held) = (draw.below(9) as usize, draw.below(9) as usize);
    match draw.below(8) {
        0 => Marks { front: draw.long() as usize, held },
        1 => Marks { front, held: draw.long() as usize },
        _ => Marks { front, held },
    }
}
