//! The comparison of a library with the implementation and with the paper's run: on frame lines, then
//! on queues, then over random chains of calls on one converter, then on lanes, then with turned
//! samples.

use crate::calls::{self, Left};
use crate::clips::Shown;
use crate::compare_lanes::{Counts, LANES};
use crate::compare_lines;
use crate::compare_queue;
use crate::generate::{self, Start};
use crate::halves;
use crate::host::{self, Answer, Call, Row};
use crate::image;
use crate::judge;
use crate::lanes::MOST;
use crate::library::Library;
use crate::paper::Paper;
use crate::random::Random;
use crate::settings::Setting;
use crate::state::{Fed, State};
use crate::tally::Tally;
use crate::turned_lists::{self, LISTS};

/// How much to compare: chains are made until both numbers are reached; on lanes a sixth of the
/// calls is enough, and on lines half of them are drawn.
pub struct Amount {
    pub outputs: u64,
    pub calls: u64,
    pub seed: u64,
}

/// How many single outputs of each kernel are made on a half of each kind, and at each limit.
const ON_HALF: usize = 1000;
const AT_LIMIT: usize = 500;

/// Compares, prints the tables, and says what the first difference is, if there is one.
pub fn run(amount: &Amount) -> Result<(), String> {
    let mut comparison = Comparison {
        kind: &ALONE,
        library: Library::new(),
        random: Random(amount.seed),
        tally: Tally::over("line calls", compare_lines::has),
        counts: Counts::default(),
    };
    compare_lines::run(&mut comparison, amount.calls / 2)?;
    comparison.random = Random(amount.seed);
    comparison.tally = Tally::over("queue calls", compare_queue::has);
    compare_queue::run(&mut comparison, amount.calls)?;
    comparison.random = Random(amount.seed);
    comparison.tally = Tally::over("calls", ALONE.has);
    comparison.halves()?;
    comparison.chains(amount.calls, amount.outputs)?;
    comparison.tally.complete()?;
    comparison.kind = &LANES;
    comparison.tally = Tally::over("lane calls", LANES.has);
    comparison.lanes()?;
    comparison.chains(amount.calls / 6, amount.outputs)?;
    comparison.tell_lanes()?;
    comparison.tally.complete()?;
    turned_samples(&mut comparison.library, amount.seed)
}

/// Lists with turned samples by the library, and the same by the implementation.
pub fn turned_samples(library: &mut Library, seed: u64) -> Result<(), String> {
    let found = turned_lists::make(seed, LISTS, &mut |call| library.answer(call))?;
    match found == turned_lists::on_model(seed, LISTS)? {
        true => turned_lists::tell(&found),
        false => Err("turned samples: the library and the implementation differ".to_string()),
    }
}

pub struct Comparison {
    kind: &'static Kind,
    pub library: Library,
    pub random: Random,
    pub tally: Tally,
    pub counts: Counts,
}

/// What the images of chains are of, and the calls on them.
pub struct Kind {
    /// Whether a row of the table is one of its calls, and the names of those by the form of a
    /// setting.
    pub has: fn(&&Row) -> bool,
    pub start: &'static str,
    pub retune: &'static str,
    pub length: usize,
    /// Images and feeds at random; the last number is the lane count of most feeds of a chain.
    pub wild: fn(&mut Random) -> Vec<u8>,
    pub feed: fn(&mut Random, &[u8], u32) -> Call,
    pub bad_feed: fn(&mut Random, &[u8], u32) -> Call,
    /// The states in an image, and what a feed left of each.
    pub states: fn(&[u8]) -> Result<Vec<State>, u32>,
    pub fed: fn(&[u8]) -> Result<Vec<Fed<Shown>>, u32>,
    /// What else an accepted feed is held to.
    pub also: fn(&mut Comparison, &Call, &Answer) -> Result<(), String>,
}

const ALONE: Kind = Kind {
    has: |row| !(LANES.has)(row) && !compare_lines::has(row) && !compare_queue::is_queue(row),
    start: "start",
    retune: "retune",
    length: image::LENGTH,
    wild: generate::wild_image,
    feed: |random, image, _| generate::feed(random, image),
    bad_feed: |random, image, _| generate::bad_feed(random, image),
    states: |image| Ok(vec![image::decode(image)?]),
    fed: |image| Ok(vec![image::fed(image)?]),
    also: |_, _, _| Ok(()),
};

/// How many lanes a feed has: its one number, or one.
pub fn count(feed: &Call) -> usize {
    feed.numbers.first().map_or(1, |count| *count as usize)
}

/// An image that calls are made on, one after the other.
pub struct Chain {
    image: Vec<u8>,
    /// The paper's run beside each lane that the last feed reached; none where the image is refused.
    papers: Vec<Paper>,
    /// How many of them come from a start.
    fresh: usize,
}

impl Comparison {
    /// A chain from an image that need not come from a start.
    pub fn stored(&self, image: Vec<u8>) -> Chain {
        let states = (self.kind.states)(&image).unwrap_or_default();
        Chain { image, papers: states.iter().map(Paper::resume).collect(), fresh: 0 }
    }

    /// Single outputs from stored states that are hard to round, or at a limit.
    fn halves(&mut self) -> Result<(), String> {
        for kernel in 0..4 {
            let mut states = halves::exact(&mut self.random, kernel, ON_HALF);
            states.extend(halves::narrow(&mut self.random, kernel));
            for halves in halves::limits(kernel) {
                let random = &mut self.random;
                states.extend((0..AT_LIMIT).map(|_| {
                    let register = halves::sixteenths(random);
                    halves::at_limit(random, kernel, register, halves)
                }));
            }
            for state in states {
                let mut chain = self.stored(image::encode_fresh(state));
                let call = host::feed(chain.image.clone(), Vec::new(), vec![0; 2]);
                self.feed(&mut chain, &call)?;
            }
        }
        self.tally.on_halves()
    }

    /// Makes chains until there are at least so many calls and outputs.
    fn chains(&mut self, calls: u64, outputs: u64) -> Result<(), String> {
        while !self.tally.reached(calls, outputs) {
            self.chain()?;
        }
        self.tally.print();
        Ok(())
    }

    /// Every second chain is mostly of all lanes, the others in turn of 1, 2 and so on.
    fn chain(&mut self) -> Result<(), String> {
        self.tally.chains += 1;
        let turn = self.tally.chains as u32;
        let usual = if turn % 2 == 0 { MOST as u32 } else { 1 + turn / 2 % MOST as u32 };
        let random = &mut self.random;
        let mut image = (self.kind.wild)(random);
        if random.one_in(8) {
            image = generate::damaged_image(random, &image, self.kind.length);
        }
        let mut chain = self.stored(image);
        if !self.random.one_in(4) {
            let start = generate::good_start(&mut self.random);
            self.start(&mut chain, start)?;
        }
        for _ in 0..1 + self.random.below(40) {
            self.step(&mut chain, usual)?;
        }
        Ok(())
    }

    fn step(&mut self, chain: &mut Chain, usual: u32) -> Result<(), String> {
        let random = &mut self.random;
        match random.below(32) {
            0..=19 => {
                let call = (self.kind.feed)(random, &chain.image, usual);
                self.feed(chain, &call)
            }
            20..=24 => {
                let setting = generate::setting(random);
                self.retune(chain, setting)
            }
            25 => {
                let start = generate::start(random);
                self.start(chain, start)
            }
            26 => {
                let call = (self.kind.bad_feed)(random, &chain.image, usual);
                self.answer(&call).map(|_| ())
            }
            _ => self.aside(chain, usual),
        }
    }

    /// A call on a damaged copy of the image, which the chain then leaves aside.
    fn aside(&mut self, chain: &Chain, usual: u32) -> Result<(), String> {
        let (kind, random) = (self.kind, &mut self.random);
        let damaged = generate::damaged_image(random, &chain.image, kind.length);
        let call = match random.below(4) {
            0 => (kind.feed)(random, &damaged, usual),
            1 => (kind.bad_feed)(random, &damaged, usual),
            2 => host::retune(kind.retune, damaged, generate::setting(random)),
            _ => {
                let (kernel, setting, phase) = generate::start(random);
                let image = generate::wrong_length(random, damaged, kind.length);
                host::start(kind.start, image, kernel, setting, phase)
            }
        };
        self.answer(&call).map(|_| ())
    }

    fn start(&mut self, chain: &mut Chain, start: Start) -> Result<(), String> {
        let (kernel, setting, phase) = start;
        let image = chain.image.clone();
        let answer = self.answer(&host::start(self.kind.start, image, kernel, setting, phase))?;
        chain.image = answer.buffers[0].clone();
        if let (0, Ok(states)) = (answer.result, (self.kind.states)(&chain.image)) {
            let paper = Paper::start(kernel, setting, phase);
            chain.papers = paper.map_or(vec![], |paper| vec![paper; states.len()]);
            chain.fresh = states.len();
        }
        Ok(())
    }

    fn retune(&mut self, chain: &mut Chain, setting: Setting) -> Result<(), String> {
        let call = host::retune(self.kind.retune, chain.image.clone(), setting);
        let answer = self.answer(&call)?;
        chain.image = answer.buffers[0].clone();
        let states = (self.kind.states)(&chain.image).unwrap_or_default();
        judge::retune_lanes(&mut chain.papers, setting, &states)
            .map_err(|what| described(&what, &call, &answer))
    }

    /// An accepted feed is held to demand 3 too, from a stored state as from a start.
    pub fn feed(&mut self, chain: &mut Chain, call: &Call) -> Result<(), String> {
        let answer = self.answer(call)?;
        let before = std::mem::replace(&mut chain.image, answer.buffers[0].clone());
        if answer.result != 0 {
            return Ok(());
        }
        let told = |what: &str| described(what, call, &answer);
        let refused = |_| told("an image that is refused was accepted or left");
        let before = (self.kind.states)(&before).map_err(refused)?;
        let fed = (self.kind.fed)(&chain.image).map_err(refused)?;
        let (count, kernel) = (count(call), before[0].kernel);
        chain.papers.extend(before[..count].iter().skip(chain.papers.len()).map(Paper::resume));
        chain.fresh = chain.fresh.min(count);
        let (input, output) = (host::samples(&call.buffers[1]), host::samples(&answer.buffers[2]));
        let seen = |output: &_| self.tally.hold(kernel, output);
        judge::feed_lanes(&mut chain.papers, count, &input, &output, &fed, seen)
            .map_err(|what| told(&what))?;
        for (lane, fed) in fed[..count].iter().enumerate() {
            self.tally.fed(fed, lane < chain.fresh);
        }
        (self.kind.also)(self, call, &answer)
    }

    /// Makes a call on both sides and compares what they answer and leave; counts it.
    pub fn answer(&mut self, call: &Call) -> Result<Answer, String> {
        let answer = self.agree(call)?;
        self.tally.count(call, &answer);
        Ok(answer)
    }

    /// The same without counting it.
    pub fn agree(&mut self, call: &Call) -> Result<Answer, String> {
        let expected = host::answer(call);
        let answer = self.library.answer(call).map_err(|what| described(&what, call, &expected))?;
        if answer != expected {
            let what = calls::difference(call, &expected, &answer);
            let found = calls::block(call, &answer, &Left::new());
            let told = described(&what, call, &expected);
            return Err(format!("{told}the library:\n{found}{what}"));
        }
        Ok(answer)
    }
}

pub fn described(what: &str, call: &Call, expected: &Answer) -> String {
    let block = calls::block(call, expected, &Left::new());
    format!("{what}\nthe call, with what is expected:\n{block}")
}
