//! Lists of calls that are drawn and made twice, the second time with turned samples, by the library
//! or by the implementation.

use crate::calls::{self, Left};
use crate::clips::Shown;
use crate::generate;
use crate::halves;
use crate::host::{self, Answer, Call};
use crate::image;
use crate::judge;
use crate::kernels;
use crate::lane_image;
use crate::lanes::{self, MOST};
use crate::paper::Paper;
use crate::random::Random;
use crate::settings::{self, Setting};
use crate::state::Fed;
use crate::turned::{self, Counts, Pair};

/// How many lists there are on one converter, and on lanes.
pub const LISTS: [usize; 2] = [2000, 400];

/// What answers the calls.
type Answers<'a> = &'a mut dyn FnMut(&Call) -> Result<Answer, String>;

/// Makes so many lists: what was counted, or the first call that is not as request U6 has it.
pub fn make(seed: u64, lists: [usize; 2], answer: Answers) -> Result<Counts, String> {
    let mut drawn = Drawn { random: Random(seed), answer, counts: Counts::default() };
    for (count, on_lanes) in lists.into_iter().zip([false, true]) {
        for _ in 0..count {
            drawn.list(on_lanes)?;
        }
    }
    Ok(drawn.counts)
}

/// The same by the implementation.
pub fn on_model(seed: u64, lists: [usize; 2]) -> Result<Counts, String> {
    make(seed, lists, &mut |call| Ok(host::answer(call)))
}

/// Prints what was counted in all lists, if it is enough.
pub fn tell(counts: &Counts) -> Result<(), String> {
    let ([alone, on_lanes], text) = (LISTS, counts.complete()?);
    println!("{alone} lists of calls and {on_lanes} on lanes with turned samples: {text}");
    Ok(())
}

struct Drawn<'a> {
    random: Random,
    answer: Answers<'a>,
    counts: Counts,
}

/// The image of a run, and the paper's run beside each lane.
struct Run {
    image: Vec<u8>,
    papers: Vec<Paper>,
}

/// A run and the turned one, and how many lanes they have, if they are of lanes.
struct List {
    runs: [Run; 2],
    lanes: Option<u32>,
}

impl List {
    fn images(&self) -> [Vec<u8>; 2] {
        self.runs.each_ref().map(|run| run.image.clone())
    }

    /// What the last calls left of each lane.
    fn fed(&self) -> Result<[Vec<Fed<Shown>>; 2], String> {
        let fed = |run: &Run| match self.lanes {
            Some(_) => lane_image::fed(&run.image),
            None => image::fed(&run.image).map(|fed| vec![fed]),
        };
        match self.runs.each_ref().map(fed) {
            [Ok(fed), Ok(other)] => Ok([fed, other]),
            _ => Err("an image is left that is refused".to_string()),
        }
    }
}

/// A call and the turned one, with their answers.
struct Made {
    calls: [Call; 2],
    answers: [Answer; 2],
}

impl Made {
    fn told(&self, what: &str) -> String {
        let block = |run: usize| calls::block(&self.calls[run], &self.answers[run], &Left::new());
        format!("{what}\nthe call:\n{}the turned one:\n{}{what}", block(0), block(1))
    }

    fn input(&self, run: usize) -> Vec<i16> {
        host::samples(&self.calls[run].buffers[1])
    }

    fn output(&self, run: usize) -> Vec<i16> {
        host::samples(&self.answers[run].buffers[2])
    }
}

impl Drawn<'_> {
    fn list(&mut self, on_lanes: bool) -> Result<(), String> {
        let mut list = self.start(on_lanes)?;
        for _ in 0..2 + self.random.below(14) {
            match self.random.below(4) {
                0 => self.retune(&mut list)?,
                _ => self.feed(&mut list)?,
            }
        }
        Ok(())
    }

    /// An accepted start, on images with different contents.
    fn start(&mut self, on_lanes: bool) -> Result<List, String> {
        let random = &mut self.random;
        let lanes = on_lanes.then(|| 1 + random.below(MOST as u64) as u32);
        let (name, length) = match lanes {
            Some(_) => ("start_lanes", lane_image::LENGTH),
            None => ("start", image::LENGTH),
        };
        let (kernel, phase) = (random.below(4) as u32, phase(random));
        let mut settings = std::iter::repeat_with(|| setting(random));
        let setting = settings.find(|&setting| settings::word(setting).is_ok()).unwrap();
        let paper = Paper::start(kernel, setting, phase).ok_or("a start is refused on paper")?;
        let papers = vec![paper; lanes.unwrap_or(1) as usize];
        let images = [vec![0xee; length], random.bytes(length)];
        let runs = images.map(|image| Run { image, papers: papers.clone() });
        let mut list = List { runs, lanes };
        let start = |image| host::start(name, image, kernel, setting, phase);
        let calls = list.images().map(start);
        self.both(&mut list, calls)?;
        Ok(list)
    }

    fn retune(&mut self, list: &mut List) -> Result<(), String> {
        let setting = setting(&mut self.random);
        let name = if list.lanes.is_some() { "retune_lanes" } else { "retune" };
        let calls = list.images().map(|image| host::retune(name, image, setting));
        self.both(list, calls)?;
        list.runs
            .iter_mut()
            .flat_map(|run| &mut run.papers)
            .for_each(|paper| paper.retune(setting));
        Ok(())
    }

    /// A feed, now and then with a length that is refused. The outputs have different old contents.
    fn feed(&mut self, list: &mut List) -> Result<(), String> {
        let random = &mut self.random;
        let count = list.lanes.unwrap_or(1) as usize;
        let bits = if list.lanes.is_some() { 8 } else { 12 };
        let (taken, written) =
            (random.magnitude(bits) as usize, random.magnitude(bits + 1) as usize);
        let samples = (0..count).flat_map(|_| samples(random, taken)).collect::<Vec<i16>>();
        let mut inputs =
            [samples.clone(), turned::turned(&samples)].map(|samples| host::bytes(&samples));
        let mut outputs = [vec![0xee; 2 * written * count], random.bytes(2 * written * count)];
        if random.one_in(16) {
            let spoilt = if random.one_in(2) { &mut inputs } else { &mut outputs };
            spoilt.iter_mut().for_each(|buffer| buffer.push(0));
        }
        let feed = |(image, (input, output))| match list.lanes {
            Some(count) => host::feed_lanes(image, count, input, output),
            None => host::feed(image, input, output),
        };
        let [image, other] = list.images();
        let ([input, other_input], [output, other_output]) = (inputs, outputs);
        let calls = [(image, (input, output)), (other, (other_input, other_output))].map(feed);
        let made = self.both(list, calls)?;
        match made.answers[0].result {
            0 => self.hold(list, &made).map_err(|what| made.told(&what)),
            _ => Ok(()),
        }
    }

    /// Makes a call and the turned one, which are accepted or refused alike.
    fn both(&mut self, list: &mut List, calls: [Call; 2]) -> Result<Made, String> {
        let answers = [(self.answer)(&calls[0])?, (self.answer)(&calls[1])?];
        let made = Made { calls, answers };
        let [result, other] = made.answers.each_ref().map(|answer| answer.result);
        if result != other {
            return Err(made.told("the call and the turned one are refused differently"));
        }
        self.counts.refused += (result != 0) as u64;
        for (run, answer) in list.runs.iter_mut().zip(&made.answers) {
            run.image = answer.buffers[0].clone();
        }
        let states = list.fed().and_then(|[fed, others]| turned::states(&fed, &others));
        states.map_err(|what| made.told(&what))?;
        Ok(made)
    }

    /// Holds accepted feeds to the request, lane by lane, and each to demand 3.
    fn hold(&mut self, list: &mut List, made: &Made) -> Result<(), String> {
        let fed = list.fed()?;
        let (inputs, outputs) =
            ([0, 1].map(|run| made.input(run)), [0, 1].map(|run| made.output(run)));
        let count = list.runs[0].papers.len();
        let pair = |lane: usize| -> Pair {
            [0, 1].map(|run| {
                let places = &outputs[run][lanes::part(outputs[run].len(), count, lane)];
                let fed = &fed[run][lane];
                (fed, &places[..fed.written.min(places.len())])
            })
        };
        (0..count).try_for_each(|lane| turned::feeds(pair(lane)))?;
        let mut exact = [Vec::new(), Vec::new()];
        for (run, exact) in exact.iter_mut().enumerate() {
            let papers = &mut list.runs[run].papers;
            let seen = |seen: &judge::Seen| exact.push(seen.exact);
            judge::feed_lanes(papers, count, &inputs[run], &outputs[run], &fed[run], seen)?;
        }
        for lane in 0..count {
            let kernel = fed[0][lane].state.kernel;
            let values = &exact[0][lanes::part(exact[0].len(), count, lane)];
            let rounded = values.iter().map(|&value| kernels::rounded(kernel, value));
            turned::sides(pair(lane), &rounded.collect::<Vec<i128>>())?;
            self.counts.wrote(pair(lane), values);
        }
        self.counts.ended(fed[0][0].end);
        Ok(())
    }
}

/// Any setting, accepted or not; or a word of sixteenths of a sample, mostly a half.
fn setting(random: &mut Random) -> Setting {
    match random.below(4) {
        0 => generate::setting(random),
        1 => Setting::Word((1 + random.below(48)) << 28),
        _ => Setting::Word(1 << 31),
    }
}

/// Any phase, or one of sixteenths of a sample.
fn phase(random: &mut Random) -> u32 {
    match random.below(4) {
        0 => generate::phase(random),
        1 => halves::sixteenths(random),
        _ => random.pick(&[0, 1 << 31]),
    }
}

/// Samples, none of them −32768: quiet noise, near to an outermost one, and of any kind.
fn samples(random: &mut Random, length: usize) -> Vec<i16> {
    let side = random.pick(&[-1, 1]);
    match random.below(6) {
        0 | 1 => (0..length).map(|_| random.below(65) as i16 - 32).collect(),
        2 | 3 => (0..length).map(|_| side * (32767 - random.below(8) as i16)).collect(),
        _ => generate::samples(random, length).into_iter().map(|x| x.max(-32767)).collect(),
    }
}
