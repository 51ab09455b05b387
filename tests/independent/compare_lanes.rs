//! The part of the comparison that is of lanes: what calls on them are drawn, every refusal with
//! every other, and what else a feed of lanes is held to.

use crate::calls;
use crate::compare::{count, described, Comparison, Kind};
use crate::generate;
use crate::halves;
use crate::host::{self, Answer, Call, LARGEST_BUFFER};
use crate::image;
use crate::lane_image;
use crate::lanes::{self, Lanes, MOST};
use crate::settings::{Setting, LARGEST_WORD};

pub const LANES: Kind = Kind {
    has: |row| row.name.contains("_lanes"),
    start: "start_lanes",
    retune: "retune_lanes",
    length: lane_image::LENGTH,
    wild: generate::wild_lanes,
    feed: generate::feed_lanes,
    bad_feed: generate::bad_feed_lanes,
    states: |image| Ok(lane_image::decode(image)?.states()),
    fed: lane_image::fed,
    also: Comparison::lane_by_lane,
};

/// Lengths of images that are none of lanes.
const WRONG_LENGTHS: [usize; 6] = [
    0,
    image::LENGTH,
    lane_image::OLD_LENGTH,
    lane_image::LENGTH - 1,
    lane_image::LENGTH + 1,
    2 * lane_image::LENGTH,
];

/// How many feeds of each kernel begin with every lane at a limit, and how many have a loud lane.
const AT_LIMITS: usize = 400;
const LOUD: usize = 3400;
/// In how many feeds a lane has to clip on both sides.
const ON_BOTH_SIDES: u64 = 10_000;

/// What is counted beside the tally: feeds accepted with 1, 2 and so on lanes, feeds in which a
/// lane clips on both sides, lanes held against a single feed, and changes of one lane's samples.
#[derive(Default)]
pub struct Counts {
    feeds: [u64; MOST],
    on_both_sides: u64,
    alone: u64,
    changed: u64,
}

impl Comparison {
    /// Calls with all refusals, each alone and with the others; lanes at the limits, and loud ones.
    pub fn lanes(&mut self) -> Result<(), String> {
        self.feeds()?;
        self.starts()?;
        self.limits()?;
        self.loud()
    }

    /// Feeds of stored lanes: the first output of each has a value at a limit of holding or a half
    /// past it, and those that follow are made of outermost samples.
    fn limits(&mut self) -> Result<(), String> {
        for kernel in (0..4).flat_map(|kernel| [kernel; AT_LIMITS]) {
            let random = &mut self.random;
            let register = halves::sixteenths(random);
            let limits = halves::limits(kernel);
            let mut state = || {
                let halves = random.pick(&limits);
                halves::at_limit(random, kernel, register, halves)
            };
            let first = state();
            let others = [(); MOST - 1].map(|_| state().window);
            let mut image = lane_image::encode_fresh(Lanes { first, others });
            image.truncate(lane_image::CLIPS);
            image.extend(random.bytes(lane_image::LENGTH - lane_image::CLIPS));
            let count = 1 + random.below(MOST as u64) as usize;
            let (taken, written) = (random.below(7) as usize, 1 + random.below(6) as usize);
            let sample = |_| random.pick(&[i16::MIN, i16::MAX]);
            let input = (0..taken * count).map(sample).collect::<Vec<i16>>();
            let output = vec![0xee; 2 * written * count];
            let call = host::feed_lanes(image.clone(), count as u32, host::bytes(&input), output);
            let mut chain = self.stored(image);
            self.feed(&mut chain, &call)?;
        }
        Ok(())
    }

    /// Feeds with every good lane count and with bad ones, with lengths that fit it and that do not, of
    /// images that are good and bad: refusals 5, 12 and 13, each alone and with the others.
    fn feeds(&mut self) -> Result<(), String> {
        for image in self.images() {
            for count in (1..=MOST as u32).chain(generate::BAD_COUNTS) {
                for (taken, written) in lengths(count.clamp(1, 17) as usize) {
                    let input = self.random.bytes(taken);
                    let call = host::feed_lanes(image.clone(), count, input, vec![0xee; written]);
                    let mut chain = self.stored(image.clone());
                    self.feed(&mut chain, &call)?;
                }
            }
        }
        Ok(())
    }

    /// Feeds of up to four fresh lanes, one of them with outermost samples, at words that give one
    /// or two outputs a sample: most of them clip on both sides in that lane.
    fn loud(&mut self) -> Result<(), String> {
        for kernel in (1..4).flat_map(|kernel| [kernel; LOUD]) {
            let random = &mut self.random;
            let word = (1 << 31) + random.below(1 << 31);
            let fresh = lanes::start(kernel, Setting::Word(word), generate::phase(random));
            let image =
                fresh.map(lane_image::encode_fresh).map_err(|refusal| refusal.to_string())?;
            let count = 1 + random.below(4) as u32;
            let (loud, taken) = (random.below(count as u64) as u32, 24 + random.below(24) as usize);
            let samples = |lane| match lane == loud {
                true => (0..taken).map(|_| random.pick(&[i16::MIN, i16::MAX])).collect(),
                false => generate::samples(random, taken),
            };
            let input = (0..count).flat_map(samples).collect::<Vec<i16>>();
            let output = vec![0xee; 4 * taken * count as usize];
            let call = host::feed_lanes(image.clone(), count, host::bytes(&input), output);
            let mut chain = self.stored(image);
            self.feed(&mut chain, &call)?;
        }
        Ok(())
    }

    /// A good image of each kernel, and images with each fault.
    fn images(&mut self) -> Vec<Vec<u8>> {
        let good = generate::wild_lanes(&mut self.random);
        let with = |place: usize, bytes: &[u8]| {
            let mut image = good.clone();
            image[place..][..bytes.len()].copy_from_slice(bytes);
            image
        };
        let cut = |length: usize| {
            let mut image = good.clone();
            image.resize(length, 0);
            image
        };
        let mut images = Vec::new();
        images.extend([0, 1, 2, 3, 4].map(|kernel| with(image::KERNEL, &[kernel])));
        images.push(with(image::NEEDED, &[5]));
        images.extend([0, 1].map(|place| with(image::ZEROS + place, &[0x80])));
        images.extend([0, LARGEST_WORD + 1].map(|word| with(image::WORD, &word.to_le_bytes())));
        images.extend(WRONG_LENGTHS.map(cut));
        images
    }

    /// Starts with each of the refusals 1 to 4 and with none, each with 5 and without.
    fn starts(&mut self) -> Result<(), String> {
        let settings = [
            Setting::Word(0),
            Setting::Word(1),
            Setting::Word(LARGEST_WORD),
            Setting::Word(LARGEST_WORD + 1),
            Setting::Ratio(f64::NAN.to_bits()),
            Setting::Ratio((-1.0f64).to_bits()),
            Setting::Ratio(0.0f64.to_bits()),
            Setting::Ratio(1.25f64.to_bits()),
            Setting::Rates(48000, 0),
            Setting::Rates(0, 48000),
            Setting::Rates(44100, 48000),
        ];
        for kernel in [0, 1, 2, 3, 4, 255, 256, u32::MAX] {
            for setting in settings {
                for length in WRONG_LENGTHS.into_iter().chain([lane_image::LENGTH]) {
                    let random = &mut self.random;
                    let (image, phase) = (random.bytes(length), generate::phase(random));
                    let call = host::start(LANES.start, image, kernel, setting, phase);
                    self.answer(&call)?;
                }
            }
        }
        Ok(())
    }

    /// Prints what was counted; a comparison that misses some of it says nothing.
    pub fn tell_lanes(&self) -> Result<(), String> {
        let Counts { feeds, on_both_sides, alone, changed } = &self.counts;
        let each = feeds.map(|count| format!(" {count}")).concat();
        println!("feeds accepted with 1 to {MOST} lanes:{each}");
        println!("feeds in which a lane clips on both sides: {on_both_sides}");
        if *on_both_sides < ON_BOTH_SIDES {
            return Err(format!("fewer than {ON_BOTH_SIDES} of these: compare more"));
        }
        println!(
            "{alone} lanes are fed as each alone; {changed} changes of one lane changed no other"
        );
        match feeds.contains(&0) || *changed == 0 {
            true => Err("a lane count was never accepted, or no lane changed".to_string()),
            false => Ok(()),
        }
    }

    /// What an accepted feed of lanes is held to beside demand 3.
    fn lane_by_lane(&mut self, call: &Call, answer: &Answer) -> Result<(), String> {
        let count = count(call);
        self.counts.feeds[count - 1] += 1;
        self.counts.on_both_sides += lane_image::on_both_sides(&answer.buffers[0]) as u64;
        for lane in 0..count {
            self.alone(call, answer, lane)?;
        }
        match self.random.one_in(8) {
            true => self.change(call, answer),
            false => Ok(()),
        }
    }

    /// "The outcome equals feeding each lane alone, lane by lane", here by the library itself.
    fn alone(&mut self, call: &Call, answer: &Answer, lane: usize) -> Result<(), String> {
        let part = |buffer: &[u8]| buffer[lanes::part(buffer.len(), count(call), lane)].to_vec();
        let image = lane_image::alone(&call.buffers[0], lane);
        let single = host::feed(image, part(&call.buffers[1]), part(&call.buffers[2]));
        let image = lane_image::alone(&answer.buffers[0], lane);
        let buffers = vec![image, single.buffers[1].clone(), part(&answer.buffers[2])];
        let expected = Answer { result: 0, buffers };
        let found = self.library.answer(&single);
        let told = |what: &str| {
            let what = format!("lane {lane} alone is fed otherwise: {what}");
            described(&what, &single, &expected)
        };
        let found = found.map_err(|what| told(&what))?;
        if found != expected {
            return Err(told(&calls::difference(&single, &expected, &found)));
        }
        self.counts.alone += 1;
        Ok(())
    }

    /// "Changing one lane's samples changes only that lane's outputs, its window and its clip
    /// count."
    fn change(&mut self, call: &Call, answer: &Answer) -> Result<(), String> {
        let lane = self.random.below(count(call) as u64) as usize;
        let part = |buffer: &[u8]| lanes::part(buffer.len(), count(call), lane);
        let mut other = call.clone();
        let samples = &mut other.buffers[1][part(&call.buffers[1])];
        samples.copy_from_slice(&self.random.bytes(samples.len()));
        let mut changed = self.answer(&other)?.buffers;
        lane_image::put(&mut changed[0], &answer.buffers[0], lane);
        let outputs = part(&changed[2]);
        changed[2][outputs.clone()].copy_from_slice(&answer.buffers[2][outputs]);
        if (&changed[0], &changed[2]) != (&answer.buffers[0], &answer.buffers[2]) {
            let what = format!("other samples in lane {lane} change more than that lane");
            return Err(described(&what, &other, answer));
        }
        self.counts.changed += 1;
        Ok(())
    }
}

/// Lengths in bytes of input and output: three samples and two places for each lane, and empty; one
/// sample more than fits; a multiple in bytes that need not be one in samples; odd and above the
/// largest.
fn lengths(count: usize) -> Vec<(usize, usize)> {
    let (fits, space) = (6 * count, 4 * count);
    let large = LARGEST_BUFFER + 2;
    let mut lengths = vec![(fits, space), (0, space), (fits, 0), (0, 0)];
    lengths.extend([(fits + 2, space), (fits, space + 2), (fits + 2, space + 2)]);
    lengths.extend([(3 * count, space), (fits, 3 * count)]);
    lengths.extend([(fits + 1, space), (fits, space + 1), (fits + 1, space + 1)]);
    lengths.extend([(large, space), (fits, large), (large + 1, large - 1)]);
    lengths
}
