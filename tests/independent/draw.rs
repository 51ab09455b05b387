//! The cases that the programs `check_values` and `check_runs` draw, number by number as they do:
//! settings, phases, samples and states. `check_queue` draws its numbers in the same way.

use crate::settings::{Setting, LARGEST_WORD};
use crate::state::State;

/// The longest input and output that are drawn, for a converter alone and for lanes.
pub const PLACES: usize = 40;
pub const LANE_PLACES: usize = 160;

/// The number that the next one is made of; a seed at first.
pub struct Draw(pub u64);

impl Draw {
    /// From 0 to `limit` − 1; the limit is at most 2^16.
    pub fn below(&mut self, limit: u64) -> u64 {
        self.0 = (self.0 * 1103515245 + 12345) % (1 << 31);
        (self.0 >> 15) % limit
    }

    /// A number of 32 bits.
    pub fn long(&mut self) -> u64 {
        self.below(65536) << 16 | self.below(65536)
    }

    /// Any number, every second one or so a kernel's.
    pub fn kernel(&mut self) -> u32 {
        let limit = if self.below(2) == 0 { 256 } else { 4 };
        self.below(limit) as u32
    }

    fn word(&mut self) -> u64 {
        match self.below(16) {
            0 => 1,
            1 => 1 << 31,
            2 => 1 << 32,
            3 => LARGEST_WORD,
            4 => 0,
            5 => LARGEST_WORD - 1 + self.below(3),
            6 | 7 => self.long() >> self.below(32),
            8..=11 => self.long(),
            _ => self.long() * 4 + self.below(4),
        }
    }

    fn rate(&mut self) -> u32 {
        let rates = [0, 11025, 32000, 44100, 48000, 88200, 96000, 176400];
        rates[self.below(8) as usize]
    }

    /// A half, one and a half and so on words, and around the limits.
    fn ratio(&mut self) -> f64 {
        let two = |power: i32| 2f64.powi(power);
        match self.below(16) {
            0..=7 => self.long() as f64 / two(33),
            8 => 0.0,
            9 => -1.0,
            10 => f64::INFINITY,
            11 => two(-34),
            12 => two(-33),
            13 => 4.0 + two(-34),
            14 => 4.0 + two(-33),
            _ => 1.0 / 3.0,
        }
    }

    /// A setting of any of the three forms, accepted or not.
    pub fn setting(&mut self) -> Setting {
        match self.below(8) {
            0..=3 => Setting::Word(self.word()),
            4 | 5 => {
                let size = self.below(32);
                let fin = self.long() >> size;
                Setting::Rates(fin as u32, (self.long() >> size) as u32)
            }
            6 => Setting::Rates(self.rate(), self.rate()),
            _ => Setting::Ratio(self.ratio().to_bits()),
        }
    }

    pub fn phase(&mut self) -> u32 {
        let corners = [0, 0x7fffffff, 0x80000000, 0xc0000000, 0xffffffff];
        let kind = self.below(10) as usize;
        corners.get(kind).copied().unwrap_or_else(|| self.long() as u32)
    }

    /// A small sample (kind 0), an outermost one (1) or any (2).
    fn sample(&mut self, kind: u64) -> i16 {
        match kind {
            0 => {
                let size = self.below(100) as i16;
                [size, -1 - size][self.below(2) as usize]
            }
            1 => [i16::MIN, i16::MAX][self.below(2) as usize],
            _ => self.below(65536) as i16,
        }
    }

    /// So many samples of one kind.
    pub fn samples(&mut self, count: usize) -> Vec<i16> {
        let kind = self.below(3);
        (0..count).map(|_| self.sample(kind)).collect()
    }

    /// A number of samples, from 0 to `PLACES`.
    pub fn length(&mut self) -> usize {
        let limit = if self.below(4) == 0 { 4 } else { PLACES as u64 + 1 };
        self.below(limit) as usize
    }

    /// A number of samples for so many lanes, from 0 to `LANE_PLACES`: mostly a multiple.
    pub fn lane_length(&mut self, count: u32) -> usize {
        match self.below(8) {
            0 => self.below(LANE_PLACES as u64 + 1) as usize,
            _ => self.below(9) as usize * count as usize,
        }
    }

    /// A state that is accepted, whether or not a run reaches it, or one with a field that is not.
    pub fn state(&mut self) -> State {
        let mut state = State {
            kernel: self.below(4) as u8,
            needed: self.below(5) as u8,
            register: self.phase(),
            word: self.long() + 1,
            window: self.samples(4).try_into().unwrap(),
        };
        match self.below(12) {
            0 => state.kernel = 4 + self.below(252) as u8,
            1 => state.needed = 5 + self.below(251) as u8,
            2 => state.word = 0,
            3 => state.word = LARGEST_WORD + 1 + self.long(),
            4 => state.word = u64::MAX,
            5 => state.word = LARGEST_WORD,
            _ => (),
        }
        state
    }
}
