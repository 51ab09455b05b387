//! Lanes: up to sixteen sensors on one clock, fed in one call. Request U1.

use crate::clips::Clips;
use crate::settings::Setting;
use crate::state::{self, End, State};

pub const MOST: usize = 16;

/// "All lanes share kernel, word, register and needed count; each has its own newest four samples":
/// the state of lane 0, which has what they share, and the windows of the others.
#[derive(Clone, Copy, Debug, Default, PartialEq, Eq)]
pub struct Lanes {
    pub first: State,
    pub others: [[i16; 4]; MOST - 1],
}

/// What a feed returns. Samples taken, outputs written and the end are those of every lane; of
/// clips there are two counts "for each lane" (request U5).
#[derive(Clone, Copy, Debug)]
pub struct Fed {
    pub lanes: Lanes,
    pub taken: usize,
    pub written: usize,
    pub clips: [Clips; MOST],
    pub end: End,
}

impl Lanes {
    /// The state of a lane alone.
    pub fn state(&self, lane: usize) -> State {
        match lane {
            0 => self.first,
            _ => State { window: self.others[lane - 1], ..self.first },
        }
    }

    pub fn states(&self) -> Vec<State> {
        (0..MOST).map(|lane| self.state(lane)).collect()
    }

    /// What a call that feeds nothing hands back: the lanes, "with counts 0".
    pub fn unfed(self) -> Fed {
        let clips = [Clips::default(); MOST];
        Fed { lanes: self, taken: 0, written: 0, clips, end: End::Hungry }
    }
}

impl Fed {
    /// What the feed returned of a lane that it reached, as if that were alone.
    pub fn lane(&self, lane: usize) -> state::Fed {
        let Fed { lanes, taken, written, clips, end } = *self;
        state::Fed { state: lanes.state(lane), taken, written, clips: clips[lane], end }
    }

    pub fn each(&self) -> Vec<state::Fed> {
        (0..MOST).map(|lane| self.lane(lane)).collect()
    }
}

/// Fresh lanes, every window zero, or a refusal as that of a single start.
pub fn start(kernel: u32, setting: Setting, phase: u32) -> Result<Lanes, u32> {
    Ok(Lanes { first: state::start(kernel, setting, phase)?, others: [[0; 4]; MOST - 1] })
}

/// Replaces the word, which all lanes share.
pub fn retune(lanes: Lanes, setting: Setting) -> Result<Lanes, u32> {
    Ok(Lanes { first: state::retune(lanes.first, setting)?, ..lanes })
}

/// The part of a buffer that is a lane's: "lanes that lie one after another in the input and output
/// buffers".
pub fn part(length: usize, count: usize, lane: usize) -> std::ops::Range<usize> {
    let part = length / count;
    lane * part..(lane + 1) * part
}

/// "The outcome equals feeding each lane alone, lane by lane"; "lanes beyond the lane count keep
/// their windows and report clip count 0".
pub fn feed(lanes: Lanes, count: u32, input: &[i16], output: &mut [i16]) -> Result<Fed, u32> {
    state::check(&lanes.first)?;
    let count = check(count, [input.len(), output.len()])?;
    let mut fed = lanes.unfed();
    for lane in 0..count {
        let places = part(output.len(), count, lane);
        let input = &input[part(input.len(), count, lane)];
        let alone = state::feed(lanes.state(lane), input, &mut output[places])?;
        fed.clips[lane] = alone.clips;
        match lane {
            0 => {
                fed.lanes.first = alone.state;
                (fed.taken, fed.written, fed.end) = (alone.taken, alone.written, alone.end);
            }
            _ => fed.lanes.others[lane - 1] = alone.state.window,
        }
        // What the lanes share does not depend on their samples.
        assert_eq!(fed.lane(lane), alone);
    }
    Ok(fed)
}

/// "13, lane count 0 or above 16, or buffer lengths that are not multiples of it; after 5". The
/// count, if it is accepted.
fn check(count: u32, lengths: [usize; 2]) -> Result<usize, u32> {
    let count = count as usize;
    if count == 0 || count > MOST || lengths.iter().any(|length| length % count != 0) {
        return Err(13);
    }
    Ok(count)
}
