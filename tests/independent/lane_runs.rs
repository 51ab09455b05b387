//! The group "lanes" of what the program `check_runs` must write: lists of calls on lanes. Each lane
//! of a list that begins with an accepted start is also held to demand 3, call by call, as long as
//! every accepted feed reaches it.

use crate::draw::{Draw, LANE_PLACES};
use crate::judge;
use crate::lanes::{self, Lanes};
use crate::paper::Paper;
use crate::runs::{Tally, CALLS};

/// The lanes that the last call of a list returned, and the papers' runs beside them.
struct List {
    lanes: Lanes,
    papers: Vec<Paper>,
}

pub fn list(draw: &mut Draw, tally: &mut Tally) -> Result<(), String> {
    let mut list = start(draw, tally)?;
    for _ in 0..CALLS {
        match draw.below(6) {
            0 => list.retune(draw, tally)?,
            _ => list.feed(draw, tally)?,
        }
    }
    Ok(())
}

/// A refused start returns lanes of zeros, which every later call refuses.
fn start(draw: &mut Draw, tally: &mut Tally) -> Result<List, String> {
    let (kernel, setting, phase) = (draw.kernel(), draw.setting(), draw.phase());
    let answer = lanes::start(kernel, setting, phase);
    let lanes = answer.unwrap_or_default();
    tally.answered(&lanes.first, &lanes.others, answer.err().unwrap_or(0));
    let paper = Paper::start(kernel, setting, phase);
    let mut papers = paper.map_or(Vec::new(), |paper| vec![paper; lanes::MOST]);
    judge::lanes(&mut papers, &lanes.states())?;
    Ok(List { lanes, papers })
}

impl List {
    fn retune(&mut self, draw: &mut Draw, tally: &mut Tally) -> Result<(), String> {
        let setting = draw.setting();
        let answer = lanes::retune(self.lanes, setting);
        self.lanes = answer.unwrap_or(self.lanes);
        tally.answered(&self.lanes.first, &self.lanes.others, answer.err().unwrap_or(0));
        judge::retune_lanes(&mut self.papers, setting, &self.lanes.states())
    }

    /// Feeds from the first of the samples into the first places of the buffer. A refusal "hands
    /// back the state or slice that came, with counts 0".
    fn feed(&mut self, draw: &mut Draw, tally: &mut Tally) -> Result<(), String> {
        let count = draw.below(20) as u32;
        let (length, space) = (draw.lane_length(count), draw.lane_length(count));
        let (samples, mut buffer) = (draw.samples(LANE_PLACES), draw.samples(LANE_PLACES));
        let input = &samples[..length];
        let answer = lanes::feed(self.lanes, count, input, &mut buffer[..space]);
        let fed = answer.unwrap_or(self.lanes.unfed());
        self.lanes = fed.lanes;
        tally.answered(&self.lanes.first, &self.lanes.others, answer.err().unwrap_or(0));
        tally.fed(&fed.lane(0), &fed.clips, &buffer);
        match answer {
            Ok(fed) => {
                let (papers, output) = (&mut self.papers, &buffer[..space]);
                judge::feed_lanes(papers, count as usize, input, output, &fed.each(), |_| ())
            }
            Err(5) if !self.papers.is_empty() => Err("a feed is refused with 5".to_string()),
            Err(_) => judge::lanes(&mut self.papers, &self.lanes.states()),
        }
    }
}
