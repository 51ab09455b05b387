//! What the program `check_runs` must write: for each of seven groups of drawn lists of calls a hash
//! over all that the calls answered, and totals. A list that begins with an accepted start is also
//! held to demand 3, call by call.

use crate::clips::Clips;
use crate::draw::{Draw, PLACES};
use crate::judge;
use crate::lane_runs;
use crate::paper::Paper;
use crate::settings::Setting;
use crate::state::{self, End, Fed, State};

const GROUPS: [&str; 7] =
    ["kernel 0", "kernel 1", "kernel 2", "kernel 3", "any kernel", "states handed in", "lanes"];
const HANDED_IN: usize = 5;
const LANES: usize = 6;
/// The lists of a group, and the calls of a list after its start.
const LISTS: usize = 200;
pub const CALLS: usize = 12;

pub fn lines() -> Result<String, String> {
    (0..GROUPS.len()).map(line).collect()
}

fn line(number: usize) -> Result<String, String> {
    let name = GROUPS[number];
    let mut group = Group { number, draw: Draw(number as u64), tally: Tally::default() };
    for list in 0..LISTS {
        let done = match number {
            LANES => lane_runs::list(&mut group.draw, &mut group.tally),
            _ => group.list(),
        };
        done.map_err(|what| format!("{name}, list {list}: {what}"))?;
    }
    Ok(format!("{name}: {}\n", group.tally.totals()))
}

/// The calls of a group: a hash of what they answered, and totals.
#[derive(Default)]
pub struct Tally {
    hash: u64,
    calls: usize,
    taken: usize,
    written: usize,
    clips: Clips,
    refused: usize,
}

impl Tally {
    pub fn mix(&mut self, numbers: &[u64]) {
        for number in numbers {
            self.hash = (self.hash * 65599 + number) % (1 << 47);
        }
    }

    pub fn mix_samples(&mut self, samples: &[i16]) {
        for &sample in samples {
            self.mix(&[sample as u16 as u64]);
        }
    }

    /// A call that returned the state, of lanes with the windows of the others, and a refusal or 0.
    pub fn answered(&mut self, state: &State, others: &[[i16; 4]], refusal: u32) {
        let State { kernel, needed, register, word, window } = *state;
        self.mix(&[kernel.into(), needed.into(), register.into(), word % (1 << 32), word >> 32]);
        self.mix_samples(&window);
        self.mix_samples(others.as_flattened());
        self.called(refusal);
    }

    /// A call that returned a refusal or 0, after what else it returned.
    pub fn called(&mut self, refusal: u32) {
        self.mix(&[refusal.into()]);
        self.calls += 1;
        self.refused += (refusal != 0) as usize;
    }

    /// A feed after its answer, with the clips of each lane, and the whole buffer that its output
    /// places are the first of.
    pub fn fed(&mut self, fed: &Fed, clips: &[Clips], buffer: &[i16]) {
        self.mix(&[fed.taken as u64, fed.written as u64]);
        for &clips in clips {
            self.mix(&[clips.high as u64, clips.low as u64]);
            self.clips.add(clips);
        }
        self.mix(&[(fed.end == End::Full).into()]);
        self.mix_samples(buffer);
        self.taken += fed.taken;
        self.written += fed.written;
    }

    /// The hash and the totals in words.
    pub fn totals(&self) -> String {
        let Tally { hash, calls, taken, written, clips: Clips { high, low }, refused } = self;
        format!(
            "{calls} calls, hash {hash}, taken {taken}, written {written}, high {high}, \
             low {low}, refused {refused}"
        )
    }
}

/// The state that the last call of a list returned, and the paper's run beside it; none where the
/// list does not begin with an accepted start.
struct List {
    state: State,
    paper: Option<Paper>,
}

struct Group {
    number: usize,
    draw: Draw,
    tally: Tally,
}

impl Group {
    fn list(&mut self) -> Result<(), String> {
        let mut list = match self.number {
            HANDED_IN => List { state: self.draw.state(), paper: None },
            _ => self.start()?,
        };
        for _ in 0..CALLS {
            self.call(&mut list)?;
        }
        Ok(())
    }

    /// The kernel of the group, or any.
    fn kernel(&mut self) -> u32 {
        match self.number {
            0..=3 => self.number as u32,
            _ => self.draw.kernel(),
        }
    }

    /// A refused start returns "no state": all zeros, which every later call refuses.
    fn start(&mut self) -> Result<List, String> {
        let (kernel, setting, phase) = (self.kernel(), self.draw.setting(), self.draw.phase());
        let answer = state::start(kernel, setting, phase);
        let state = answer.unwrap_or_default();
        self.tally.answered(&state, &[], answer.err().unwrap_or(0));
        let paper = Paper::start(kernel, setting, phase);
        paper.iter().try_for_each(|paper| judge::state(paper, &state))?;
        Ok(List { state, paper })
    }

    fn call(&mut self, list: &mut List) -> Result<(), String> {
        let draw = &mut self.draw;
        if self.number == HANDED_IN && draw.below(2) == 0 {
            list.state = draw.state();
        }
        if draw.below(6) == 0 {
            let setting = draw.setting();
            return self.retune(list, setting);
        }
        let (length, space) = (draw.length(), draw.length());
        let (samples, mut buffer) = (draw.samples(PLACES), draw.samples(PLACES));
        self.feed(list, &samples[..length], &mut buffer, space)
    }

    fn retune(&mut self, list: &mut List, setting: Setting) -> Result<(), String> {
        let answer = state::retune(list.state, setting);
        list.state = answer.unwrap_or(list.state);
        self.tally.answered(&list.state, &[], answer.err().unwrap_or(0));
        match &mut list.paper {
            Some(paper) => judge::retune(paper, setting, &list.state),
            None => Ok(()),
        }
    }

    /// Lends the first places of the buffer, as many as the space.
    fn feed(
        &mut self,
        list: &mut List,
        input: &[i16],
        buffer: &mut [i16],
        space: usize,
    ) -> Result<(), String> {
        let answer = state::feed(list.state, input, &mut buffer[..space]);
        let fed = answer.unwrap_or(list.state.unfed());
        list.state = fed.state;
        self.tally.answered(&list.state, &[], answer.err().unwrap_or(0));
        self.tally.fed(&fed, &[fed.clips], buffer);
        if let Some(paper) = &mut list.paper {
            // "No feed in such a list is refused."
            answer.map_err(|refusal| format!("a feed is refused with {refusal}"))?;
            judge::feed(paper, input, &buffer[..fed.written], space, &fed, |_| ())?;
        }
        Ok(())
    }
}
