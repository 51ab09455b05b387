//! The paper's run with a queue of its own, which is a list. It is given the arguments of the calls
//! alone, and never what the card's queue held. Request U7.

use crate::clips::Shown;
use crate::judge::{self, Seen};
use crate::paper::{Page, Paper};
use crate::settings::Setting;
use crate::state::{Fed, State};

#[derive(Clone)]
pub struct QueuePaper {
    paper: Paper,
    list: Vec<i16>,
    /// How many samples the buffer has.
    length: usize,
    /// The samples of the accepted pushes, and those that the draws joined.
    pushed: Vec<i16>,
    drawn: Vec<i16>,
}

impl QueuePaper {
    /// With nothing in the list.
    pub fn new(paper: Paper, length: usize) -> QueuePaper {
        QueuePaper { paper, list: Vec::new(), length, pushed: Vec::new(), drawn: Vec::new() }
    }

    /// A push joins its samples where they fit, and is 16 where they do not.
    pub fn push(&mut self, samples: &[i16]) -> u32 {
        if self.list.len() + samples.len() > self.length {
            return 16;
        }
        self.list.extend(samples);
        self.pushed.extend(samples);
        0
    }

    /// A draw is the paper's feed of all of the list, and those that it joins leave the list. The
    /// outputs are those that the card wrote.
    pub fn draw<C: Copy + Into<Shown>>(
        &mut self,
        outputs: &[i16],
        space: usize,
        fed: &Fed<C>,
        seen: impl FnMut(&Seen),
    ) -> Result<Page, String> {
        let page = judge::feed(&mut self.paper, &self.list, outputs, space, fed, seen)?;
        self.drawn.extend(self.list.drain(..page.joined));
        Ok(page)
    }

    pub fn retune(&mut self, setting: Setting, returned: &State) -> Result<(), String> {
        judge::retune(&mut self.paper, setting, returned)
    }

    /// "what was drawn followed by what is held equals the samples of the accepted pushes"
    pub fn nothing_lost(&self, held: &[i16]) -> Result<(), String> {
        let pushed = self.drawn.iter().chain(held).eq(&self.pushed);
        match pushed {
            true => Ok(()),
            false => Err("what was drawn and what is held are not what was pushed".to_string()),
        }
    }

    /// The samples that the paper joined.
    pub fn drawn(&self) -> &[i16] {
        &self.drawn
    }
}
