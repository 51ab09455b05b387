//! The paper's run, with exact positions and fractions. Document 01, "Feeding" and "Kernels".

use crate::clips::Side;
use crate::kernels::{self, Near};
use crate::oscillator;
use crate::settings::{self, Setting};
use crate::state::{End, State};

/// "It keeps the kernel, a word (the starting one at first), the joined samples (none at first),
/// the number of outputs made (0 at first) and the exact position Q of the next one (P at first),
/// which never wraps."
#[derive(Clone, Debug)]
pub struct Paper {
    kernel: u8,
    word: u64,
    joined: Vec<i16>,
    made: usize,
    position: i128,
}

/// What the paper says of one feed, and where its outputs stand.
pub struct Page {
    pub joined: usize,
    pub made: usize,
    pub end: End,
    first: i128,
}

/// How far an output lies from the paper's value held, and how far it may: over whole numbers,
/// both multiplied by `kernels::scale(kernel, 32)`.
pub struct Distance {
    pub is: i128,
    pub may_be: i128,
}

impl Paper {
    /// After a start that the table accepts.
    pub fn start(kernel: u32, setting: Setting, phase: u32) -> Option<Paper> {
        let word = settings::word(setting).ok().filter(|_| kernel <= 3)?;
        let (kernel, position) = (kernel as u8, phase as i128);
        Some(Paper { kernel, word, joined: Vec::new(), made: 0, position })
    }

    /// From a stored state that need not come from a start. The window counts as four samples
    /// joined; the basepoint is the one that leaves `needed` samples to come: b + R + 1 − 4.
    pub fn resume(state: &State) -> Paper {
        let kernel = state.kernel;
        let basepoint = state.needed as i128 + 3 - kernels::reach(kernel);
        let fraction = oscillator::fraction(kernel, state.register as i128);
        Paper {
            kernel,
            word: state.word,
            joined: state.window.to_vec(),
            made: 0,
            position: basepoint * oscillator::ONE + fraction,
        }
    }

    pub fn kernel(&self) -> u8 {
        self.kernel
    }

    /// The number of outputs made.
    pub fn made(&self) -> usize {
        self.made
    }

    /// How many outputs the paper has over the joined samples: "the outputs k = 0, 1, 2 and so on
    /// before the first whose b + R is n or more (positions still ahead go on by the word in force)".
    pub fn has(&self) -> usize {
        self.made + self.standing(self.joined.len()) as usize
    }

    /// The state of the card by now: its register "holds Q modulo 2^32", and before the output at Q
    /// it needs b + R + 1 − n samples.
    pub fn state(&self) -> State {
        let joined = self.joined.len() as i128;
        State {
            kernel: self.kernel,
            needed: (self.newest(self.position) + 1 - joined) as u8,
            register: oscillator::register(self.position),
            word: self.word,
            window: [4, 3, 2, 1].map(|back| self.sample(joined - back) as i16),
        }
    }

    /// b + R of a position.
    fn newest(&self, position: i128) -> i128 {
        oscillator::basepoint(self.kernel, position) + kernels::reach(self.kernel)
    }

    /// How many outputs "stand before the first whose b + R is n or more": how many terms of
    /// Q, Q + W, Q + 2W and so on lie below the first position with that basepoint.
    fn standing(&self, samples: usize) -> i128 {
        let basepoint = samples as i128 - kernels::reach(self.kernel);
        let rounding = if self.kernel == 1 { oscillator::ONE / 2 } else { 0 };
        let limit = basepoint * oscillator::ONE - rounding;
        let word = self.word as i128;
        (limit - self.position + word - 1).div_euclid(word).max(0)
    }

    /// "Feed with L input samples and space S, n samples joined before".
    pub fn feed(&mut self, input: &[i16], space: usize) -> Page {
        let before = self.joined.len();
        let standing = self.standing(before + input.len());
        let first = self.position;
        let page = if standing <= space as i128 {
            // "If c is at most S, the paper joins all L samples and makes c outputs: HUNGRY."
            Page { joined: input.len(), made: standing as usize, end: End::Hungry, first }
        } else {
            // "Otherwise it makes S outputs, and joins the first b + R + 1 − n of the input, b
            // being the basepoint of the position after those outputs: FULL."
            let after = first + space as i128 * self.word as i128;
            let joined = (self.newest(after) + 1 - before as i128) as usize;
            Page { joined, made: space, end: End::Full, first }
        };
        self.joined.extend(&input[..page.joined]);
        self.made += page.made;
        // "Either way Q becomes the position after the outputs made."
        self.position = first + page.made as i128 * self.word as i128;
        page
    }

    /// "Retune: where the table refuses its arguments, nothing changes. Otherwise the word is
    /// replaced."
    pub fn retune(&mut self, setting: Setting) {
        if let Ok(word) = settings::word(setting) {
            self.word = word;
        }
    }

    /// The position of output k of the feed that gave the page. The word is still the feed's.
    pub fn position(&self, page: &Page, k: usize) -> i128 {
        page.first + k as i128 * self.word as i128
    }

    /// "Samples before the first are zero."
    fn sample(&self, index: i128) -> i64 {
        match usize::try_from(index) {
            Ok(index) => self.joined[index] as i64,
            Err(_) => 0,
        }
    }

    fn near(&self, position: i128) -> Near {
        let b = oscillator::basepoint(self.kernel, position);
        let two = kernels::reach(self.kernel) == 2;
        Near {
            xm: self.sample(b - 1),
            x0: self.sample(b),
            x1: self.sample(b + 1),
            x2: if two { self.sample(b + 2) } else { 0 },
        }
    }

    /// "the value of demand 2 at the paper's basepoint and at m of the paper's fraction, over the
    /// joined samples", and its side.
    pub fn output(&self, position: i128) -> (i16, Side) {
        kernels::output(self.kernel, self.exact(position))
    }

    /// The same before it is rounded, times `kernels::scale(kernel, 14)`.
    pub fn exact(&self, position: i128) -> i128 {
        kernels::value(self.kernel, &self.near(position), self.m(position), 14)
    }

    fn m(&self, position: i128) -> i128 {
        oscillator::filter_fraction(oscillator::fraction(self.kernel, position))
    }

    /// "The paper's value in demand 3 is the same formula at u = f/2^32, held but not rounded." This
    /// is the value before holding, times `kernels::scale(kernel, 32)`.
    pub fn value(&self, position: i128) -> i128 {
        let fraction = oscillator::fraction(self.kernel, position);
        kernels::value(self.kernel, &self.near(position), fraction, 32)
    }

    /// The same after holding.
    pub fn held(&self, position: i128) -> i128 {
        let scale = kernels::scale(self.kernel, 32);
        self.value(position).clamp(-32768 * scale, 32767 * scale)
    }

    /// "D is the largest absolute difference between neighbours".
    pub fn jump(&self, position: i128) -> i128 {
        kernels::largest_jump(self.kernel, &self.near(position))
    }

    /// Output k "lies at most 1/2 + D/K from the paper's value held to 16 bits" (demand 3). K is the
    /// row's denominator times a power of two, so that `scale` times D/K is whole.
    pub fn distance(&self, position: i128, output: i16) -> Distance {
        let scale = kernels::scale(self.kernel, 32);
        let jump = scale / kernels::bound_divisor(self.kernel) * self.jump(position);
        let is = (output as i128 * scale - self.held(position)).abs();
        Distance { is, may_be: scale / 2 + jump }
    }
}
