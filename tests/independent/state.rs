//! State, start, retune and feed over samples. Document 01, "Feeding".

use crate::clips::{Clips, Side};
use crate::kernels::{self, Near};
use crate::oscillator;
use crate::settings::{self, Setting, LARGEST_WORD};

/// "The state carries kernel, word, register, the newest four samples (oldest first, zeros at the
/// start) and the number of samples still needed before the next output (0 to 4)."
#[derive(Clone, Copy, Debug, Default, PartialEq, Eq)]
pub struct State {
    pub kernel: u8,
    pub needed: u8,
    pub register: u32,
    pub word: u64,
    pub window: [i16; 4],
}

impl State {
    /// What a call that feeds nothing hands back: "the state given, counts 0".
    pub fn unfed(self) -> Fed {
        Fed { state: self, taken: 0, written: 0, clips: Clips::default(), end: End::Hungry }
    }
}

#[derive(Clone, Copy, Debug, PartialEq, Eq)]
pub enum End {
    Hungry,
    Full,
}

/// "It returns state, samples taken, outputs written, clips among them, and FULL or HUNGRY." The
/// clips are two counts (request U5), or what is shown of them.
#[derive(Clone, Copy, Debug, PartialEq, Eq)]
pub struct Fed<C = Clips> {
    pub state: State,
    pub taken: usize,
    pub written: usize,
    pub clips: C,
    pub end: End,
}

/// A fresh state, or the lowest refusal that applies: 1 to 4.
pub fn start(kernel: u32, setting: Setting, phase: u32) -> Result<State, u32> {
    // "1: kernel above 3"
    if kernel > 3 {
        return Err(1);
    }
    let kernel = kernel as u8;
    let word = settings::word(setting)?;
    // "At the start that is b + R + 1."
    let needed = oscillator::basepoint(kernel, phase as i128) + kernels::reach(kernel) + 1;
    Ok(State { kernel, needed: needed as u8, register: phase, word, window: [0; 4] })
}

/// "5: state with kernel above 3, word outside 1..2^34 or needed count above 4"
pub fn check(state: &State) -> Result<(), u32> {
    let word_inside = (1..=LARGEST_WORD).contains(&state.word);
    if state.kernel > 3 || !word_inside || state.needed > 4 {
        return Err(5);
    }
    Ok(())
}

/// "Retune replaces the word only." It "tests 5 first".
pub fn retune(state: State, setting: Setting) -> Result<State, u32> {
    check(&state)?;
    let word = settings::word(setting)?;
    Ok(State { word, ..state })
}

/// The feeding rule, one step at a time.
pub fn feed(mut state: State, input: &[i16], output: &mut [i16]) -> Result<Fed, u32> {
    check(&state)?;
    let (mut taken, mut written, mut clips) = (0, 0, Clips::default());
    let end = loop {
        if state.needed == 0 && written < output.len() {
            // "if no sample is needed and the output buffer has space, write the next output"
            let (sample, side) = next_output(&mut state);
            output[written] = sample;
            written += 1;
            clips.count(side);
        } else if state.needed == 0 {
            // "if none is needed and there is no space, end FULL"
            break End::Full;
        } else if taken < input.len() {
            // "if one is needed and input is left, take it"
            state.window.rotate_left(1);
            state.window[3] = input[taken];
            state.needed -= 1;
            taken += 1;
        } else {
            // "else end HUNGRY"
            break End::Hungry;
        }
    };
    Ok(Fed { state, taken, written, clips, end })
}

/// The output that the state stands at; the oscillator goes on by the word.
fn next_output(state: &mut State) -> (i16, Side) {
    let kernel = state.kernel;
    let answer = kernels::output(kernel, exact(state));
    state.needed = oscillator::advance(kernel, state.register, state.word) as u8;
    state.register = oscillator::register(state.register as i128 + state.word as i128);
    answer
}

/// The value of the output that the state stands at, before it is rounded, times
/// `kernels::scale(kernel, 14)`.
pub fn exact(state: &State) -> i128 {
    let fraction = oscillator::fraction(state.kernel, state.register as i128);
    let m = oscillator::filter_fraction(fraction);
    kernels::value(state.kernel, &near(state), m, 14)
}

/// When an output is due the newest sample is sample b + R.
pub fn near(state: &State) -> Near {
    let [a, b, c, d] = state.window.map(i64::from);
    match kernels::reach(state.kernel) {
        1 => Near { xm: b, x0: c, x1: d, x2: 0 },
        _ => Near { xm: a, x0: b, x1: c, x2: d },
    }
}
