//! The program, from its input bytes to its output bytes. Document 01, "Frame lines", and request U4.

use crate::frames;
use crate::settings::Setting;
use crate::state::{self, End, State};

/// The outputs and clips so far.
#[derive(Default)]
struct Totals {
    outputs: u64,
    clips: u64,
}

/// "The program reads one K line and then D lines from standard input." "A refused line gives `R`
/// and two decimal digits, and the program stops without an `E` line."
pub fn run(input: &[u8]) -> Vec<u8> {
    let mut text = String::new();
    match lines(input, &mut text) {
        // "at end of input `E`, 16 digits of outputs, 16 digits of clips (both modulo 2^64)"
        Ok(totals) => text += &format!("E{:016X}{:016X}\n", totals.outputs, totals.clips),
        Err(refusal) => text += &format!("R{refusal:02}\n"),
    }
    text.into_bytes()
}

/// Each D line is read with the number of the one before it told, the first with none.
fn lines(input: &[u8], text: &mut String) -> Result<Totals, u32> {
    let (start, mut rest) = frames::read_k(input)?;
    let mut state = state::start(start.kernel, Setting::Word(start.word), start.phase)?;
    let (mut totals, mut last) = (Totals::default(), None);
    while !rest.is_empty() {
        let (data, after) = frames::read_d(rest, last, frames::MOST_SAMPLES)?;
        state = convert(state, &data.samples, text, &mut totals)?;
        (rest, last) = (after, Some(data.sequence));
    }
    Ok(totals)
}

/// "It writes each output as 4 digits on a line". Feeds until the samples are spent.
fn convert(
    mut state: State,
    mut samples: &[i16],
    text: &mut String,
    totals: &mut Totals,
) -> Result<State, u32> {
    let mut places = [0; 4096];
    loop {
        let fed = state::feed(state, samples, &mut places)?;
        for place in &places[..fed.written] {
            *text += &format!("{:04X}\n", *place as u16);
        }
        totals.outputs = totals.outputs.wrapping_add(fed.written as u64);
        totals.clips = totals.clips.wrapping_add(fed.clips.sum() as u64);
        samples = &samples[fed.taken..];
        state = fed.state;
        if fed.end == End::Hungry {
            return Ok(state);
        }
    }
}
