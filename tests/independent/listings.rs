//! Runs on paper, output by output, for makers of a card or of another model of the paper: the
//! starts, feeds and retunes of a file are read, and it is written anew with their outputs.

use crate::judge;
use crate::kernels;
use crate::oscillator;
use crate::paper::{Distance, Paper};
use crate::settings::Setting;
use crate::sheets;
use crate::state::{self, End, State};
use std::str::FromStr;

/// The most outputs of one feed.
const SPACE: usize = 100_000;

/// The text of a file with its outputs, and how many there are.
pub fn anew(text: &str) -> Result<(String, usize), String> {
    let (mut made, mut outputs, mut run) = (String::new(), 0, None);
    for (number, line) in sheets::joined(text) {
        if line.starts_with("output ") {
            continue;
        }
        made += &match line.strip_prefix("feed ") {
            Some(samples) => feed_lines(samples),
            None => format!("{line}\n"),
        };
        let rows = step(&line, &mut run).map_err(|what| format!("line {number}: {what}"))?;
        outputs += rows.len();
        made += &rows.concat();
    }
    Ok((made, outputs))
}

/// 16 samples on a line.
fn feed_lines(samples: &str) -> String {
    let samples = samples.split_whitespace().collect::<Vec<&str>>();
    let lines = samples.chunks(16).map(|samples| format!(" {}\n", samples.join(" ")));
    format!("feed{}", lines.collect::<String>())
}

/// What a line of a file does, and the lines of the outputs that it makes.
fn step(line: &str, run: &mut Option<Run>) -> Result<Vec<String>, String> {
    let words = line.split_whitespace().collect::<Vec<&str>>();
    match (&words[..], run) {
        ([], _) => Ok(Vec::new()),
        (_, _) if line.starts_with('#') => Ok(Vec::new()),
        (["start", kernel, word, phase], run) => {
            *run = Some(Run::start(number(kernel)?, number(word)?, number(phase)?)?);
            Ok(Vec::new())
        }
        (["feed", samples @ ..], Some(run)) => {
            let samples = samples.iter().map(|sample| number(sample));
            run.feed(&samples.collect::<Result<Vec<i16>, String>>()?)
        }
        (["retune", word], Some(run)) => run.retune(number(word)?),
        _ => Err("expected start KERNEL WORD PHASE, feed SAMPLE .. or retune WORD".to_string()),
    }
}

fn number<T: FromStr>(word: &str) -> Result<T, String> {
    word.parse().map_err(|_| format!("{word} is no number here, or too large"))
}

/// The card and the paper side by side.
struct Run {
    state: State,
    paper: Paper,
}

impl Run {
    fn start(kernel: u32, word: u64, phase: u32) -> Result<Run, String> {
        let setting = Setting::Word(word);
        let state = state::start(kernel, setting, phase).map_err(refused)?;
        let paper = Paper::start(kernel, setting, phase).ok_or("refused on paper")?;
        Ok(Run { state, paper })
    }

    fn retune(&mut self, word: u64) -> Result<Vec<String>, String> {
        let setting = Setting::Word(word);
        self.state = state::retune(self.state, setting).map_err(refused)?;
        judge::retune(&mut self.paper, setting, &self.state).map(|_| Vec::new())
    }

    fn feed(&mut self, input: &[i16]) -> Result<Vec<String>, String> {
        let mut places = vec![0; SPACE];
        let fed = state::feed(self.state, input, &mut places).map_err(refused)?;
        if fed.end == End::Full {
            return Err(format!("{SPACE} outputs or more in one feed"));
        }
        let first = self.paper.made();
        let outputs = &places[..fed.written];
        let page = judge::feed(&mut self.paper, input, outputs, SPACE, &fed, |_| ())?;
        self.state = fed.state;
        let position = |k| self.paper.position(&page, k);
        Ok((0..fed.written).map(|k| row(&self.paper, first + k, position(k))).collect())
    }
}

fn refused(refusal: u32) -> String {
    format!("refused with {refusal}")
}

/// The line of an output: the paper's side, the card's, and the two sides of the bound.
fn row(paper: &Paper, number: usize, position: i128) -> String {
    let kernel = paper.kernel();
    let basepoint = oscillator::basepoint(kernel, position);
    let fraction = oscillator::fraction(kernel, position);
    let scaled = |value| in_lowest_terms(value, kernels::scale(kernel, 32));
    let (value, held) = (scaled(paper.value(position)), scaled(paper.held(position)));
    let jump = paper.jump(position);
    let m = oscillator::filter_fraction(fraction);
    let exact = in_lowest_terms(paper.exact(position), kernels::scale(kernel, 14));
    let (output, side) = paper.output(position);
    let Distance { is, may_be } = paper.distance(position, output);
    let (distance, bound, clip) = (scaled(is), scaled(may_be), side.is_clip() as u8);
    format!(
        "output {number} {position} {basepoint} {fraction} {value} {held} {jump} \
         {m} {exact} {output} {clip} {distance} {bound}\n"
    )
}

/// A fraction; what is under the line is above zero.
pub fn in_lowest_terms(over: i128, under: i128) -> String {
    let (mut common, mut rest) = (under, over.abs());
    while rest != 0 {
        (common, rest) = (rest, common % rest);
    }
    format!("{}/{}", over / common, under / common)
}
