//! What was compared, and the tables that say so.

use crate::clips::Clips;
use crate::halves;
use crate::host::{Answer, Call, Row, ROWS};
use crate::judge::Seen;
use crate::kernels;
use crate::paper::Distance;
use crate::settings::LARGEST_WORD;
use crate::state::{End, Fed};
use std::collections::{BTreeMap, BTreeSet};

/// What is counted of each kernel's feeds; the second two are outputs at the outermost words.
const COUNTED: [&str; 7] =
    ["from starts", "from stored", "at word 1", "at word 2^34", "FULL", "HUNGRY", "samples"];

/// How many values of each kernel there have to be at every limit that it comes to, and between a
/// limit and the half past it.
const AT_LIMITS: u64 = 500;
/// How many values of each kernel there have to be on a half of each kind.
const HALVES: u64 = 1000;

#[derive(Default)]
pub struct Tally {
    /// What the calls are called, and their rows of the table.
    title: &'static str,
    rows: Vec<&'static Row>,
    pub chains: u64,
    /// By the call's name and its answer.
    calls: BTreeMap<(&'static str, u32), u64>,
    /// By kernel and what is counted.
    counts: BTreeMap<(u8, &'static str), u64>,
    outputs: u64,
    /// By kernel.
    clips: [Clips; 4],
    limits: [Limits; 4],
    /// By kernel and `halves::KINDS`.
    halves: [[u64; 4]; 4],
    /// By kernel the largest distance to the paper's value, and the smallest margin to the bound,
    /// multiplied by `kernels::scale(kernel, 32)`.
    nearest: [Option<Distance>; 4],
}

/// Values at `halves::LIMITS`, and those past a limit by less than a half: above 32767 and below
/// −32768. Rounding brings these back to it.
#[derive(Default)]
struct Limits {
    at: [u64; 4],
    above: u64,
    below: u64,
}

impl Limits {
    /// Counts a value of a kernel, times `kernels::scale(kernel, 14)`.
    fn count(&mut self, kernel: u8, exact: i128) {
        let scale = kernels::scale(kernel, 14);
        let [highest, above, lowest, below] = halves::LIMITS.map(|halves| halves * scale);
        let twice = 2 * exact;
        match [highest, above, lowest, below].iter().position(|limit| *limit == twice) {
            Some(limit) => self.at[limit] += 1,
            None if (highest..above).contains(&twice) => self.above += 1,
            None if (below..lowest).contains(&twice) => self.below += 1,
            None => (),
        }
    }

    fn counts(&self) -> [u64; 6] {
        let [highest, above, lowest, below] = self.at;
        [highest, self.above, above, lowest, self.below, below]
    }
}

/// What `Limits::counts` are of, in words.
const LIMITS: [&str; 6] = ["32767", "between", "32767.5", "-32768", "between", "-32768.5"];

impl Tally {
    /// Of calls of the rows that are kept.
    pub fn over(title: &'static str, kept: fn(&&Row) -> bool) -> Tally {
        Tally { title, rows: ROWS.iter().filter(kept).collect(), ..Tally::default() }
    }

    pub fn count(&mut self, call: &Call, answer: &Answer) {
        *self.calls.entry((call.row.name, answer.result)).or_default() += 1;
    }

    /// A feed that was held to the paper, from a start or from a stored state. It leaves the word as
    /// it is: it was in force for all that the feed wrote.
    pub fn fed<C>(&mut self, fed: &Fed<C>, fresh: bool) {
        self.outputs += fed.written as u64;
        let mut add = |what, count: usize| {
            *self.counts.entry((fed.state.kernel, what)).or_default() += count as u64
        };
        add(if fresh { "from starts" } else { "from stored" }, fed.written);
        add(if fed.end == End::Full { "FULL" } else { "HUNGRY" }, 1);
        add("samples", fed.taken);
        match fed.state.word {
            1 => add("at word 1", fed.written),
            LARGEST_WORD => add("at word 2^34", fed.written),
            _ => (),
        }
    }

    /// An output that was held against the paper.
    pub fn hold(&mut self, kernel: u8, seen: &Seen) {
        let place = kernel as usize;
        if [i16::MIN, i16::MAX].contains(&seen.output) {
            self.clips[place].count(seen.side);
            self.limits[place].count(kernel, seen.exact);
        }
        if let Some(kind) = halves::kind(kernel, seen.exact) {
            self.halves[place][kind] += 1;
        }
        let Distance { is, may_be } = seen.distance;
        let nearest = self.nearest[place].get_or_insert(Distance { is, may_be });
        nearest.is = nearest.is.max(is);
        nearest.may_be = nearest.may_be.min(may_be - is);
    }

    /// Whether there are at least so many.
    pub fn reached(&self, calls: u64, outputs: u64) -> bool {
        self.total_calls() >= calls && self.outputs >= outputs
    }

    fn total_calls(&self) -> u64 {
        self.calls.values().sum()
    }

    pub fn print(&self) {
        self.print_calls(&format!(" in {} chains", self.chains));
        println!("{} outputs, by kernel:", self.outputs);
        let others = ["high", "low", "largest distance", "smallest margin"];
        print_row("kernel", COUNTED.iter().chain(&others));
        for kernel in 0..4 {
            let scale = kernels::scale(kernel, 32) as f64;
            let nearest = self.nearest[kernel as usize].as_ref();
            let [largest, margin] =
                nearest.map_or([0, 0], |near| [near.is, near.may_be]).map(|n| n as f64 / scale);
            let counts = COUNTED.map(|what| self.of(kernel, what).to_string());
            let [high, low] = self.sides(kernel).map(|count| count.to_string());
            let others = [high, low, format!("{largest:.6}"), format!("{margin:.2e}")];
            print_row(&kernel.to_string(), counts.iter().chain(&others));
        }
        print_row("values at", LIMITS);
        for (kernel, limits) in self.limits.iter().enumerate() {
            print_row(&format!("kernel {kernel}"), limits.counts());
        }
        print_row("on a half, over", halves::KINDS);
        for (kernel, halves) in self.halves.iter().enumerate() {
            print_row(&format!("kernel {kernel}"), halves);
        }
    }

    /// How many calls of each kind were answered how; the text says where they were made.
    pub fn print_calls(&self, made: &str) {
        println!("{} {}{made}, by answer:", self.total_calls(), self.title);
        let answers = self.calls.keys().map(|(_, answer)| *answer).collect::<BTreeSet<u32>>();
        print_row("call", &answers);
        for row in &self.rows {
            let counts = answers.iter().map(|answer| self.calls.get(&(row.name, *answer)));
            print_row(row.name, counts.map(|count| count.unwrap_or(&0)));
        }
    }

    fn of(&self, kernel: u8, what: &'static str) -> u64 {
        *self.counts.get(&(kernel, what)).unwrap_or(&0)
    }

    /// High and low clips.
    fn sides(&self, kernel: u8) -> [u64; 2] {
        let Clips { high, low } = self.clips[kernel as usize];
        [high as u64, low as u64]
    }

    /// Whether there are enough values on a half of each kind, of every kernel.
    pub fn on_halves(&self) -> Result<(), String> {
        match self.halves.as_flattened().iter().all(|&count| count >= HALVES) {
            true => Ok(()),
            false => Err(format!("values on a half, by kernel: {:?}, some too few", self.halves)),
        }
    }

    /// A comparison that misses an answer of a call, or something that is counted of a kernel, says
    /// nothing. The linear kernel never clips, and comes to the limits but not past them: its value
    /// lies between its samples.
    pub fn complete(&self) -> Result<(), String> {
        for kernel in 0..4 {
            let past = kernel != 0;
            let enough = self.limits[kernel as usize].counts().map(|count| count >= AT_LIMITS);
            if enough != [true, past, past, true, past, past] {
                return Err(missed(kernel, "values at the limits"));
            }
        }
        self.complete_draws()
    }

    /// The same where no values are made at the limits.
    pub fn complete_draws(&self) -> Result<(), String> {
        self.answered()?;
        for kernel in 0..4 {
            if let Some(what) = COUNTED.iter().find(|what| self.of(kernel, what) == 0) {
                return Err(missed(kernel, what));
            }
            if self.sides(kernel).map(|count| count > 0) != [kernel != 0; 2] {
                return Err(missed(kernel, "high or low"));
            }
        }
        let (calls, title, outputs) = (self.total_calls(), self.title, self.outputs);
        println!("{calls} {title} agree, with {outputs} outputs; 0 differ");
        Ok(())
    }

    /// The same of calls that have no outputs.
    pub fn complete_calls(&self) -> Result<(), String> {
        self.answered()?;
        println!("{} {} agree; 0 differ", self.total_calls(), self.title);
        Ok(())
    }

    /// Whether every call met each of its answers.
    fn answered(&self) -> Result<(), String> {
        for row in &self.rows {
            let met = |answer: &&u32| self.calls.contains_key(&(row.name, **answer));
            if let Some(answer) = row.answers.iter().find(|answer| !met(answer)) {
                return Err(format!("no {} was answered with {answer}: compare more", row.name));
            }
        }
        Ok(())
    }
}

fn missed(kernel: u8, what: &str) -> String {
    format!("kernel {kernel}, {what}: not as it has to be; compare more")
}

pub fn print_row(name: &str, cells: impl IntoIterator<Item = impl std::fmt::Display>) {
    let cells = cells.into_iter().map(|cell| format!("{cell:>17}"));
    println!("{name:<18}{}", cells.collect::<String>());
}
