//! A run and the same with turned samples. Request U6: "Turning a sensor round should turn every
//! output round, where neither run has −32768 as a sample or an output."

use crate::clips::Shown;
use crate::halves;
use crate::kernels;
use crate::state::{End, Fed, State};

/// The samples turned round.
pub fn turned(samples: &[i16]) -> Vec<i16> {
    samples.iter().map(|sample| sample.checked_neg().expect("-32768 cannot be turned")).collect()
}

/// What a call leaves of each lane, and the turned one: the same state, but for a turned window.
pub fn states(left: &[Fed<Shown>], others: &[Fed<Shown>]) -> Result<(), String> {
    let turned = |state: State| State { window: state.window.map(i16::wrapping_neg), ..state };
    match left.iter().map(|fed| fed.state).eq(others.iter().map(|fed| turned(fed.state))) {
        true => Ok(()),
        false => Err("the call and the turned one leave states that are not turned".to_string()),
    }
}

/// A feed and the turned one: what each left of a lane, and the outputs that it wrote there.
pub type Pair<'a> = [(&'a Fed<Shown>, &'a [i16]); 2];

/// What the request says of these: both take, write and end alike. Where neither output is −32768,
/// one is minus the other; where there is no such output, no clip is counted; where one is −32768,
/// the other is 32767.
pub fn feeds([(fed, outputs), (other, others)]: Pair) -> Result<(), String> {
    if (fed.taken, fed.written, fed.end) != (other.taken, other.written, other.end) {
        return Err("the feed and the turned one take, write or end differently".to_string());
    }
    let mut none_excepted = true;
    for (k, (&output, &other)) in outputs.iter().zip(others).enumerate() {
        let right = match is_excepted(output, other) {
            true => output.max(other) == i16::MAX,
            false => output == -other,
        };
        if !right {
            return Err(format!("output {k} is {output} and, with turned samples, {other}"));
        }
        none_excepted &= !is_excepted(output, other);
    }
    match none_excepted && [fed, other].map(|fed| fed.clips.sum()) != [0, 0] {
        true => Err("a clip is counted, and neither feed writes -32768".to_string()),
        false => Ok(()),
    }
}

/// "where neither run has −32768 as .. an output"
fn is_excepted(output: i16, other: i16) -> bool {
    [output, other].contains(&i16::MIN)
}

/// High and low clips change places, except where the rounded value is 32768, which is high and
/// turned neither, or −32768. The rounded values are those of the feed.
pub fn sides([(fed, _), (other, _)]: Pair, rounded: &[i128]) -> Result<(), String> {
    let at = |limit| rounded.iter().filter(|&&value| value == limit).count();
    let (top, bottom) = (at(32768), at(-32768));
    let right = match (fed.clips, other.clips) {
        (Shown::Both(clips), Shown::Both(other)) => {
            clips.high == other.low + top && other.high == clips.low + bottom
        }
        (clips, other) => clips.sum() + bottom == other.sum() + top,
    };
    match right {
        true => Ok(()),
        false => Err(format!(
            "the clips are {:?} and, with turned samples, {:?}; of the rounded values {top} are \
             32768 and {bottom} -32768",
            fed.clips, other.clips
        )),
    }
}

/// At least so many there have to be of each kernel: outputs that are turned, those from a half of
/// each kind and, but for kernel 0, outputs that are excepted, and those with a rounded value of 32768
/// or −32768. And so many calls of each end.
const OUTPUTS: u64 = 100_000;
const HALVES: u64 = 500;
const EXCEPTED: u64 = 5000;
const AT_LIMITS: u64 = 200;
const CALLS: u64 = 1000;

/// What was held to the request; a call, or an output, and the turned one count once.
#[derive(Default, PartialEq, Eq)]
pub struct Counts {
    pub refused: u64,
    full: u64,
    hungry: u64,
    by_kernel: [Outputs; 4],
}

#[derive(Default, PartialEq, Eq)]
struct Outputs {
    turned: u64,
    /// Of these, those from a half, by its kind.
    halves: [u64; 4],
    excepted: u64,
    /// Of these, those with a rounded value of 32768 or −32768.
    at_limits: u64,
}

impl Counts {
    pub fn ended(&mut self, end: End) {
        match end {
            End::Full => self.full += 1,
            End::Hungry => self.hungry += 1,
        }
    }

    /// Outputs that are as they should be, with their exact values, times `kernels::scale(kernel, 14)`.
    pub fn wrote(&mut self, [(fed, outputs), (_, others)]: Pair, exact: &[i128]) {
        let kernel = fed.state.kernel;
        let counts = &mut self.by_kernel[kernel as usize];
        for ((&output, &other), &exact) in outputs.iter().zip(others).zip(exact) {
            if is_excepted(output, other) {
                counts.excepted += 1;
                counts.at_limits += (kernels::rounded(kernel, exact).abs() == 32768) as u64;
                continue;
            }
            counts.turned += 1;
            if let Some(kind) = halves::kind(kernel, exact) {
                counts.halves[kind] += 1;
            }
        }
    }

    /// What was counted, in words; or what there was too little of, and such lists say nothing.
    pub fn complete(&self) -> Result<String, String> {
        let few = |what: String| Err(format!("turned samples: too few {what}: compare more"));
        if [self.refused, self.full, self.hungry].iter().any(|&count| count < CALLS) {
            return few("calls of some end".to_string());
        }
        for (kernel, counts) in self.by_kernel.iter().enumerate() {
            let enough = counts.turned >= OUTPUTS && counts.halves.iter().all(|&n| n >= HALVES);
            let excepted = counts.excepted >= EXCEPTED && counts.at_limits >= AT_LIMITS;
            // The linear kernel's value lies between its samples, none of which is −32768.
            if !(enough && (excepted || kernel == 0)) {
                return few(format!("outputs of some kind of kernel {kernel}"));
            }
        }
        let sum = |of: fn(&Outputs) -> u64| self.by_kernel.iter().map(of).sum::<u64>();
        Ok(format!(
            "{} outputs are turned round, {} of them from a half; {} are excepted, {} of them \
             rounded to 32768 or -32768; {} calls are refused alike",
            sum(|counts| counts.turned),
            sum(|counts| counts.halves.iter().sum()),
            sum(|counts| counts.excepted),
            sum(|counts| counts.at_limits),
            self.refused,
        ))
    }
}
