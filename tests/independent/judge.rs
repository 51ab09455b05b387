//! What demand 3 says of one call in a list, against the paper's run. Every error says in words
//! what differs.

use crate::clips::{Clips, Shown, Side};
use crate::kernels;
use crate::lanes;
use crate::paper::{Distance, Page, Paper};
use crate::settings::Setting;
use crate::state::{End, Fed, State};

/// An output, how far it lies from the paper's value, its exact value at m, times
/// `kernels::scale(kernel, 14)`, and its side.
pub struct Seen {
    pub output: i16,
    pub distance: Distance,
    pub exact: i128,
    pub side: Side,
}

/// Runs a feed on paper and holds its answer against it: taken, written and end, the outputs that
/// it wrote, the clips, of both sides where both are shown, and the state. `seen` is told of each
/// output.
pub fn feed<C: Copy + Into<Shown>>(
    paper: &mut Paper,
    input: &[i16],
    outputs: &[i16],
    space: usize,
    fed: &Fed<C>,
    mut seen: impl FnMut(&Seen),
) -> Result<Page, String> {
    let before = paper.made();
    let page = paper.feed(input, space);
    if (fed.taken, fed.written, fed.end) != (page.joined, page.made, page.end) {
        return Err(format!(
            "the feed took {} samples, wrote {} outputs and ended {:?}; \
             the paper joins {}, makes {} and ends {:?}",
            fed.taken, fed.written, fed.end, page.joined, page.made, page.end
        ));
    }
    assert_eq!(outputs.len(), fed.written);
    let mut clips = Clips::default();
    for (k, &output) in outputs.iter().enumerate() {
        let held = hold(paper, paper.position(&page, k), output);
        let held = held.map_err(|what| format!("output {k} of the feed {what}"))?;
        clips.count(held.side);
        seen(&held);
    }
    let shown: Shown = fed.clips.into();
    if !shown.is_of(clips) {
        return Err(format!("the feed counted as clips {shown:?}; on paper there are {clips:?}"));
    }
    end(paper, before + fed.written, input.len(), space, fed)?;
    state(paper, &fed.state)?;
    Ok(page)
}

/// The same for a feed of so many lanes, each with a run of its own. The output is all that the
/// feed was lent. The lanes that it did not reach have no run from then on.
pub fn feed_lanes<C: Copy + Into<Shown>>(
    papers: &mut Vec<Paper>,
    count: usize,
    input: &[i16],
    output: &[i16],
    fed: &[Fed<C>],
    mut seen: impl FnMut(&Seen),
) -> Result<(), String> {
    papers.truncate(count);
    each(papers, |lane, paper| {
        let input = &input[lanes::part(input.len(), count, lane)];
        let places = &output[lanes::part(output.len(), count, lane)];
        let fed = &fed[lane];
        let outputs = places.get(..fed.written).ok_or("the feed wrote more than its space")?;
        feed(paper, input, outputs, places.len(), fed, &mut seen).map(|_| ())
    })
}

/// Runs a retune on paper and holds the state that it returned against it.
pub fn retune(paper: &mut Paper, setting: Setting, returned: &State) -> Result<(), String> {
    paper.retune(setting);
    state(paper, returned)
}

/// The same for lanes, each with a run of its own.
pub fn retune_lanes(
    papers: &mut [Paper],
    setting: Setting,
    returned: &[State],
) -> Result<(), String> {
    each(papers, |lane, paper| retune(paper, setting, &returned[lane]))
}

/// A call returned the state that the card has on paper by now.
pub fn state(paper: &Paper, returned: &State) -> Result<(), String> {
    let expected = paper.state();
    match *returned == expected {
        true => Ok(()),
        false => Err(format!("the call returned {returned:?}; on paper it is {expected:?}")),
    }
}

/// The same for lanes, each with a run of its own.
pub fn lanes(papers: &mut [Paper], returned: &[State]) -> Result<(), String> {
    each(papers, |lane, paper| state(paper, &returned[lane]))
}

/// Judges each lane, and tells which one an error is of, if there are several.
fn each(
    papers: &mut [Paper],
    mut judge: impl FnMut(usize, &mut Paper) -> Result<(), String>,
) -> Result<(), String> {
    let several = papers.len() > 1;
    let told = |lane: usize, what| if several { format!("lane {lane}: {what}") } else { what };
    papers
        .iter_mut()
        .enumerate()
        .try_for_each(|(lane, paper)| judge(lane, paper).map_err(|what| told(lane, what)))
}

/// "card output k equals the value of demand 2 at the paper's basepoint and at m of the paper's
/// fraction", and "lies at most 1/2 + D/K from the paper's value held to 16 bits" (demand 3).
fn hold(paper: &Paper, position: i128, output: i16) -> Result<Seen, String> {
    let exact = paper.exact(position);
    let (value, side) = kernels::output(paper.kernel(), exact);
    if output != value {
        return Err(format!("is {output}; at the paper's basepoint and m it is {value}"));
    }
    let distance = paper.distance(position, output);
    let Distance { is, may_be } = distance;
    if is > may_be {
        let scale = kernels::scale(paper.kernel(), 32);
        return Err(format!(
            "is {output} and lies {is}/{scale} from the paper's value; it may lie {may_be}/{scale}"
        ));
    }
    Ok(Seen { output, distance, exact, side })
}

/// "A feed ends hungry exactly when its input is spent and as many outputs are made as the paper
/// has over the samples taken so far, and otherwise full, with its space all written." (demand 3)
fn end<C>(
    paper: &Paper,
    made: usize,
    length: usize,
    space: usize,
    fed: &Fed<C>,
) -> Result<(), String> {
    let hungry = fed.taken == length && made == paper.has();
    let right = match fed.end {
        End::Hungry => hungry,
        End::Full => !hungry && fed.written == space,
    };
    match right {
        true => Ok(()),
        false => Err(format!(
            "the feed ended {:?} with {} of {length} samples taken, {} of {space} outputs written, \
             {made} in all calls; the paper has {} over the samples taken so far",
            fed.end,
            fed.taken,
            fed.written,
            paper.has()
        )),
    }
}
