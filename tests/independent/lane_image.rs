//! The image of lanes: an image as the single feed has it, that of lane 0, then the windows of the
//! other lanes, then the clips of all, of each lane high and low.

use crate::clips::{Clips, Shown};
use crate::host;
use crate::image::{self, Field};
use crate::lanes::{Fed, Lanes, MOST};
use crate::state;

/// The bytes of a window, of a count, and of a lane's two.
const WINDOW: usize = image::COUNTS - image::WINDOW;
const COUNT: usize = 4;
const SIDES: usize = 2 * COUNT;
/// Where the windows of lanes 1 to 15 begin, and the clips of lanes 0 to 15.
const WINDOWS: usize = image::LENGTH;
pub const CLIPS: usize = WINDOWS + (MOST - 1) * WINDOW;
pub const LENGTH: usize = CLIPS + MOST * SIDES;
/// The length before request U5, with one count for each lane.
pub const OLD_LENGTH: usize = CLIPS + MOST * COUNT;

/// Where the window of a lane begins, and its clips.
fn window_at(lane: usize) -> usize {
    match lane {
        0 => image::WINDOW,
        _ => WINDOWS + (lane - 1) * WINDOW,
    }
}

fn clips_at(lane: usize) -> usize {
    CLIPS + lane * SIDES
}

/// The fields of lane 0's image, and those of the lanes by their names.
pub fn fields() -> Vec<Field> {
    let window = |lane: usize| (format!("lane {lane} window"), window_at(lane), 2, 4);
    let sides = |lane: usize| {
        let high = (format!("lane {lane} high"), clips_at(lane), COUNT, 1);
        [high, (format!("lane {lane} low"), clips_at(lane) + COUNT, COUNT, 1)]
    };
    let lanes = (1..MOST).map(window).chain((0..MOST).flat_map(sides));
    image::fields().into_iter().chain(lanes).collect()
}

/// The lanes in an image, or refusal 5: another length, or lane 0's image is refused.
pub fn decode(image: &[u8]) -> Result<Lanes, u32> {
    if image.len() != LENGTH {
        return Err(5);
    }
    let first = image::decode(&image[..image::LENGTH])?;
    let mut others = [[0; 4]; MOST - 1];
    for (window, lane) in others.iter_mut().zip(1..) {
        window.copy_from_slice(&host::samples(&image[window_at(lane)..][..WINDOW]));
    }
    Ok(Lanes { first, others })
}

pub fn encode(fed: &Fed) -> Vec<u8> {
    let mut image = image::encode(&fed.lane(0));
    image.extend(host::bytes(fed.lanes.others.as_flattened()));
    for Clips { high, low } in fed.clips {
        image.extend((high as u32).to_le_bytes());
        image.extend((low as u32).to_le_bytes());
    }
    image
}

/// What a start leaves: fresh lanes, zero counts, HUNGRY.
pub fn encode_fresh(lanes: Lanes) -> Vec<u8> {
    encode(&lanes.unfed())
}

/// The clips of a lane, high and low.
fn sides(image: &[u8], lane: usize) -> [u32; 2] {
    [0, COUNT].map(|place| image::little(&image[clips_at(lane) + place..][..COUNT]) as u32)
}

/// Whether the clips of a lane are on both sides.
pub fn on_both_sides(image: &[u8]) -> bool {
    (0..MOST).any(|lane| sides(image, lane).iter().all(|&count| count > 0))
}

/// What a feed left of each lane in an image, if those are lanes that are accepted.
pub fn fed(image: &[u8]) -> Result<Vec<state::Fed<Shown>>, u32> {
    let lanes = decode(image)?;
    let first = image::fed(&image[..image::LENGTH])?;
    let lane = |lane| {
        let [high, low] = sides(image, lane).map(|count| count as usize);
        let clips = Shown::Both(Clips { high, low });
        state::Fed { state: lanes.state(lane), clips, ..first }
    };
    Ok((0..MOST).map(lane).collect())
}

/// The image of a lane alone, as the single feed has it: its window, and the sum of its clips, in
/// lane 0's image. On entry the counts may be anything, and so may their sum.
pub fn alone(image: &[u8], lane: usize) -> Vec<u8> {
    let mut alone = image[..image::LENGTH].to_vec();
    alone[image::WINDOW..][..WINDOW].copy_from_slice(&image[window_at(lane)..][..WINDOW]);
    let [high, low] = sides(image, lane);
    alone[image::CLIPS..][..COUNT].copy_from_slice(&high.wrapping_add(low).to_le_bytes());
    alone
}

/// Puts what an image has of a lane into another: its window and its clips.
pub fn put(into: &mut [u8], image: &[u8], lane: usize) {
    let mut copy = |place: usize, size: usize| {
        into[place..][..size].copy_from_slice(&image[place..][..size]);
    };
    copy(window_at(lane), WINDOW);
    copy(clips_at(lane), SIDES);
    if lane == 0 {
        copy(image::CLIPS, COUNT);
    }
}
