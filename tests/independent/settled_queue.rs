//! What request U7 settles of a queue, on the calls of the host.

use crate::host::{self, Answer};
use crate::image;
use crate::marks_image;
use crate::queue::Marks;
use crate::settings::Setting;
use crate::settled::Example;
use crate::state::{self, State};

pub fn examples() -> Vec<Example> {
    [refusals(), order(), pushes(), draws(), ends()].concat()
}

fn marks(front: usize, held: usize) -> Vec<u8> {
    marks_image::encode(Marks { front, held })
}

fn push(marks: Vec<u8>, queue: Vec<u8>, samples: Vec<u8>) -> Answer {
    host::answer(&host::push(marks, queue, samples))
}

/// What a push of so many bytes answers, in a buffer of so many bytes.
fn answer(front: usize, held: usize, queue: usize, samples: usize) -> u32 {
    push(marks(front, held), vec![0xee; queue], vec![0; samples]).result
}

/// Kernel 0 at the half word.
fn fresh() -> State {
    state::start(0, Setting::Word(1 << 31), 0).unwrap()
}

fn draw(state: State, marks: Vec<u8>, queue: Vec<u8>, space: usize) -> Answer {
    host::answer(&host::draw(image::encode_fresh(state), marks, queue, vec![0xee; space]))
}

fn refusals() -> Vec<Example> {
    let drawn = |state, marks, queue| draw(state, marks, vec![0; queue], 8).result;
    let state = |kernel, word, needed| State { kernel, word, needed, ..fresh() };
    let bad = [state(4, 1, 0), state(0, 0, 0), state(0, (1 << 34) + 1, 0), state(0, 1, 5)];
    let lengths = |length| push(vec![0; length], vec![0; 4], vec![0; 2]).result;
    vec![
        (
            "an empty buffer: nothing is accepted, one sample is 16",
            [0, 2].map(|offered| answer(0, 0, 0, offered)) == [0, 16],
        ),
        (
            "an empty buffer: another front, or samples held, are 5",
            [answer(1, 0, 0, 0), answer(0, 1, 0, 0)] == [5, 5],
        ),
        ("16,384 samples are accepted", answer(16383, 16383, 32768, 2) == 0),
        ("16,385 samples are 5, also where it would be 16", answer(0, 16384, 32770, 4) == 5),
        ("a front at the length is 5, below it not", [3, 2].map(|n| answer(n, 0, 6, 0)) == [5, 0]),
        ("held above the length is 5, at it not", [4, 3].map(|n| answer(0, n, 6, 0)) == [5, 0]),
        (
            "a full queue accepts nothing and no sample",
            [0, 2].map(|n| answer(1, 3, 6, n)) == [0, 16],
        ),
        ("a push that just fits is accepted, of one more 16", {
            [4, 6].map(|offered| answer(2, 1, 6, offered)) == [0, 16]
        }),
        ("marks of 8 bytes and no others", [0, 7, 8, 9, 16].map(lengths) == [5, 5, 0, 5, 5]),
        ("a draw: any reason of the state is 5", bad.map(|s| drawn(s, marks(0, 0), 6)) == [5; 4]),
        (
            "a draw: marks that disagree, and 16,385 samples, are 5",
            [drawn(fresh(), marks(0, 4), 6), drawn(fresh(), marks(0, 0), 32770)] == [5, 5],
        ),
    ]
}

/// "5 .., 12 .., 16"; a buffer of odd length "has half as many samples as bytes, rounded down, and 5
/// speaks of that number".
fn order() -> Vec<Example> {
    let output = |queue, space| draw(fresh(), marks(0, 0), vec![0; queue], space).result;
    let unlike = |queue, space| draw(fresh(), marks(2, 0), vec![0; queue], space).result;
    vec![
        ("5 before 16", answer(3, 1, 6, 6) == 5),
        ("5 before 12", [answer(3, 0, 7, 1), answer(0, 4, 6, 65538)] == [5, 5]),
        ("12 before 16", [answer(0, 3, 6, 1), answer(0, 3, 7, 2)] == [12, 12]),
        (
            "samples above 65,536 bytes are 12",
            [65536, 65538].map(|n| answer(0, 0, 6, n)) == [16, 12],
        ),
        ("32,769 bytes of queue are 12, 32,771 are 5", {
            [32769, 32771].map(|queue| answer(0, 0, queue, 0)) == [12, 5]
        }),
        ("3 bytes are one sample", [answer(1, 0, 3, 0), answer(0, 1, 3, 0)] == [5, 12]),
        ("a draw: 12 of queue and of output", {
            [output(7, 8), output(6, 7), output(6, 65536), output(6, 65538)] == [12, 12, 0, 12]
        }),
        ("a draw: 5 before 12", [unlike(5, 8), unlike(4, 7), unlike(4, 65538)] == [5; 3]),
    ]
}

fn pushes() -> Vec<Example> {
    let queue = host::bytes(&[1, 2, 3, 4, 5]);
    let samples = host::bytes(&[7, 8, 9]);
    let pushed = push(marks(3, 1), queue.clone(), samples.clone());
    let [nothing, refused] =
        [vec![], host::bytes(&[7; 5])].map(|samples| push(marks(3, 1), queue.clone(), samples));
    vec![
        (
            "a push goes round the end, and the other places stay",
            pushed.buffers == [marks(3, 4), host::bytes(&[8, 9, 3, 4, 7]), samples],
        ),
        (
            "a push of nothing changes nothing",
            nothing.result == 0 && nothing.buffers[..2] == [marks(3, 1), queue.clone()],
        ),
        (
            "a refused push changes nothing",
            refused.result == 16 && refused.buffers[..2] == [marks(3, 1), queue],
        ),
    ]
}

/// The samples 0, 100, 40 lie in two parts: at places 2, 0 and 1 of three.
fn draws() -> Vec<Example> {
    let queue = host::bytes(&[100, 40, 0]);
    let all = draw(fresh(), marks(2, 3), queue.clone(), 16);
    let some = draw(fresh(), marks(2, 3), queue.clone(), 2);
    let samples = host::bytes(&[0, 100, 40]);
    let feed = |space| {
        let image = image::encode_fresh(fresh());
        host::answer(&host::feed(image, samples.clone(), vec![0xee; space])).buffers
    };
    let is_feed = |drawn: &Answer, fed: &[Vec<u8>]| {
        (&drawn.buffers[0], &drawn.buffers[2], &drawn.buffers[3]) == (&fed[0], &queue, &fed[2])
    };
    let rest =
        host::draw(some.buffers[0].clone(), some.buffers[1].clone(), queue.clone(), vec![0; 8]);
    let rest = host::answer(&rest);
    let bad = draw(State { needed: 5, ..fresh() }, marks(2, 3), queue.clone(), 16);
    vec![
        ("a draw of two parts is a feed of both", all.result == 0 && is_feed(&all, &feed(16))),
        (
            "its outputs are 0, 50, 100, 70",
            all.buffers[3][..8] == host::bytes(&[0, 50, 100, 70])[..],
        ),
        ("the front is never put back: 2 and 3 of 3 is 2", all.buffers[1] == marks(2, 0)),
        ("a FULL draw leaves samples", is_feed(&some, &feed(2)) && some.buffers[1] == marks(1, 1)),
        (
            "the next draw goes on with them",
            rest.buffers[1] == marks(2, 0) && rest.buffers[3] == host::bytes(&[50, 100, 70, 0]),
        ),
        ("a refused draw changes nothing", {
            bad.result == 5 && bad.buffers[1..] == [marks(2, 3), queue.clone(), vec![0xee; 16]]
        }),
    ]
}

/// "a draw with nothing held is a feed of nothing, which may still write outputs that are due"; with
/// an empty buffer too.
fn ends() -> Vec<Example> {
    let due = State { needed: 0, word: 1 << 30, window: [0, 0, 0, 80], ..fresh() };
    let drawn = |queue: usize, space| {
        let drawn = draw(due, marks(0, 0), vec![0xee; queue], space);
        (drawn.result, drawn.buffers[1].clone(), drawn.buffers[3].clone())
    };
    let outputs = |places: &[i16]| (0, marks(0, 0), host::bytes(places));
    let empty = draw(fresh(), marks(0, 0), vec![], 4);
    vec![
        ("nothing held: outputs that are due", drawn(6, 10) == outputs(&[0, 20, 40, 60, -4370])),
        ("an empty buffer: the same", drawn(0, 10) == outputs(&[0, 20, 40, 60, -4370])),
        ("nothing held and no space: accepted", drawn(6, 0) == outputs(&[])),
        (
            "an empty buffer and a sample needed: HUNGRY, no output",
            empty.result == 0 && image::counts(&empty.buffers[0]) == [0; 4],
        ),
    ]
}
