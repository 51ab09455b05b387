//! A queue of samples before the converter, in a buffer that is lent. Request U7.

use crate::state::{self, Fed, State};
use std::collections::VecDeque;

/// "a lent buffer of up to 16,384 samples"
pub const LARGEST: usize = 16384;

/// Where the front of a queue stands in its buffer, and how many samples are held.
#[derive(Clone, Copy, Debug, Default, PartialEq, Eq)]
pub struct Marks {
    pub front: usize,
    pub held: usize,
}

/// "a buffer above 16,384 samples, or queue marks that disagree with it (held count above its length,
/// or front not below its length, except front 0 of an empty buffer), are refusal 5"
pub fn check(length: usize, marks: Marks) -> Result<(), u32> {
    let front = marks.front < length || (marks.front == 0 && length == 0);
    match length <= LARGEST && marks.held <= length && front {
        true => Ok(()),
        false => Err(5),
    }
}

/// A queue: the samples held, front first, as a list; the number of the front's place; and how many
/// samples the buffer has.
#[derive(Clone, Debug)]
pub struct Queue {
    held: VecDeque<i16>,
    front: usize,
    length: usize,
}

impl Queue {
    /// The queue that the marks tell of in a buffer, or refusal 5.
    pub fn of(buffer: &[i16], marks: Marks) -> Result<Queue, u32> {
        check(buffer.len(), marks)?;
        let mut held = VecDeque::from(buffer.to_vec());
        held.rotate_left(marks.front);
        held.truncate(marks.held);
        Ok(Queue { held, front: marks.front, length: buffer.len() })
    }

    pub fn marks(&self) -> Marks {
        Marks { front: self.front, held: self.held.len() }
    }

    /// The samples held, front first.
    pub fn held(self) -> Vec<i16> {
        self.held.into()
    }

    /// "An accepted push stores all its samples". "16, samples held .. plus samples offered would
    /// exceed the buffer length".
    pub fn push(&mut self, samples: &[i16]) -> Result<(), u32> {
        if samples.len() > self.length - self.held.len() {
            return Err(16);
        }
        self.held.extend(samples);
        Ok(())
    }

    /// "a draw does what a feed of all held samples, front first, would do, and removes those taken."
    /// The front goes on by a place for each, from the last place to the first; nothing else moves it.
    pub fn draw(&mut self, state: State, output: &mut [i16]) -> Result<Fed, u32> {
        let fed = state::feed(state, self.held.make_contiguous(), output)?;
        for _ in 0..fed.taken {
            self.held.pop_front();
            self.front = if self.front + 1 == self.length { 0 } else { self.front + 1 };
        }
        Ok(fed)
    }

    /// Puts what is held into the buffer, from the front's place on and past the last place from the
    /// first; the other places keep their contents.
    fn store(&self, buffer: &mut [i16]) {
        buffer.rotate_left(self.front);
        for (place, sample) in buffer.iter_mut().zip(&self.held) {
            *place = *sample;
        }
        buffer.rotate_right(self.front);
    }
}

/// A push into a buffer; a refusal leaves it as it came.
pub fn push(buffer: &mut [i16], marks: Marks, samples: &[i16]) -> Result<Marks, u32> {
    let mut queue = Queue::of(buffer, marks)?;
    queue.push(samples)?;
    queue.store(buffer);
    Ok(queue.marks())
}

/// A draw from a buffer, which it does not change.
pub fn draw(
    buffer: &[i16],
    marks: Marks,
    state: State,
    output: &mut [i16],
) -> Result<(Marks, Fed), u32> {
    let mut queue = Queue::of(buffer, marks)?;
    let fed = queue.draw(state, output)?;
    Ok((queue.marks(), fed))
}
