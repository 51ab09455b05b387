//! Clips by their side. Request U5.

/// "Evaluating one output shall report high exactly when the rounded value is above 32767, low
/// exactly when it is below −32768, else neither".
#[derive(Clone, Copy, Debug, PartialEq, Eq)]
pub enum Side {
    Neither,
    High,
    Low,
}

impl Side {
    pub fn of(rounded: i128) -> Side {
        match rounded {
            32768.. => Side::High,
            ..=-32769 => Side::Low,
            _ => Side::Neither,
        }
    }

    pub fn is_clip(self) -> bool {
        self != Side::Neither
    }
}

/// "feed returns two counts".
#[derive(Clone, Copy, Debug, Default, PartialEq, Eq)]
pub struct Clips {
    pub high: usize,
    pub low: usize,
}

impl Clips {
    pub fn count(&mut self, side: Side) {
        match side {
            Side::High => self.high += 1,
            Side::Low => self.low += 1,
            Side::Neither => (),
        }
    }

    pub fn add(&mut self, more: Clips) {
        self.high += more.high;
        self.low += more.low;
    }

    /// "The E line and the saved state carry their sum."
    pub fn sum(self) -> usize {
        self.high + self.low
    }
}

/// What a feed shows of its clips: both counts or, as an image of one converter, their sum alone.
#[derive(Clone, Copy, Debug, PartialEq, Eq)]
pub enum Shown {
    Both(Clips),
    Sum(usize),
}

impl From<Clips> for Shown {
    fn from(clips: Clips) -> Shown {
        Shown::Both(clips)
    }
}

impl Shown {
    pub fn sum(self) -> usize {
        match self {
            Shown::Both(both) => both.sum(),
            Shown::Sum(sum) => sum,
        }
    }

    /// Whether these clips would be shown so.
    pub fn is_of(self, clips: Clips) -> bool {
        match self {
            Shown::Both(both) => both == clips,
            Shown::Sum(sum) => sum == clips.sum(),
        }
    }
}
