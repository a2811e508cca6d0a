//! Level 3: the monitoring module.

use crate::calibration::{Question, Times};
use crate::level2::WHOLE;

#[derive(Clone, Copy, PartialEq)]
pub enum Mark {
    None,
    Good,
    Bad,
}

/// What it heard in this period, and its counter.
#[derive(Default)]
pub struct Monitor {
    heard: u16,
    right: bool,
    pub counter: u16,
}

/// What it says of a tick.
pub struct Judgement {
    pub mark: Mark,
    /// Whether it is right, where there is one.
    pub verdict: Option<bool>,
    /// Whether wrong answers are confirmed now.
    pub confirmed: bool,
}

pub fn mark(asked: &Question, answer: Option<u32>) -> Mark {
    let expected = u32::from(WHOLE) << 16 | u32::from(asked.answer);
    match answer {
        None => Mark::None,
        Some(number) if number == expected => Mark::Good,
        Some(_) => Mark::Bad,
    }
}

impl Monitor {
    /// Hears an answer, and gives a verdict at the last tick of a period.
    #[inline(always)]
    pub fn judge(&mut self, times: &Times, mark: Mark, phase: u32) -> Judgement {
        if mark != Mark::None {
            self.heard += 1;
            self.right = mark == Mark::Good && times.first <= phase && phase <= times.last;
        }
        if phase + 1 != times.period {
            return Judgement { mark, verdict: None, confirmed: false };
        }
        let right = self.heard == 1 && self.right;
        let before = self.counter;
        self.counter = times.weights.feed(before, !right);
        self.heard = 0;
        let limit = times.weights.limit;
        Judgement { mark, verdict: Some(right), confirmed: before < limit && self.counter == limit }
    }
}
