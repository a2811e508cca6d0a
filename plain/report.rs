//! What is said of runs.

use std::fmt::Display;

use crate::calibration::{Calibration, exceeds};
use crate::level1::Trap;
use crate::level2::WATCHES;
use crate::unit::{Row, Run, play};

/// What is said of a run.
#[derive(Default)]
pub struct Summary {
    /// The number of the first watch that found something, and its tick.
    pub first: Option<(usize, u32)>,
    /// The first tick at which the stages are off and no test is running.
    pub off: Option<u32>,
    /// The first tick at which the true excess is confirmed within its span.
    pub confirmed: Option<u32>,
    pub trap: Option<(Trap, u32)>,
    /// The tick after the last one at which the stages were on, and the count of all ticks.
    after_on: u32,
    ticks: u32,
    /// The counter of the true excess.
    counter: u16,
}

/// Plays a run, and sums it up.
pub fn summary(cal: &Calibration, run: &Run) -> Summary {
    let mut summary = Summary::default();
    let trap = play(cal, run, |row| summary.add(cal, row));
    Summary { trap, ..summary }
}

impl Summary {
    #[inline(always)]
    fn add(&mut self, cal: &Calibration, row: &Row) {
        self.ticks += 1;
        if row.on {
            self.after_on = self.ticks;
        } else if self.off.is_none() && !row.testing {
            self.off = Some(row.tick);
        }
        if row.fresh {
            self.counter = 0;
        }
        let bad = exceeds(row.torque, row.limit, cal.threshold);
        self.counter = cal.torque.feed(self.counter, bad);
        if self.confirmed.is_none() && self.counter >= cal.torque.limit {
            self.confirmed = Some(row.tick);
        }
        if self.first.is_none() {
            self.first = row.found.iter().position(|found| *found).map(|watch| (watch, row.tick));
        }
    }

    /// How many ticks after the confirmed excess the stages are off to the end, where they are.
    pub fn reaction(&self) -> Option<u32> {
        let confirmed = self.confirmed?;
        (self.after_on < self.ticks).then(|| self.after_on.saturating_sub(confirmed))
    }

    /// The line of the run, with its line feed.
    pub fn line(&self, name: &str, cal: &Calibration) -> String {
        let first =
            self.first.map_or("none".to_string(), |(watch, tick)| format!("{} at {tick}", WATCHES[watch]));
        format!(
            "{name}: first {first}; off {}; trap {}; excess {}; bound {}\n",
            at(self.off, "never"),
            trap_text(self.trap),
            at(self.confirmed, "none"),
            cal.times.reaction()
        )
    }
}

/// In how many runs no watch found anything, and in how many each watch found something first.
#[derive(Default)]
pub struct Detections {
    pub none: u32,
    pub first: [u32; WATCHES.len()],
}

impl Detections {
    pub fn add(&mut self, summary: &Summary) {
        match summary.first {
            None => self.none += 1,
            Some((watch, _)) => self.first[watch] += 1,
        }
    }
}

pub fn at<T: Display>(tick: Option<T>, none: &str) -> String {
    tick.map_or(none.to_string(), |tick| format!("at {tick}"))
}

fn trap_text(trap: Option<(Trap, u32)>) -> String {
    let Some((kind, tick)) = trap else {
        return "none".to_string();
    };
    format!("{} at {tick}", trap_name(kind))
}

pub fn trap_name(kind: Trap) -> &'static str {
    match kind {
        Trap::Fetch => "fetch",
        Trap::Load => "load",
        Trap::Store => "store",
        Trap::Illegal => "illegal",
    }
}
