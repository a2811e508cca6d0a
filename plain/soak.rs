//! Runs that a generator of numbers draws, and their summary.

use std::fmt::Write;

use crate::calibration::{Calibration, Drive};
use crate::engine::Kind;
use crate::fault::{Class, Fault};
use crate::level2::WATCHES;
use crate::report::{Detections, Summary, summary};
use crate::unit::Run;

const IDLE: [u16; 2] = [0xf000, 0xd1fe];
const FULL: [u16; 8] = [0x1210, 0x2210, 0x1407, 0x2468, 0xc440, 0xc441, 0xf000, 0xd1fe];

pub struct Draws {
    pub state: u32,
}

/// A run that was drawn.
pub struct Drawn {
    pub image: Vec<u16>,
    pub drives: Vec<Drive>,
    pub fault: Option<Fault>,
}

impl Draws {
    fn draw(&mut self) -> u32 {
        self.state = self.state.wrapping_mul(1_664_525).wrapping_add(1_013_904_223);
        self.state >> 16
    }

    /// A draw modulo a number.
    fn below(&mut self, count: u32) -> u32 {
        self.draw() % count
    }

    fn word(&mut self, count: u32) -> u16 {
        self.below(count) as u16
    }

    fn mask(&mut self) -> u16 {
        1 + self.word(65535)
    }

    fn place(&mut self, count: u32) -> usize {
        self.below(count) as usize
    }

    fn image(&mut self, kind: u32) -> Vec<u16> {
        match kind {
            0 => IDLE.to_vec(),
            1 => FULL.to_vec(),
            2 => (0..256).map(|_| self.draw() as u16).collect(),
            _ => {
                let mut image = FULL.to_vec();
                image[2] = 0x1400 + self.word(8);
                image[3] = 0x2400 + self.word(128);
                image
            }
        }
    }

    fn drives(&mut self) -> Vec<Drive> {
        let mut drives = Vec::with_capacity(2000);
        for _ in 0..20 {
            let (pedal, speed, raise) = (self.word(1001), 800 + self.word(5201), self.word(500));
            drives.extend([Drive { pedal, speed, raise, reset: false, brake: false }; 100]);
        }
        drives
    }

    fn fault(&mut self) -> Option<Fault> {
        let number = self.below(15);
        if number == 14 {
            return None;
        }
        let onset = self.below(2000);
        Some(Fault { onset, class: self.class(number) })
    }

    fn class(&mut self, number: u32) -> Class {
        match number {
            0 => Class::Script { track: self.place(8), values: (0..4).map(|_| self.word(1001)).collect() },
            1 => Class::Offset { track: self.place(8), add: 1 + self.below(500) as i32 },
            2 => Class::Bus { mask: self.mask() },
            3 => Class::Plate { at: self.word(1001) },
            4 => Class::Skip { module: self.place(8) },
            5 => Class::Disturb { module: 1 + self.place(5), mask: self.mask() },
            6 => Class::Flip { word: self.place(32), mask: self.mask() },
            7 => Class::Halt,
            8 => Class::Timing { offset: self.below(10) },
            9 => Class::Wild { questions: (0..2).map(|_| self.draw() as u16).collect(), opens: vec![false] },
            10 => Class::Path1Closed,
            11 => Class::Path2Closed,
            12 => Class::PathOpen { path: 1 + self.below(2) },
            _ => Class::Lapse { after: (0..1 + self.below(8)).collect(), every: 0 },
        }
    }

    pub fn run(&mut self) -> Drawn {
        let kind = self.below(4);
        let image = self.image(kind);
        let drives = self.drives();
        let fault = self.fault();
        Drawn { image, drives, fault }
    }
}

/// What is counted over all runs.
#[derive(Default)]
struct Counts {
    detections: Detections,
    trapped: u32,
    off: u32,
    longest: u32,
}

impl Counts {
    fn add(&mut self, summary: &Summary) {
        self.detections.add(summary);
        self.trapped += u32::from(summary.trap.is_some());
        self.off += u32::from(summary.off.is_some());
        self.longest = self.longest.max(summary.reaction().unwrap_or(0));
    }

    /// No drawn run has a reset, so none finds the last watch, `start`, and it has no line.
    fn text(&self, runs: u32) -> String {
        let mut text = format!("runs {runs}\nnone {}\n", self.detections.none);
        for (name, count) in WATCHES[..WATCHES.len() - 1].iter().zip(self.detections.first) {
            let _ = writeln!(text, "{name} {count}");
        }
        let _ = writeln!(text, "trapped {}\noff {}\nlongest {}", self.trapped, self.off, self.longest);
        text
    }
}

/// Plays so many runs that are drawn from a seed, and sums them up.
pub fn soak(cal: &Calibration, seed: u32, runs: u32) -> String {
    let slices = [[100; 9]];
    let mut draws = Draws { state: seed };
    let mut counts = Counts::default();
    for _ in 0..runs {
        let Drawn { image, drives, fault } = draws.run();
        let engine = Kind::Gasoline;
        let run = Run { image: &image, drives: &drives, plan: &slices, fault: fault.as_ref(), engine };
        counts.add(&summary(cal, &run));
    }
    counts.text(runs)
}
