//! A run under every class of fault, each at every onset of a grid, and the table of what comes of it.

use crate::calibration::{Calibration, Drive};
use crate::fault::{Class, Fault};
use crate::level2::WATCHES;
use crate::report::{Detections, Summary, summary};
use crate::unit::Run;

const MOST_RUNS: usize = 1000;
const MOST_TICKS: usize = 1_000_000;

/// The faults of the grid, in the order of the table's lines. The last is no listed fault.
fn classes() -> [Class; 14] {
    [
        Class::Script { track: 4, values: vec![0] },
        Class::Offset { track: 0, add: 200 },
        Class::Bus { mask: 1 },
        Class::Plate { at: 1000 },
        Class::Skip { module: 3 },
        Class::Disturb { module: 3, mask: 4096 },
        Class::Flip { word: 3, mask: 1 },
        Class::Halt,
        Class::Timing { offset: 99 },
        Class::Wild { questions: vec![65535], opens: vec![false] },
        Class::Path1Closed,
        Class::Path2Closed,
        Class::PathOpen { path: 1 },
        Class::Lapse { after: vec![0], every: 0 },
    ]
}

/// What is counted over the runs of one class.
#[derive(Default)]
struct Row {
    runs: u32,
    detections: Detections,
    reaction: Option<u32>,
}

impl Row {
    fn add(&mut self, summary: &Summary) {
        self.runs += 1;
        self.detections.add(summary);
        self.reaction = self.reaction.max(summary.reaction());
    }

    fn line(&self, class: &str) -> String {
        let Detections { none, first } = &self.detections;
        let watches: String =
            WATCHES.iter().zip(first).map(|(name, count)| format!("{name} {count}; ")).collect();
        format!("{class}: runs {}; none {none}; {watches}reaction {}\n", self.runs, ticks(self.reaction))
    }
}

fn ticks(reaction: Option<u32>) -> String {
    reaction.map_or("none".to_string(), |ticks| ticks.to_string())
}

/// The lines of the table, each with its line feed, or None where the grid is too large. The run's own fault and
/// its resets don't count.
pub fn sweep(cal: &Calibration, run: &Run, step: u32) -> Option<Vec<String>> {
    let classes = classes();
    let onsets: Vec<u32> = (0..run.drives.len() as u32).step_by(step as usize).collect();
    let runs = classes.len() * onsets.len();
    if runs > MOST_RUNS || runs * run.drives.len() > MOST_TICKS {
        return None;
    }
    let drives: Vec<Drive> = run.drives.iter().map(|drive| Drive { reset: false, ..*drive }).collect();
    let mut lines = Vec::with_capacity(classes.len() + 1);
    let mut greatest = None;
    for class in classes {
        let name = class.name();
        let is_listed = !matches!(class, Class::Lapse { .. });
        let mut fault = Fault { onset: 0, class };
        let mut row = Row::default();
        for onset in &onsets {
            fault.onset = *onset;
            row.add(&summary(cal, &Run { drives: &drives, fault: Some(&fault), ..*run }));
        }
        lines.push(row.line(name));
        if is_listed {
            greatest = greatest.max(row.reaction);
        }
    }
    lines.push(format!("greatest reaction {}\n", ticks(greatest)));
    Some(lines)
}
