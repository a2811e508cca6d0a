//! How near the runs of a campaign came to a cut: a line for each.

use crate::calibration::Calibration;
use crate::level2::TRIPS;
use crate::table::{class_and_onset, shown};
use crate::unit::{Row, Run, play};

pub const HEADER: &str = "run,class,onset,pedal,plate,load,speed,torque,answers,surplus\n";

/// What is known of the rows of a run.
#[derive(Default)]
struct Margins {
    /// The greatest weights in a drive span, of pedal, plate, load, speed, torque and answers.
    weights: [u16; 6],
    /// The greatest difference of what level 2 estimates and permits, in a drive span up to its first trip.
    surplus: Option<i32>,
    /// Whether a trip came in this span.
    tripped: bool,
}

impl Margins {
    fn add(&mut self, row: &Row) {
        self.tripped &= !row.fresh;
        if !row.drives {
            return;
        }
        for (greatest, weight) in self.weights.iter_mut().zip(row.weights) {
            *greatest = weight.max(*greatest);
        }
        if !self.tripped {
            let [_, permitted, actual, ..] = row.signals;
            self.surplus = self.surplus.max(Some(i32::from(actual) - i32::from(permitted)));
        }
        self.tripped |= row.found.iter().zip(TRIPS).any(|(found, trips)| *found && trips);
    }
}

/// Plays a run of this name. Its line, with its line feed.
pub fn line(cal: &Calibration, name: &str, run: &Run) -> String {
    let mut margins = Margins::default();
    play(cal, run, |row| margins.add(row));
    let weights: String = margins.weights.iter().map(|weight| format!("{weight},")).collect();
    format!("{name},{},{weights}{}\n", class_and_onset(run), shown(margins.surplus))
}
