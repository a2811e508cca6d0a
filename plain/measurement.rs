//! A measurement: readings of the sensors, which come through standard input line by line, and are not kept.

use crate::End;
use crate::calibration::Readings;
use crate::lines::{Lines, numbers, refused};

const HEADER: &str = "pedal1,pedal2,plate1,plate2,load1,load2,speed1,speed2,raise,check";
const BRAKE_HEADER: &str = "pedal1,pedal2,plate1,plate2,load1,load2,speed1,speed2,raise,check,brake1,brake2";

/// The longest line that is accepted has so many bytes, with CR LF.
const MOST_BYTES: usize = BRAKE_HEADER.len() + 2;

/// What the contacts of a brake read that nobody presses.
const LET_GO: [u16; 2] = [0, 1];

pub struct Measurement {
    lines: Lines,
    has_brake: bool,
}

impl Measurement {
    /// Standard input, of which the header is read.
    pub fn begin() -> Result<Measurement, End> {
        let mut lines = Lines::of_input(MOST_BYTES)?;
        let header = lines.next()?;
        let has_brake = header == Some(BRAKE_HEADER.as_bytes());
        if !has_brake && header != Some(HEADER.as_bytes()) {
            return refused("header".to_string());
        }
        Ok(Measurement { lines, has_brake })
    }

    /// The readings of the next tick and what the brake's contacts read, or none behind the last.
    #[inline(always)]
    pub fn next(&mut self) -> Result<Option<(Readings, [u16; 2])>, End> {
        let Some(line) = self.lines.next()? else {
            return if self.lines.count == 1 { refused("no records".to_string()) } else { Ok(None) };
        };
        let row = if self.has_brake {
            numbers(line).map(|[tracks @ .., first, second]: [u16; 12]| (readings(tracks), [first, second]))
        } else {
            numbers(line).map(|tracks| (readings(tracks), LET_GO))
        };
        if row.is_some() { Ok(row) } else { refused(format!("record {}", self.lines.count)) }
    }
}

fn readings(tracks: [u16; 10]) -> Readings {
    let [pedal1, pedal2, plate1, plate2, load1, load2, speed1, speed2, raise, check] = tracks;
    Readings {
        pedal: [pedal1, pedal2],
        plate: [plate1, plate2],
        load: [load1, load2],
        speed: [speed1, speed2],
        raise,
        check,
    }
}
