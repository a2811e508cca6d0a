//! The unit of a run around an engine that somebody else has, the partner: it is told what is commanded, and answers
//! through standard input, a line a tick, with the drive and what its engine shows.

use crate::End;
use crate::calibration::{Calibration, Drive, estimate};
use crate::campaign::Plan;
use crate::engine::{Foreign, Shown};
use crate::fault::Effects;
use crate::lines::{Lines, comma, number, refused};
use crate::record;
use crate::unit::{Commands, Row, Unit};

/// The longest answer with CR LF: seven numbers, two truth values, and commas between.
const MOST_BYTES: usize = 7 * 5 + 2 + 8 + 2;
const MOST_TICKS: u64 = 20_000;

pub fn header() -> String {
    format!("{},next_throttle,next_ignition,next_on,next_held\n", record::HEADER.trim_end())
}

/// What a partner answers: the drive row of the tick, and what its engine shows after its step.
pub struct Answer {
    drive: Drive,
    shown: Shown,
}

pub struct Partner {
    lines: Lines,
}

impl Partner {
    pub fn begin() -> Result<Partner, End> {
        Ok(Partner { lines: Lines::of_input(MOST_BYTES)? })
    }

    /// The answer for the next tick, or none behind the last. The stages are on at it, unless its row resets.
    #[inline(always)]
    pub fn next(&mut self, kt: u16, on: bool) -> Result<Option<Answer>, End> {
        let Some(line) = self.lines.next()? else { return Ok(None) };
        let answer = answer(line);
        let record = self.lines.count;
        if record > MOST_TICKS {
            return refused(format!("more than {MOST_TICKS} records"));
        }
        let Some(answer) = answer else { return refused(format!("record {record}")) };
        let Shown { loads, torque, .. } = answer.shown;
        if loads.iter().any(|load| estimate(*load, kt) < torque) {
            return refused(format!("load below torque in record {record}"));
        }
        if torque > 0 && (answer.drive.reset || !on) {
            return refused(format!("torque with the stages off in record {record}"));
        }
        Ok(Some(answer))
    }
}

/// What a line answers: `pedal,speed,raise,reset,brake,position,load1,load2,torque`.
#[inline(always)]
fn answer(line: &[u8]) -> Option<Answer> {
    let mut line = line;
    let rest = &mut line;
    let (pedal, speed, raise) = (field(rest, 1000)?, field(rest, 8000)?, field(rest, 10000)?);
    let (reset, brake) = (truth(rest)?, truth(rest)?);
    let (position, loads) = (field(rest, 1000)?, [field(rest, 65535)?, field(rest, 65535)?]);
    let torque = number(rest)?;
    let drive = Drive { pedal, speed, raise, reset, brake };
    rest.is_empty().then_some(Answer { drive, shown: Shown { position, loads, torque } })
}

/// A field with a number of at most so much, and the comma behind it.
#[inline(always)]
fn field(rest: &mut &[u8], most: u16) -> Option<u16> {
    let number = number(rest)?;
    comma(rest)?;
    (number <= most).then_some(number)
}

/// A field that tells whether something is so, and the comma behind it.
#[inline(always)]
fn truth(rest: &mut &[u8]) -> Option<bool> {
    let [digit @ (b'0' | b'1'), b',', more @ ..] = *rest else { return None };
    *rest = more;
    Some(*digit == b'1')
}

/// The unit of a run, around the partner's engine.
pub struct Coupled<'a> {
    unit: Unit<'a, Foreign>,
    plan: &'a Plan,
    ticks: u32,
}

impl<'a> Coupled<'a> {
    pub fn new(cal: &'a Calibration, image: &[u16], plan: &'a Plan) -> Coupled<'a> {
        Coupled { unit: Unit::new(cal, image), plan, ticks: 0 }
    }

    /// What is out of order at the next tick.
    fn effects(&self) -> Effects {
        self.plan.fault.as_ref().map_or(Effects::NONE, |fault| fault.effects(self.ticks))
    }

    /// What the next tick commands, unless its drive row resets the unit.
    pub fn commands(&self) -> Commands {
        self.unit.commands(&self.effects())
    }

    /// Makes the tick of an answer.
    pub fn tick(&mut self, answer: &Answer) -> Option<Row> {
        let budget = &self.plan.slices[self.ticks as usize % self.plan.slices.len()];
        let mut made = None;
        let mut show = |row: &Row| made = Some(*row);
        self.unit.engine.told = answer.shown;
        match &self.plan.fault {
            None => self.unit.tick(&answer.drive, budget, &Effects::NONE, &mut show),
            Some(fault) => self.unit.tick(&answer.drive, budget, &fault.effects(self.ticks), &mut show),
        }
        self.ticks += 1;
        made
    }
}
