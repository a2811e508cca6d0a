//! The engines: two make one step a tick, by the plant of the calibration; the steps of a third are made elsewhere.

use crate::calibration::{Calibration, moved_toward};

/// Which engine a run has.
#[derive(Clone, Copy)]
pub enum Kind {
    Gasoline,
    Diesel,
}

/// What an engine shows: its position, the loads for both tracks, and its torque.
#[derive(Clone, Copy)]
pub struct Shown {
    pub position: u16,
    pub loads: [u16; 2],
    pub torque: u16,
}

pub trait Engine {
    fn at_rest(cal: &Calibration) -> Self;

    /// One step by the commands for position and ignition; a position that is held stays where it is held.
    fn step(&mut self, cal: &Calibration, commands: [u16; 2], on: bool, held: Option<u16>);

    fn shown(&self) -> Shown;
}

/// The plate meters the air, and the charge follows the plate.
pub struct Gasoline {
    plate: u16,
    charge: u16,
    torque: u16,
}

/// The rack meters what is injected, at most what burns in the boost without smoke, and the boost follows the rack.
pub struct Diesel {
    rack: u16,
    boost: u16,
    quantity: u16,
    torque: u16,
}

/// An engine elsewhere, which tells after each of its steps what it shows.
pub struct Foreign {
    pub told: Shown,
}

impl Engine for Foreign {
    fn at_rest(_: &Calibration) -> Foreign {
        Foreign { told: Shown { position: 0, loads: [0; 2], torque: 0 } }
    }

    fn step(&mut self, _: &Calibration, _: [u16; 2], _: bool, _: Option<u16>) {}

    #[inline(always)]
    fn shown(&self) -> Shown {
        self.told
    }
}

impl Engine for Gasoline {
    fn at_rest(cal: &Calibration) -> Gasoline {
        Gasoline { plate: 0, charge: cal.charge.at(0), torque: 0 }
    }

    #[inline(always)]
    fn step(&mut self, cal: &Calibration, [throttle, ignition]: [u16; 2], on: bool, held: Option<u16>) {
        let filled = cal.charge.at(self.plate);
        self.plate = position(cal, self.plate, throttle, on, held);
        self.charge = moved_toward(self.charge, filled, cal.fill);
        self.torque = torque(cal, self.charge, ignition, on);
    }

    #[inline(always)]
    fn shown(&self) -> Shown {
        Shown { position: self.plate, loads: [self.charge; 2], torque: self.torque }
    }
}

impl Engine for Diesel {
    fn at_rest(_: &Calibration) -> Diesel {
        Diesel { rack: 0, boost: 0, quantity: 0, torque: 0 }
    }

    #[inline(always)]
    fn step(&mut self, cal: &Calibration, [throttle, ignition]: [u16; 2], on: bool, held: Option<u16>) {
        self.boost = moved_toward(self.boost, self.rack, cal.fill);
        self.rack = position(cal, self.rack, throttle, on, held);
        self.quantity = if on { self.rack.min(cal.charge.at(self.boost)) } else { 0 };
        self.torque = torque(cal, self.quantity, ignition, on);
    }

    #[inline(always)]
    fn shown(&self) -> Shown {
        Shown { position: self.rack, loads: [self.quantity; 2], torque: self.torque }
    }
}

/// The next angle of a plate, or position of a rack.
#[inline(always)]
fn position(cal: &Calibration, now: u16, command: u16, on: bool, held: Option<u16>) -> u16 {
    let target = if on { command.min(1000) } else { 0 };
    held.unwrap_or(moved_toward(now, target, cal.slew))
}

/// The torque of a load.
#[inline(always)]
fn torque(cal: &Calibration, load: u16, ignition: u16, on: bool) -> u16 {
    let full = u64::from(load) * u64::from(cal.kt);
    if on { (full * u64::from(ignition.min(1000)) / 1_000_000) as u16 } else { 0 }
}
