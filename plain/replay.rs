//! Level 2 alone over the readings of a measurement: the lines of `signals`, and what `replay` says of them.

use crate::calibration::{
    Calibration, Readings, Weights, checked_raise, estimate, exceeds, lower_pedal, pair_bits,
};
use crate::level2::{TRIPS, WATCHES, Watches};
use crate::report::at;

pub const HEADER: &str = "tick,used,permitted,actual,excess,pairs,pedal,plate,load,speed,torque,found\n";

/// The debouncers are those of the watches from `pedal` to `torque`, in their order.
const DEBOUNCERS: usize = 5;
const PEDAL: usize = 1;
const TORQUE: usize = 5;

/// What level 2 says of a tick.
pub struct Tick {
    pub number: u64,
    /// The pedal that is used, the torque that is permitted, the estimate, whether that is an excess, and the bits of
    /// the pairs that disagree.
    pub signals: [u16; 5],
    /// What the debouncers weigh after the tick.
    pub weights: [u16; DEBOUNCERS],
    pub found: Watches,
}

/// Level 2 of a unit whose engine is driven from the first tick on.
pub struct Level2<'a> {
    cal: &'a Calibration,
    ticks: u64,
    /// The permitted torque of the tick before, 0 at first.
    permitted: u16,
    weights: [u16; DEBOUNCERS],
    is_limited: bool,
    has_tripped: bool,
}

impl Level2<'_> {
    pub fn new(cal: &Calibration) -> Level2<'_> {
        Level2 { cal, ticks: 0, permitted: 0, weights: [0; DEBOUNCERS], is_limited: false, has_tripped: false }
    }

    /// A tick with these readings of the sensors and of the brake's contacts.
    #[inline(always)]
    pub fn tick(&mut self, read: Readings, brake: [u16; 2]) -> Tick {
        let number = self.ticks;
        self.ticks += 1;
        if self.has_tripped {
            return Tick { number, signals: [0; 5], weights: self.weights, found: [false; 8] };
        }
        let signals = self.signals(&self.gated(read, brake));
        let found = self.debounce(&signals);
        Tick { number, signals, weights: self.weights, found }
    }

    /// The readings, without pedal and raise where the brake counts and a contact says that it is pressed.
    #[inline(always)]
    fn gated(&self, read: Readings, [first, second]: [u16; 2]) -> Readings {
        if self.cal.brake && (first != 0 || second == 0) {
            Readings { pedal: [0, 1000], raise: 0, check: u16::MAX, ..read }
        } else {
            read
        }
    }

    #[inline(always)]
    fn signals(&mut self, read: &Readings) -> [u16; 5] {
        let cal = self.cal;
        let used = if self.is_limited { 0 } else { lower_pedal(read.pedal) };
        let demand = cal.permit.demand(used, read.speed, checked_raise(read.raise, read.check));
        let permitted = cal.ramped(self.permitted, demand);
        self.permitted = permitted;
        let actual = estimate(read.load[0].max(read.load[1]), cal.kt);
        let excess = u16::from(exceeds(actual, permitted, cal.threshold));
        [used, permitted, actual, excess, pair_bits(read, &cal.tolerances)]
    }

    /// Feeds each debouncer with its bit. Answers what is found.
    #[inline(always)]
    fn debounce(&mut self, signals: &[u16; 5]) -> Watches {
        let bits = signals[4] | signals[3] << 4;
        let mut found = [false; 8];
        for (place, weight) in self.weights.iter_mut().enumerate() {
            let weights = weights_of(self.cal, place + PEDAL);
            let before = *weight;
            *weight = weights.feed(before, bits >> place & 1 == 1);
            found[place + PEDAL] = before < weights.limit && *weight == weights.limit;
        }
        self.is_limited |= found[PEDAL];
        self.has_tripped = trips(&found);
        found
    }
}

/// The weights of a watch's debouncer.
fn weights_of(cal: &Calibration, watch: usize) -> &Weights {
    if watch == TORQUE { &cal.torque } else { &cal.pairs }
}

/// Whether something is found that trips.
fn trips(found: &Watches) -> bool {
    found.iter().zip(TRIPS).any(|(found, trips)| *found && trips)
}

/// What is known of the ticks of a measurement.
#[derive(Default)]
pub struct Summary {
    ticks: u64,
    /// By watches from `pedal` to `torque`: when something was found, and the greatest weight.
    found: [Option<u64>; DEBOUNCERS],
    greatest: [u16; DEBOUNCERS],
    trip: Option<u64>,
    /// How many ticks in a row have had an excess up to now, and how many at most.
    excesses: u64,
    stretch: u64,
    /// The greatest difference of what is estimated and permitted, up to the trip.
    surplus: i32,
}

impl Summary {
    #[inline(always)]
    pub fn add(&mut self, tick: &Tick) {
        let [_, permitted, actual, excess, _] = tick.signals;
        self.excesses = if excess == 0 { 0 } else { self.excesses + 1 };
        self.stretch = self.stretch.max(self.excesses);
        let surplus = i32::from(actual) - i32::from(permitted);
        if self.trip.is_none() && (self.ticks == 0 || surplus > self.surplus) {
            self.surplus = surplus;
        }
        self.ticks += 1;
        for (greatest, weight) in self.greatest.iter_mut().zip(tick.weights) {
            *greatest = weight.max(*greatest);
        }
        if tick.found.contains(&true) {
            self.add_found(tick);
        }
    }

    #[cold]
    fn add_found(&mut self, tick: &Tick) {
        for (place, since) in self.found.iter_mut().enumerate() {
            if tick.found[place + PEDAL] {
                *since = Some(tick.number);
            }
        }
        if trips(&tick.found) {
            self.trip = Some(tick.number);
        }
    }

    /// The lines of `replay`, each with its line feed.
    pub fn lines(&self, cal: &Calibration) -> Vec<String> {
        let mut lines = vec![format!("ticks {}\n", self.ticks)];
        for place in 0..DEBOUNCERS {
            let (watch, found) = (WATCHES[place + PEDAL], at(self.found[place], "none"));
            let limit = weights_of(cal, place + PEDAL).limit;
            lines.push(format!("{watch} {found}; greatest {} of {limit}\n", self.greatest[place]));
        }
        lines.push(format!("trip {}\n", at(self.trip, "never")));
        lines.push(format!("stretch {}\n", self.stretch));
        lines.push(format!("surplus {}\n", self.surplus));
        lines
    }
}
