//! Level 2: eight modules over mirrored words.

use crate::KEEPS;
use crate::calibration::{
    Calibration, Question, Readings, checked_raise, estimate, exceeds, folded, lower_pedal, pair_bits,
};
use crate::level1::Words;

/// Level 1's data begin here, right behind its code.
pub const DATA: usize = 1024;
pub const PORTS: usize = 2048;
pub const THROTTLE: usize = 2064;
pub const IGNITION: usize = 2065;

// The words of level 2, by their addresses.
pub const SIGNALS: usize = 2080;
const USED: usize = SIGNALS;
const PERMITTED: usize = 2081;
const ACTUAL: usize = 2082;
const EXCESS: usize = 2083;
const PAIRS: usize = 2084;
pub const COUNTERS: usize = 2096;
const LIMP: usize = 2101;
const TRIP: usize = 2102;
const TOKEN: usize = 2103;
const FLOW: usize = 2104;
const LAST: usize = 2105;
const SIGN: usize = 2106;

/// The complement of word `n` stands at this address and `n`.
const COMPLEMENTS: usize = 2107;

pub const WHOLE: u16 = 0x00ff;
const BROKEN: u16 = 0x8000;

/// The watches, in their order; `Watches` has a place for each.
pub const WATCHES: [&str; 8] = ["mirror", "pedal", "plate", "load", "speed", "torque", "answers", "start"];
pub type Watches = [bool; 8];

/// Which of the watches trip: mirror, plate, load, speed and torque.
pub const TRIPS: Watches = [true, false, true, true, true, true, false, false];

/// Where a word stands, or, from 16 on, the complement of the word 16 below.
fn address(word: usize) -> usize {
    match word {
        0..5 => SIGNALS + word,
        5..16 => COUNTERS + word - 5,
        _ => COMPLEMENTS + word - 16,
    }
}

/// Where the complement of the word at an address stands.
#[inline(always)]
fn complement(address: usize) -> usize {
    COMPLEMENTS + if address < COUNTERS { address - SIGNALS } else { address - COUNTERS + 5 }
}

/// Stores a word and its complement.
#[inline(always)]
fn keep(words: &mut Words, address: usize, value: u16) {
    words[address] = value;
    words[complement(address)] = !value;
}

fn is_mirrored(words: &Words) -> bool {
    let signals = (0..5).all(|k| words[SIGNALS + k] == !words[COMPLEMENTS + k]);
    signals && (0..11).all(|k| words[COUNTERS + k] == !words[COMPLEMENTS + 5 + k])
}

/// Makes all words of level 2 0.
fn clear(words: &mut Words) {
    words[SIGNALS..SIGNALS + 5].fill(0);
    words[COUNTERS..COUNTERS + 11].fill(0);
    words[COMPLEMENTS..COMPLEMENTS + 16].fill(u16::MAX);
}

/// Makes the words what they are at the start.
pub fn reset(words: &mut Words) {
    clear(words);
    keep(words, FLOW, WHOLE);
    keep(words, LAST, u16::MAX);
}

/// Flips the bits of a mask.
pub fn flip(words: &mut Words, word: usize, mask: u16) {
    words[address(word)] ^= mask;
}

#[inline(always)]
fn next_token(token: u16, module: usize) -> u16 {
    if token == (1 << module) - 1 { (2 << module) - 1 } else { BROKEN }
}

#[inline(always)]
fn pair(words: &Words, number: usize) -> [u16; 2] {
    [words[PORTS + number], words[PORTS + number + 1]]
}

/// What the permit table gives for a pedal and a speed.
#[derive(Clone, Copy)]
pub struct Known {
    pub pedal: u16,
    pub speed: u16,
    pub torque: u16,
}

/// What the modules use in a tick.
pub struct Rules<'a> {
    pub cal: &'a Calibration,
    pub asked: &'a Question,
    /// A pedal, a speed, and what the permit table gives for them: mostly that is asked for again.
    pub known: Known,
    /// Whether the engine is driven. Else the paths are tested: no debouncer is fed, and no answer is sent.
    pub drives: bool,
}

impl Rules<'_> {
    /// Module 0. Answers whether a word differs from its complement.
    #[inline(always)]
    pub fn check(&self, words: &mut Words, tick: u16) -> bool {
        if !is_mirrored(words) {
            give_up(words, tick);
            return true;
        }
        let gap = words[LAST].wrapping_add(1) != tick;
        keep(words, TOKEN, next_token(words[TOKEN], 0));
        keep(words, FLOW, words[FLOW] | if gap { BROKEN } else { 0 });
        keep(words, LAST, tick);
        keep(words, SIGN, self.asked.row.seed);
        false
    }

    /// Writes the signal of module 1 to 5, and folds the result of the test row.
    #[inline(always)]
    fn write(&self, words: &mut Words, module: usize, signal: u16, disturbance: u16) {
        let value = if words[TRIP] != 0 { 0 } else { signal ^ disturbance };
        let result = self.cal.result(self.asked, module) ^ disturbance;
        keep(words, SIGNALS + module - 1, value);
        keep(words, TOKEN, next_token(words[TOKEN], module));
        keep(words, SIGN, folded(words[SIGN], result));
    }

    #[inline(always)]
    pub fn pedal(&self, words: &mut Words, disturbance: u16) {
        let signal = if words[LIMP] != 0 { 0 } else { lower_pedal(pair(words, 0)) };
        self.write(words, 1, signal, disturbance);
    }

    #[inline(always)]
    pub fn permitted(&self, words: &mut Words, disturbance: u16) {
        let (pedal, speeds) = (words[USED], pair(words, 6));
        let raise = checked_raise(words[PORTS + 8], words[PORTS + 9]);
        let is_known = KEEPS && pedal == self.known.pedal && speeds == [self.known.speed; 2];
        let demand = if is_known {
            self.known.torque.max(raise)
        } else {
            self.cal.permit.demand(pedal, speeds, raise)
        };
        self.write(words, 2, self.cal.ramped(words[PERMITTED], demand), disturbance);
    }

    #[inline(always)]
    pub fn actual(&self, words: &mut Words, disturbance: u16) {
        let [first, second] = pair(words, 4);
        self.write(words, 3, estimate(first.max(second), self.cal.kt), disturbance);
    }

    #[inline(always)]
    pub fn excess(&self, words: &mut Words, disturbance: u16) {
        let signal = exceeds(words[ACTUAL], words[PERMITTED], self.cal.threshold);
        self.write(words, 4, u16::from(signal), disturbance);
    }

    #[inline(always)]
    pub fn pairs(&self, words: &mut Words, disturbance: u16) {
        let read = Readings {
            pedal: pair(words, 0),
            plate: pair(words, 2),
            load: pair(words, 4),
            speed: pair(words, 6),
            raise: 0,
            check: 0,
        };
        self.write(words, 5, pair_bits(&read, &self.cal.tolerances), disturbance);
    }

    /// Module 6. Marks what is found.
    #[inline(always)]
    pub fn debounce(&self, words: &mut Words, found: &mut Watches) {
        if words[TRIP] == 0 && self.drives {
            let bits = words[PAIRS] & 15 | (words[EXCESS] & 1) << 4;
            for k in 0..5 {
                let weights = if k < 4 { &self.cal.pairs } else { &self.cal.torque };
                let before = words[COUNTERS + k];
                let value = weights.feed(before, bits >> k & 1 == 1);
                keep(words, COUNTERS + k, value);
                found[k + 1] = before < weights.limit && value == weights.limit;
            }
            if found[1] {
                keep(words, LIMP, 1);
            }
            if found[2] | found[3] | found[4] | found[5] {
                keep(words, TRIP, 1);
            }
        }
        keep(words, TOKEN, next_token(words[TOKEN], 6));
    }
}

/// What check does where a word differs from its complement.
#[cold]
fn give_up(words: &mut Words, tick: u16) {
    clear(words);
    keep(words, TRIP, 1);
    keep(words, TOKEN, 1);
    keep(words, FLOW, WHOLE | BROKEN);
    keep(words, LAST, tick);
}

/// Module 7, which may be told to order path 1 open. Answers whether it does, and the answer.
#[inline(always)]
pub fn react(words: &mut Words, send: bool, told: bool) -> (bool, Option<u32>) {
    let trip = words[TRIP] != 0;
    let whole = next_token(words[TOKEN], 7) == WHOLE;
    let flow = words[FLOW] | if whole { 0 } else { BROKEN };
    let sends = send && !trip;
    keep(words, TOKEN, 0);
    keep(words, FLOW, if sends { WHOLE } else { flow });
    (trip || told, sends.then(|| u32::from(flow) << 16 | u32::from(words[SIGN])))
}
