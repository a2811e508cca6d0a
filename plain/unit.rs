//! The unit: a tick of all three levels and the engine.

use crate::calibration::{Calibration, Drive, Question};
use crate::engine::{Diesel, Engine, Gasoline, Kind, Shown};
use crate::fault::{Effects, Fault, Reading};
use crate::level1::{Machine, State, Trap, Words};
use crate::level2::{self, COUNTERS, DATA, IGNITION, Known, PORTS, Rules, SIGNALS, THROTTLE, Watches};
use crate::level3::{self, Judgement, Mark, Monitor};

/// The ten tracks: those of the pairs, and the contacts of the brake.
#[inline(always)]
fn tracks(shown: &Shown, drive: &Drive, effects: &Effects) -> [u16; 10] {
    let (pedal, position, speed) = (drive.pedal, shown.position, drive.speed);
    let ([first, second], brake) = (shown.loads, u16::from(drive.brake));
    let mut tracks =
        [pedal, 1000 - pedal, position, 1000 - position, first, second, speed, speed, brake, 1 - brake];
    match effects.track {
        None => {}
        Some((track, Reading::Value(value))) => tracks[track] = value,
        Some((track, Reading::Offset(add))) => {
            tracks[track] = (i32::from(tracks[track]) + add).clamp(0, 65535) as u16;
        }
    }
    tracks
}

/// The ten input ports: the tracks of the pairs, the raise and its check word. Where the brake counts, and a
/// contact says that it is pressed, pedal and raise are 0.
#[inline(always)]
fn ports(cal: &Calibration, shown: &Shown, drive: &Drive, effects: &Effects) -> [u16; 10] {
    let mut ports = tracks(shown, drive, effects);
    let [first, second] = [ports[8], ports[9]];
    (ports[8], ports[9]) = (drive.raise ^ effects.raise, !drive.raise);
    if cal.brake && (first != 0 || second == 0) {
        (ports[0], ports[1]) = (0, 1000);
        (ports[8], ports[9]) = (0, !0);
    }
    ports
}

/// A row of the record.
#[derive(Clone, Copy)]
pub struct Row {
    pub tick: u32,
    pub drive: Drive,
    /// Of a diesel engine the rack and the quantity.
    pub plate: u16,
    pub charge: u16,
    pub torque: u16,
    pub limit: u16,
    pub path1: bool,
    pub path2: bool,
    pub on: bool,
    pub signals: [u16; 5],
    pub throttle: u16,
    pub ignition: u16,
    pub found: Watches,
    pub answer: Mark,
    pub verdict: Option<bool>,
    /// Whether a test of the paths is running, whether a span begins, and whether the engine is driven in it.
    /// None is printed, nor what the debouncers of pedal, plate, load, speed, torque and answers weigh.
    pub testing: bool,
    pub fresh: bool,
    pub drives: bool,
    pub weights: [u16; 6],
}

/// What is commanded to the engine at a tick.
pub struct Commands {
    pub throttle: u16,
    pub ignition: u16,
    /// Whether the stages are on.
    pub on: bool,
    /// Where the plate is held, if it is.
    pub held: Option<u16>,
}

/// What level 2 says of a tick.
struct Orders {
    found: Watches,
    opens: bool,
    answer: Option<u32>,
}

pub struct Unit<'a, E> {
    cal: &'a Calibration,
    words: Words,
    machine: Machine,
    pub engine: E,
    monitor: Monitor,
    /// The tick of the run.
    ticks: u32,
    /// The tick of the span, the tick of its period, and the number of the period's question.
    local: u32,
    phase: u32,
    question: usize,
    /// The permitted torque of the tick before, 0 where a span begins.
    limit: u16,
    /// Whether the engine is driven in the span, or the paths are tested, and how long that takes.
    drives: bool,
    test_ticks: u32,
    /// Whether a test was passed at the tick before.
    passed: bool,
    open1: bool,
    open2: bool,
    trap: Option<(Trap, u32)>,
}

impl<'a, E: Engine> Unit<'a, E> {
    pub fn new(cal: &'a Calibration, image: &[u16]) -> Unit<'a, E> {
        let mut words = [0; 4096];
        words[..image.len()].copy_from_slice(image);
        level2::reset(&mut words);
        Unit {
            cal,
            words,
            machine: Machine::new(image),
            engine: E::at_rest(cal),
            monitor: Monitor::default(),
            ticks: 0,
            local: 0,
            phase: 0,
            question: 0,
            limit: 0,
            drives: true,
            test_ticks: cal.times.test_ticks(),
            passed: false,
            open1: false,
            open2: false,
            trap: None,
        }
    }

    /// Begins a span: all is as new but the engine, and the trap that is told of the run.
    #[cold]
    #[inline(never)]
    fn begin_span(&mut self, drives: bool) {
        self.words[DATA..].fill(0);
        level2::reset(&mut self.words);
        self.machine.restart();
        self.monitor = Monitor::default();
        (self.local, self.phase, self.question, self.limit) = (0, 0, 0, 0);
        (self.drives, self.passed) = (drives, false);
        (self.open1, self.open2) = (false, false);
    }

    /// What the next tick will command, unless its drive row resets the unit: nothing yet where a span begins.
    pub fn commands(&self, effects: &Effects) -> Commands {
        let [open1, open2] = [self.open1 && !self.passed, self.open2 && !self.passed];
        let [throttle, ignition] = if self.passed { [0, 0] } else { self.outputs() };
        let on = (self.drives || self.passed) && effects.conduct(open1, open2) == [true, true];
        Commands { throttle, ignition, on, held: effects.held }
    }

    /// Level 1's outputs as they stand.
    #[inline(always)]
    fn outputs(&self) -> [u16; 2] {
        [self.words[THROTTLE], self.words[IGNITION]]
    }

    /// One tick of all three levels: shows its row.
    #[inline(always)]
    pub fn tick(&mut self, drive: &Drive, budget: &[u16; 9], effects: &Effects, show: &mut impl FnMut(&Row)) {
        if drive.reset || self.passed {
            self.begin_span(!drive.reset);
        }
        if self.drives {
            show(&self.tick_in::<true>(drive, budget, effects));
        } else {
            show(&self.test(drive, budget, effects));
        }
    }

    /// A tick at which the paths are tested, and its row.
    #[inline(never)]
    fn test(&mut self, drive: &Drive, budget: &[u16; 9], effects: &Effects) -> Row {
        self.tick_in::<false>(drive, budget, effects)
    }

    /// A tick at which the engine is driven, or the paths are tested, and its row.
    #[inline(always)]
    fn tick_in<const DRIVES: bool>(&mut self, drive: &Drive, budget: &[u16; 9], effects: &Effects) -> Row {
        let [path1, path2] = effects.conduct(self.open1, self.open2);
        let on = DRIVES && path1 && path2;
        self.engine.step(self.cal, self.outputs(), on, effects.held);
        let shown = self.engine.shown();
        self.words[PORTS..PORTS + 10].copy_from_slice(&ports(self.cal, &shown, drive, effects));
        let asked = self.asked(effects);
        let brakes = self.cal.brake && drive.brake;
        let known = self.known(if brakes { 0 } else { drive.pedal }, drive.speed);
        let rules = Rules { cal: self.cal, asked, known, drives: DRIVES };
        let mut orders = self.levels(budget, &rules, effects);
        self.open1 |= orders.opens;
        let mark = level3::mark(asked, orders.answer);
        let judged = self.judge(mark, effects);
        self.open2 |= judged.confirmed || effects.wild.is_some_and(|wild| wild.1);
        if let (None, State::Trapped(kind)) = (self.trap, self.machine.state) {
            self.trap = Some((kind, self.ticks));
        }
        orders.found[6] = judged.confirmed && DRIVES;
        if !DRIVES && self.local == self.test_ticks {
            self.passed = !(path1 || path2);
            orders.found[7] = !self.passed;
        }
        let testing = !DRIVES && self.local <= self.test_ticks;
        let demand = if brakes { known.torque } else { known.torque.max(drive.raise) };
        self.limit = self.cal.ramped(self.limit, demand);
        let row = Row { testing, ..self.row(drive, [path1, path2, on], orders.found, &judged) };
        self.advance();
        row
    }

    /// What the permit table gives for a pedal and a speed.
    #[inline(always)]
    fn known(&self, pedal: u16, speed: u16) -> Known {
        Known { pedal, speed, torque: self.cal.permit.table(pedal, speed) }
    }

    /// The question that is asked at this tick.
    #[inline(always)]
    fn asked(&self, effects: &Effects) -> &'a Question {
        let questions = &self.cal.questions;
        match effects.wild {
            None => &questions[self.question],
            Some((number, _)) => &questions[usize::from(number) % questions.len()],
        }
    }

    /// What the monitoring module says. A wild one gives no verdicts.
    #[inline(always)]
    fn judge(&mut self, mark: Mark, effects: &Effects) -> Judgement {
        if effects.wild.is_some() {
            return Judgement { mark, verdict: None, confirmed: false };
        }
        self.monitor.judge(&self.cal.times, mark, self.phase)
    }

    /// Nine slices of level 1, and the eight modules of level 2 between them.
    #[inline(always)]
    fn levels(&mut self, budget: &[u16; 9], rules: &Rules, effects: &Effects) -> Orders {
        let mut orders = Orders { found: [false; 8], opens: false, answer: None };
        self.slice(budget[0], effects);
        if let Some((word, mask)) = effects.flip {
            level2::flip(&mut self.words, word, mask);
        }
        self.module::<0>(budget, rules, effects, &mut orders);
        self.module::<1>(budget, rules, effects, &mut orders);
        self.module::<2>(budget, rules, effects, &mut orders);
        self.module::<3>(budget, rules, effects, &mut orders);
        self.module::<4>(budget, rules, effects, &mut orders);
        self.module::<5>(budget, rules, effects, &mut orders);
        self.module::<6>(budget, rules, effects, &mut orders);
        self.module::<7>(budget, rules, effects, &mut orders);
        orders
    }

    #[inline(always)]
    fn slice(&mut self, budget: u16, effects: &Effects) {
        if effects.level1_runs {
            self.machine.slice(&mut self.words, budget);
        }
    }

    /// One module of level 2, and the slice of level 1 after it.
    #[inline(always)]
    fn module<const MODULE: usize>(
        &mut self,
        budget: &[u16; 9],
        rules: &Rules,
        effects: &Effects,
        orders: &mut Orders,
    ) {
        if effects.modules_run[MODULE] {
            let words = &mut self.words;
            let disturbance = effects.disturbances[MODULE];
            match MODULE {
                0 => orders.found[0] = rules.check(words, self.local as u16),
                1 => rules.pedal(words, disturbance),
                2 => rules.permitted(words, disturbance),
                3 => rules.actual(words, disturbance),
                4 => rules.excess(words, disturbance),
                5 => rules.pairs(words, disturbance),
                6 => rules.debounce(words, &mut orders.found),
                _ => {
                    let send = self.phase == effects.send.unwrap_or(self.cal.times.send);
                    let told = !rules.drives && self.local + 1 == self.test_ticks;
                    (orders.opens, orders.answer) = level2::react(words, send && rules.drives, told);
                }
            }
        }
        self.slice(budget[MODULE + 1], effects);
    }

    /// The row, where no test is running; the paths are path 1, path 2, and whether the stages are on.
    #[inline(always)]
    fn row(&self, drive: &Drive, paths: [bool; 3], found: Watches, judged: &Judgement) -> Row {
        let (shown, words) = (self.engine.shown(), &self.words);
        let (mut signals, mut weights) = ([0; 5], [0; 6]);
        signals.copy_from_slice(&words[SIGNALS..SIGNALS + 5]);
        weights[..5].copy_from_slice(&words[COUNTERS..COUNTERS + 5]);
        weights[5] = self.monitor.counter;
        Row {
            tick: self.ticks,
            drive: *drive,
            plate: shown.position,
            charge: shown.loads[0],
            torque: shown.torque,
            limit: self.limit,
            path1: paths[0],
            path2: paths[1],
            on: paths[2],
            signals,
            throttle: words[THROTTLE],
            ignition: words[IGNITION],
            found,
            answer: judged.mark,
            verdict: judged.verdict,
            testing: false,
            fresh: self.local == 0,
            drives: self.drives,
            weights,
        }
    }

    /// Goes on to the next tick, and at a period's end to the next question.
    #[inline(always)]
    fn advance(&mut self) {
        self.ticks += 1;
        self.local += 1;
        self.phase += 1;
        if self.phase == self.cal.times.period {
            self.phase = 0;
            self.question += 1;
            if self.question == self.cal.questions.len() {
                self.question = 0;
            }
        }
    }
}

/// What a run is made of.
pub struct Run<'a> {
    pub image: &'a [u16],
    pub drives: &'a [Drive],
    /// The slices, used in turn.
    pub plan: &'a [[u16; 9]],
    pub fault: Option<&'a Fault>,
    pub engine: Kind,
}

/// Plays a run, and shows each row. Answers level 1's trap and its tick.
pub fn play(cal: &Calibration, run: &Run, show: impl FnMut(&Row)) -> Option<(Trap, u32)> {
    match run.engine {
        Kind::Gasoline => play_by::<Gasoline>(cal, run, show),
        Kind::Diesel => play_by::<Diesel>(cal, run, show),
    }
}

fn play_by<E: Engine>(cal: &Calibration, run: &Run, mut show: impl FnMut(&Row)) -> Option<(Trap, u32)> {
    let mut unit: Unit<E> = Unit::new(cal, run.image);
    let budgets = run.plan.iter().cycle();
    match run.fault {
        None => {
            for (drive, budget) in run.drives.iter().zip(budgets) {
                unit.tick(drive, budget, &Effects::NONE, &mut show);
            }
        }
        Some(fault) => {
            for (drive, budget) in run.drives.iter().zip(budgets) {
                let effects = fault.effects(unit.ticks);
                unit.tick(drive, budget, &effects, &mut show);
            }
        }
    }
    unit.trap
}
