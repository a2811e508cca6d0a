//! The rules of levels 2 and 3 and of the engine, and the numbers that they use.

use crate::KEEPS;

/// Strictly rising points, with a value at each.
pub struct Table {
    pub points: Vec<u16>,
    pub values: Vec<u16>,
}

/// Torques by pedal (rows) and speed (columns), with zeros behind those that are there.
pub struct Permit {
    pedal: Vec<u16>,
    speed: Vec<u16>,
    rows: [[u16; MOST_POINTS]; MOST_POINTS],
}

const MOST_POINTS: usize = 16;

/// The fall that stands for no ramp: what is permitted then falls at once.
pub const NO_RAMP: u16 = u16::MAX;

#[derive(Clone, Copy)]
pub struct Weights {
    pub up: u16,
    pub down: u16,
    pub limit: u16,
}

/// The eight tracks, the raise and its check word.
#[derive(Clone, Copy)]
pub struct Readings {
    pub pedal: [u16; 2],
    pub plate: [u16; 2],
    pub load: [u16; 2],
    pub speed: [u16; 2],
    pub raise: u16,
    pub check: u16,
}

/// A test row.
pub struct TestRow {
    pub seed: u16,
    readings: Readings,
    used: u16,
    estimate: u16,
    allowed: u16,
}

/// A question: its row, and what level 2 is to compute of the row. The results are those of modules 1 to 5, which are
/// the same each time.
pub struct Question {
    pub row: TestRow,
    results: [u16; 5],
    pub answer: u16,
}

/// When answers are asked for, heard and sent, in ticks.
pub struct Times {
    pub period: u32,
    pub first: u32,
    pub last: u32,
    pub send: u32,
    pub weights: Weights,
}

pub struct Calibration {
    pub permit: Permit,
    pub threshold: u16,
    /// Whether the brake counts.
    pub brake: bool,
    /// By how much the permitted torque may fall in a tick, or `NO_RAMP`.
    pub fall: u16,
    pub kt: u16,
    pub torque: Weights,
    /// Of pedal, plate, load and speed.
    pub tolerances: [u16; 4],
    pub pairs: Weights,
    pub slew: u16,
    pub fill: u16,
    pub charge: Table,
    pub times: Times,
    pub questions: Vec<Question>,
}

/// A row of a trace.
#[derive(Clone, Copy)]
pub struct Drive {
    pub pedal: u16,
    pub speed: u16,
    pub raise: u16,
    /// Whether a power cycle begins.
    pub reset: bool,
    /// Whether the driver brakes.
    pub brake: bool,
}

pub fn row(seed: u16, pairs: [[u16; 2]; 4], raise: [u16; 2], test: [u16; 3]) -> TestRow {
    let [pedal, plate, load, speed] = pairs;
    let readings = Readings { pedal, plate, load, speed, raise: raise[0], check: raise[1] };
    TestRow { seed, readings, used: test[0], estimate: test[1], allowed: test[2] }
}

fn rows() -> [TestRow; 4] {
    let pairs = [
        [[500, 500], [200, 800], [300, 300], [800, 800]],
        [[1000, 0], [0, 1000], [40, 120], [3000, 3000]],
        [[250, 700], [100, 960], [500, 490], [1900, 1900]],
        [[1000, 200], [1000, 0], [0, 0], [800, 6000]],
    ];
    [
        row(4660, pairs[0], [0, 65535], [500, 1400, 1000]),
        row(42435, pairs[1], [0, 65535], [1000, 400, 200]),
        row(3855, pairs[2], [600, 64935], [0, 65535, 65334]),
        row(32769, pairs[3], [300, 300], [750, 0, 0]),
    ]
}

/// The reference calibration.
pub fn reference() -> Calibration {
    let mut calibration = Calibration {
        permit: Permit::new(
            vec![0, 500, 1000],
            vec![800, 3000, 6000],
            &[[200, 100, 0], [1000, 1200, 900], [2000, 2400, 1800]],
        ),
        threshold: 200,
        brake: false,
        fall: NO_RAMP,
        kt: 2500,
        torque: Weights { up: 1, down: 1, limit: 5 },
        tolerances: [50; 4],
        pairs: Weights { up: 2, down: 1, limit: 10 },
        slew: 50,
        fill: 40,
        charge: Table { points: vec![0, 200, 1000], values: vec![40, 300, 1000] },
        times: Times {
            period: 10,
            first: 4,
            last: 7,
            send: 5,
            weights: Weights { up: 3, down: 1, limit: 9 },
        },
        questions: Vec::new(),
    };
    calibration.questions = rows().into_iter().map(|row| calibration.question(row)).collect();
    calibration
}

impl Calibration {
    /// The question that a test row is.
    pub fn question(&self, row: TestRow) -> Question {
        let results = [1, 2, 3, 4, 5].map(|module| self.computed(&row, module));
        let answer = results.iter().fold(row.seed, |sign, result| folded(sign, *result));
        Question { row, results, answer }
    }

    /// What a module from 1 to 5 computes of a test row.
    #[inline(always)]
    fn computed(&self, row: &TestRow, module: usize) -> u16 {
        let read = &row.readings;
        match module {
            1 => lower_pedal(read.pedal),
            2 => self.permit.demand(row.used, read.speed, checked_raise(read.raise, read.check)),
            3 => estimate(read.load[0].max(read.load[1]), self.kt),
            4 => u16::from(exceeds(row.estimate, row.allowed, self.threshold)),
            _ => pair_bits(read, &self.tolerances),
        }
    }

    /// The same of a question.
    #[inline(always)]
    pub fn result(&self, question: &Question, module: usize) -> u16 {
        if KEEPS { question.results[module - 1] } else { self.computed(&question.row, module) }
    }

    /// The permitted torque of a tick with this demand: it may lie below that of the tick before by the fall.
    #[inline(always)]
    pub fn ramped(&self, before: u16, demand: u16) -> u16 {
        demand.max(before.saturating_sub(self.fall))
    }

    /// How many ticks the ramp takes from the greatest torque of the permit table to its least: none where nothing
    /// ever falls.
    pub fn ramp_ticks(&self) -> Option<u16> {
        match self.fall {
            NO_RAMP => Some(0),
            0 => None,
            fall => Some((self.permit.greatest() - self.permit.least()).div_ceil(fall)),
        }
    }

    /// The bound for lapses: none with a ramp, on which level 2's permitted torque stands still at missed ticks.
    pub fn lapse_bound(&self) -> Option<u32> {
        if self.fall == NO_RAMP { self.times.lapse_bound(&self.torque) } else { None }
    }

    /// The longest stretch of excess under lapses: none if a ramp falls and one wrong verdict doesn't confirm.
    pub fn missed(&self) -> Option<u32> {
        let bounds = matches!(self.fall, NO_RAMP | 0) || self.times.wrong_verdicts() == 1;
        bounds.then(|| self.stretch() + self.times.further_ticks(self.torque.to_confirm()).saturating_sub(1))
    }

    /// The longest stretch of excess under a listed fault, in ticks.
    pub fn stretch(&self) -> u32 {
        self.torque.to_confirm() - 1 + self.times.reaction()
    }

    /// The most that the torque of an engine may lie above permitted torque and threshold.
    pub fn peak(&self) -> u16 {
        let charge = self.charge.values.iter().max().map_or(0, |charge| u32::from(*charge));
        let torque = (charge * u32::from(self.kt) / 1000) as u16;
        torque.saturating_sub(self.permit.least()).saturating_sub(self.threshold)
    }
}

/// A fold with one result more.
#[inline(always)]
pub fn folded(sign: u16, result: u16) -> u16 {
    sign.rotate_left(3) ^ result
}

impl Times {
    /// How many wrong verdicts in a row confirm.
    pub fn wrong_verdicts(&self) -> u32 {
        self.weights.to_confirm()
    }

    /// The worst-case reaction.
    pub fn reaction(&self) -> u32 {
        (self.wrong_verdicts() + 1) * self.period - self.send - 1
    }

    /// The bound for lapses without a ramp, where the torque is debounced by these weights: none where the right
    /// verdicts of a round may take as much as its wrong one adds.
    fn lapse_bound(&self, torque: &Weights) -> Option<u32> {
        let periods = torque.to_confirm().div_ceil(self.period);
        let taken = (periods - 1) * u32::from(self.weights.down);
        let worth = u32::from(self.weights.up).checked_sub(taken).filter(|worth| *worth > 0)?;
        let rounds = u32::from(self.weights.limit).div_ceil(worth);
        Some((rounds * periods + 2) * self.period)
    }

    /// For how many ticks right verdicts can put off the confirming one while so many runs confirm the torque: each
    /// right one takes the runs of a period from those before the trip, and the bad answer before it one run.
    fn further_ticks(&self, runs: u32) -> u32 {
        let (few, limit) = (self.wrong_verdicts(), u32::from(self.weights.limit));
        let right = runs.saturating_sub(2) / self.period;
        let taken = right * u32::from(self.weights.down);
        let wrong = ((limit - 1 + taken) / u32::from(self.weights.up) + 1).min(few + right * (few - 1));
        (wrong - few) * self.period
    }

    /// The least distance from which on missed runs of level 2 never cut: each spoils two verdicts at most, and the
    /// right ones between take back what those add. None where two wrong ones confirm.
    pub fn miss_spacing(&self) -> Option<u32> {
        let (spoiled, down) = (2 * u32::from(self.weights.up), u32::from(self.weights.down));
        (down > 0 && spoiled < u32::from(self.weights.limit)).then(|| (spoiled.div_ceil(down) + 1) * self.period + 1)
    }

    /// The tick of a test span at which the paths are read back.
    pub fn test_ticks(&self) -> u32 {
        self.wrong_verdicts() * self.period
    }
}

/// Where a number lies on an axis: between two points, with its distances from them, or at one of the ends.
#[derive(Clone, Copy)]
struct Spot {
    low: usize,
    high: usize,
    above_low: u32,
    below_high: u32,
}

impl Spot {
    #[inline(always)]
    fn of(points: &[u16], x: u16) -> Spot {
        let mut high = 0;
        while high < points.len() && points[high] < x {
            high += 1;
        }
        if high == 0 || high == points.len() {
            let end = high.saturating_sub(1);
            return Spot { low: end, high: end, above_low: 0, below_high: 1 };
        }
        let low = high - 1;
        Spot { low, high, above_low: u32::from(x - points[low]), below_high: u32::from(points[high] - x) }
    }

    /// What lies there of two values.
    #[inline(always)]
    fn between(&self, low: u16, high: u16) -> u16 {
        let sum = u32::from(low) * self.below_high + u32::from(high) * self.above_low;
        (sum / (self.below_high + self.above_low)) as u16
    }

    #[inline(always)]
    fn of_values(&self, values: &[u16]) -> u16 {
        self.between(values[self.low], values[self.high])
    }
}

impl Table {
    #[inline(always)]
    pub fn at(&self, x: u16) -> u16 {
        Spot::of(&self.points, x).of_values(&self.values)
    }
}

impl Permit {
    /// A row of torques for each pedal point, with one for each speed point.
    pub fn new<R: AsRef<[u16]>>(pedal: Vec<u16>, speed: Vec<u16>, torques: &[R]) -> Permit {
        let mut rows = [[0; MOST_POINTS]; MOST_POINTS];
        for (place, row) in rows.iter_mut().zip(torques) {
            place[..row.as_ref().len()].copy_from_slice(row.as_ref());
        }
        Permit { pedal, speed, rows }
    }

    /// The torque at a pedal and a speed.
    #[inline(always)]
    fn at(&self, pedal: Spot, speed: u16) -> u16 {
        let speed = Spot::of(&self.speed, speed);
        pedal.between(speed.of_values(&self.rows[pedal.low]), speed.of_values(&self.rows[pedal.high]))
    }

    /// The least torque that it permits: the least of its first row.
    fn least(&self) -> u16 {
        self.rows[0][..self.speed.len()].iter().copied().min().unwrap_or(0)
    }

    /// The greatest torque of the table: the greatest of its last row, below which no other row's lies.
    fn greatest(&self) -> u16 {
        self.rows[self.pedal.len() - 1].iter().copied().max().unwrap_or(0)
    }

    /// The torque that a pedal and the lower of two speeds' values demand, or the raise.
    pub fn demand(&self, pedal: u16, speeds: [u16; 2], raise: u16) -> u16 {
        let pedal = Spot::of(&self.pedal, pedal);
        let [first, second] = speeds.map(|speed| self.at(pedal, speed));
        first.min(second).max(raise)
    }

    /// What the table gives.
    #[inline(always)]
    pub fn table(&self, pedal: u16, speed: u16) -> u16 {
        self.at(Spot::of(&self.pedal, pedal), speed)
    }
}

pub fn moved_toward(from: u16, target: u16, reach: u16) -> u16 {
    if from <= target { from + (target - from).min(reach) } else { from - (from - target).min(reach) }
}

pub fn estimate(load: u16, kt: u16) -> u16 {
    (u32::from(load) * u32::from(kt)).div_ceil(1000).min(65535) as u16
}

pub fn exceeds(torque: u16, permitted: u16, threshold: u16) -> bool {
    u32::from(torque) > u32::from(permitted) + u32::from(threshold)
}

impl Weights {
    /// How many bad feeds in a row confirm.
    pub fn to_confirm(&self) -> u32 {
        u32::from(self.limit).div_ceil(u32::from(self.up))
    }

    /// A counter after one feed. At the limit it stays.
    #[inline(always)]
    pub fn feed(&self, value: u16, bad: bool) -> u16 {
        if value >= self.limit {
            value
        } else if bad {
            (value + self.up).min(self.limit)
        } else {
            value.saturating_sub(self.down)
        }
    }
}

fn falling(reading: u16) -> u16 {
    1000u16.saturating_sub(reading)
}

/// The lower of the two pedal values.
pub fn lower_pedal(pedal: [u16; 2]) -> u16 {
    pedal[0].min(falling(pedal[1]))
}

pub fn checked_raise(raise: u16, check: u16) -> u16 {
    if raise == !check { raise } else { 0 }
}

fn disagree(first: u16, second: u16, tolerance: u16) -> u16 {
    u16::from(first.abs_diff(second) > tolerance)
}

/// The bits of the pairs that disagree.
#[inline(always)]
pub fn pair_bits(read: &Readings, tolerances: &[u16; 4]) -> u16 {
    disagree(read.pedal[0], falling(read.pedal[1]), tolerances[0])
        | disagree(read.plate[0], falling(read.plate[1]), tolerances[1]) << 1
        | disagree(read.load[0], read.load[1], tolerances[2]) << 2
        | disagree(read.speed[0], read.speed[1], tolerances[3]) << 3
}
