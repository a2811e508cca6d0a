//! Calibration files.

use std::str;

use crate::calibration::{Calibration, NO_RAMP, Permit, Table, TestRow, Times, Weights, row};
use crate::keys::{Key, Keys, numbers, tables};
use crate::toml::{self, Value};

/// What the note says of a refused calibration behind the file's name.
type Refusal = String;

/// Why a part of a calibration is refused: by a key of its table, or by an axis that doesn't rise.
enum Fault {
    Key(Key),
    Axis(Key),
}

impl From<Key> for Fault {
    fn from(key: Key) -> Fault {
        Fault::Key(key)
    }
}

impl Fault {
    /// The refusal, of a part of that name.
    fn of(self, part: &str) -> Refusal {
        match self {
            Fault::Key(name) => format!("key {part}.{name}"),
            Fault::Axis(name) => format!("axis {part}.{name}"),
        }
    }
}

/// The axes, rows and so on of `permit`.
struct PermitPart {
    pedal: Vec<u16>,
    speed: Vec<u16>,
    torques: Vec<Vec<u16>>,
    threshold: u16,
    brake: bool,
    fall: u16,
}

/// The calibration of a file.
pub fn calibration(bytes: &[u8]) -> Result<Calibration, Refusal> {
    let (calibration, answers) = unanswered(bytes)?;
    match calibration.questions.iter().zip(answers).position(|(question, answer)| question.answer != answer) {
        Some(place) => Err(format!("answer {place}")),
        None => Ok(calibration),
    }
}

/// The right answers to the questions of a file, whatever answers stand in it.
pub fn answers(bytes: &[u8]) -> Result<Vec<u16>, Refusal> {
    Ok(unanswered(bytes)?.0.questions.iter().map(|question| question.answer).collect())
}

/// The calibration of a file with the right answers, and those that stand in it.
fn unanswered(bytes: &[u8]) -> Result<(Calibration, Vec<u16>), Refusal> {
    let table = str::from_utf8(bytes).ok().and_then(toml::document).ok_or("not TOML")?;
    let mut keys = Keys { table };
    let version = keys.number("version", 1..=3).map_err(|name| format!("key {name}"))?;
    let (mut permit, mut torque) = (keys.keys("permit"), keys.keys("torque"));
    let (mut pairs, mut plant, mut answers) = (keys.keys("pairs"), keys.keys("plant"), keys.keys("answers"));
    let parted = permit.permit(version).map_err(|fault| fault.of("permit"))?;
    let (kt, torque_weights) = torque.torque().map_err(|name| format!("key torque.{name}"))?;
    let (tolerances, pair_weights) = pairs.pairs().map_err(|name| format!("key pairs.{name}"))?;
    let (slew, fill, charge) = plant.plant().map_err(|fault| fault.of("plant"))?;
    let times = answers.times().map_err(|name| format!("key answers.{name}"))?;
    let rows = keys.take("question", questions).map_err(|name| format!("key {name}"))?;
    if [keys, permit, torque, pairs, plant, answers].iter().any(|keys| keys.end().is_err()) {
        return Err("key unknown".to_string());
    }
    if let Some(place) = parted.falling_row() {
        return Err(format!("row {place} falls"));
    }
    if !(times.first <= times.send && times.send <= times.last && times.last < times.period) {
        return Err("answer window".to_string());
    }
    let mut calibration = Calibration {
        permit: Permit::new(parted.pedal, parted.speed, &parted.torques),
        threshold: parted.threshold,
        brake: parted.brake,
        fall: parted.fall,
        kt,
        torque: torque_weights,
        tolerances,
        pairs: pair_weights,
        slew,
        fill,
        charge,
        times,
        questions: Vec::new(),
    };
    let (rows, answers): (Vec<_>, _) = rows.into_iter().unzip();
    calibration.questions = rows.into_iter().map(|row| calibration.question(row)).collect();
    Ok((calibration, answers))
}

impl PermitPart {
    /// The first row with a value below the row before it.
    fn falling_row(&self) -> Option<usize> {
        let falls = |rows: &[Vec<u16>]| rows[0].iter().zip(&rows[1]).any(|(before, value)| value < before);
        self.torques.windows(2).position(falls).map(|place| place + 1)
    }
}

/// 2 to 64 questions: each a test row and its answer.
fn questions(value: Value) -> Option<Vec<(TestRow, u16)>> {
    let rows: Vec<(TestRow, u16)> =
        tables(value)?.into_iter().map(|table| Keys { table }.question().ok()).collect::<Option<_>>()?;
    (2..=64).contains(&rows.len()).then_some(rows)
}

impl Keys {
    /// In version 1 there is no brake, and before version 3 no ramp.
    fn permit(&mut self, version: i64) -> Result<PermitPart, Fault> {
        let (pedal, speed) = (self.axis("pedal", 1000)?, self.axis("speed", 8000)?);
        let columns = speed.len();
        let row = |value: &Value| numbers(value, columns..=columns, 10_000);
        let torques = self.list("table", pedal.len()..=pedal.len(), row)?;
        let threshold = self.word("threshold", 0..=10_000)?;
        let brake = version >= 2 && self.truth("brake")?;
        let fall = if version >= 3 { self.word("fall", 0..=10_000)? } else { NO_RAMP };
        Ok(PermitPart { pedal, speed, torques, threshold, brake, fall })
    }

    fn torque(&mut self) -> Result<(u16, Weights), Key> {
        Ok((self.word("kt", 1..=10_000)?, self.weights()?))
    }

    fn pairs(&mut self) -> Result<([u16; 4], Weights), Key> {
        let mut tolerances = [0; 4];
        for (tolerance, name) in tolerances.iter_mut().zip(["pedal", "plate", "load", "speed"]) {
            *tolerance = self.word(name, 0..=10_000)?;
        }
        Ok((tolerances, self.weights()?))
    }

    /// The slew, the fill, and the charge of each plate angle.
    fn plant(&mut self) -> Result<(u16, u16, Table), Fault> {
        let (slew, fill) = (self.word("slew", 1..=1000)?, self.word("fill", 1..=1000)?);
        let points = self.axis("angle", 1000)?;
        let values = self.numbers("charge", points.len()..=points.len(), 1000)?;
        Ok((slew, fill, Table { points, values }))
    }

    fn times(&mut self) -> Result<Times, Key> {
        Ok(Times {
            period: self.number("period", 2..=100)? as u32,
            first: self.number("first", 0..=99)? as u32,
            last: self.number("last", 0..=99)? as u32,
            send: self.number("send", 0..=99)? as u32,
            weights: self.weights()?,
        })
    }

    fn weights(&mut self) -> Result<Weights, Key> {
        Ok(Weights {
            up: self.word("up", 1..=100)?,
            down: self.word("down", 0..=100)?,
            limit: self.word("limit", 1..=10_000)?,
        })
    }

    /// A test row and its answer.
    fn question(mut self) -> Result<(TestRow, u16), Key> {
        let seed = self.number_of("seed")?;
        let pairs = [self.pair("pedal")?, self.pair("plate")?, self.pair("load")?, self.pair("speed")?];
        let raise = [self.number_of("raise")?, self.number_of("check")?];
        let test = [self.number_of("used")?, self.number_of("estimate")?, self.number_of("allowed")?];
        let answer = self.number_of("answer")?;
        self.end()?;
        Ok((row(seed, pairs, raise, test), answer))
    }

    fn number_of(&mut self, name: Key) -> Result<u16, Key> {
        self.word(name, 0..=65535)
    }

    fn pair(&mut self, name: Key) -> Result<[u16; 2], Key> {
        self.take(name, |value| numbers(&value, 2..=2, 65535)?.try_into().ok())
    }

    /// 2 to 16 strictly rising numbers.
    fn axis(&mut self, name: Key, most: u16) -> Result<Vec<u16>, Fault> {
        let points = self.numbers(name, 2..=16, most)?;
        if points.is_sorted_by(|point, next| point < next) { Ok(points) } else { Err(Fault::Axis(name)) }
    }
}
