//! Campaigns.

use std::collections::HashSet;
use std::str;

use crate::engine::Kind;
use crate::fault::{Class, Fault};
use crate::keys::{Key, Keys, number, numbers, tables, truth};
use crate::toml::{self, Table, Value};

/// A run as the campaign says it.
pub struct Plan {
    pub name: String,
    pub trace: String,
    pub image: String,
    pub slices: Vec<[u16; 9]>,
    pub engine: Kind,
    pub fault: Option<Fault>,
}

/// What the note says of a refused campaign behind the file's name.
type Refusal = String;

/// Why a run is refused: by a key of it or of its fault, or because it has two faults.
enum RunFault {
    Key(Key),
    Two,
}

impl From<Key> for RunFault {
    fn from(key: Key) -> RunFault {
        RunFault::Key(key)
    }
}

const MOST_RUNS: usize = 1000;

/// The runs of a campaign.
pub fn campaign(bytes: &[u8]) -> Result<Vec<Plan>, Refusal> {
    let table = str::from_utf8(bytes).ok().and_then(toml::document).ok_or("not TOML")?;
    let mut keys = Keys { table };
    let of_file = |name: Key| format!("run 0 key {name}");
    let runs = keys.take("run", |value| tables(value).filter(|runs| !runs.is_empty())).map_err(of_file)?;
    keys.end().map_err(of_file)?;
    if runs.len() > MOST_RUNS {
        return Err(format!("more than {MOST_RUNS} runs"));
    }
    let (mut plans, mut names) = (Vec::with_capacity(runs.len()), HashSet::new());
    for (number, table) in (1..).zip(runs) {
        let plan = plan(table).map_err(|fault| match fault {
            RunFault::Key(name) => format!("run {number} key {name}"),
            RunFault::Two => format!("run {number} has two faults"),
        })?;
        if !names.insert(plan.name.clone()) {
            return Err(format!("run {number} repeats a name"));
        }
        plans.push(plan);
    }
    Ok(plans)
}

fn is_run_name(name: &str) -> bool {
    let is_part = |byte: u8| byte.is_ascii_lowercase() || byte.is_ascii_digit() || byte == b'-';
    (1..=32).contains(&name.len()) && name.bytes().all(is_part) && !name.starts_with('-')
}

fn is_file_name(name: &str) -> bool {
    (1..=200).contains(&name.len()) && !name.starts_with('-')
}

fn plan(table: Table) -> Result<Plan, RunFault> {
    let mut keys = Keys { table };
    let (name, trace) = (keys.text("name", is_run_name)?, keys.text("trace", is_file_name)?);
    let (image, slices) = (keys.text("image", is_file_name)?, keys.slices()?);
    let (engine, faults) = (keys.engine()?, keys.take_or("faults", Vec::new(), tables)?);
    if faults.len() > 1 {
        return Err(RunFault::Two);
    }
    let fault = faults.into_iter().next().map(|table| fault(Keys { table })).transpose()?;
    keys.end()?;
    if let Some((_, fault_keys)) = &fault {
        fault_keys.end()?;
    }
    Ok(Plan { name, trace, image, slices, engine, fault: fault.map(|(fault, _)| fault) })
}

/// A fault, and the names of its table that it doesn't have.
fn fault(mut keys: Keys) -> Result<(Fault, Keys), Key> {
    let name = keys.text("class", |name| CLASSES.contains(&name))?;
    let onset = keys.number("onset", 0..=19999)? as u32;
    let class = keys.class(&name)?;
    Ok((Fault { onset, class }, keys))
}

const CLASSES: [&str; 14] = [
    "script",
    "offset",
    "bus",
    "plate",
    "skip",
    "disturb",
    "flip",
    "halt",
    "timing",
    "wild",
    "path1-closed",
    "path2-closed",
    "path-open",
    "lapse",
];

/// Nine numbers, at most 1,000 in all.
fn slice_row(value: &Value) -> Option<[u16; 9]> {
    let row: [u16; 9] = numbers(value, 9..=9, 1000)?.try_into().ok()?;
    (row.iter().sum::<u16>() <= 1000).then_some(row)
}

impl Keys {
    /// A list of 1 to 64 entries.
    fn entries<T>(&mut self, name: Key, entry: impl Fn(&Value) -> Option<T>) -> Result<Vec<T>, Key> {
        self.list(name, 1..=64, entry)
    }

    fn words(&mut self, name: Key) -> Result<Vec<u16>, Key> {
        self.numbers(name, 1..=64, 65535)
    }

    fn slices(&mut self) -> Result<Vec<[u16; 9]>, Key> {
        if self.table.contains_key("slices") { self.entries("slices", slice_row) } else { Ok(vec![[100; 9]]) }
    }

    fn engine(&mut self) -> Result<Kind, Key> {
        self.take_or("engine", Kind::Gasoline, |value| match value {
            Value::Text(name) if name == "gasoline" => Some(Kind::Gasoline),
            Value::Text(name) if name == "diesel" => Some(Kind::Diesel),
            _ => None,
        })
    }

    fn class(&mut self, name: &str) -> Result<Class, Key> {
        Ok(match name {
            "script" => Class::Script { track: self.track()?, values: self.words("values")? },
            "offset" => Class::Offset { track: self.track()?, add: self.offset()? },
            "bus" => Class::Bus { mask: self.mask()? },
            "plate" => Class::Plate { at: self.word("at", 0..=1000)? },
            "skip" => Class::Skip { module: self.place("module", 0..=7)? },
            "disturb" => Class::Disturb { module: self.place("module", 1..=5)?, mask: self.mask()? },
            "flip" => Class::Flip { word: self.place("word", 0..=31)?, mask: self.mask()? },
            "halt" => Class::Halt,
            "timing" => Class::Timing { offset: self.number("offset", 0..=99)? as u32 },
            "wild" => {
                Class::Wild { questions: self.words("questions")?, opens: self.entries("opens", truth)? }
            }
            "path1-closed" => Class::Path1Closed,
            "path2-closed" => Class::Path2Closed,
            "path-open" => Class::PathOpen { path: self.number("path", 1..=2)? as u32 },
            _ => Class::Lapse { after: self.after()?, every: self.every()? },
        })
    }

    /// One of the eight tracks of pairs, or of the two contacts of the brake.
    fn track(&mut self) -> Result<usize, Key> {
        self.place("track", 0..=9)
    }

    fn mask(&mut self) -> Result<u16, Key> {
        self.word("mask", 1..=65535)
    }

    fn offset(&mut self) -> Result<i32, Key> {
        let is_offset = |add: &i64| *add != 0;
        self.take("add", |value| number(&value, -65535..=65535).filter(is_offset)).map(|add| add as i32)
    }

    /// Strictly rising ticks.
    fn after(&mut self) -> Result<Vec<u32>, Key> {
        let after = self.entries("after", |value| number(value, 0..=19999).map(|tick| tick as u32))?;
        if after.is_sorted_by(|tick, next| tick < next) { Ok(after) } else { Err("after") }
    }

    fn every(&mut self) -> Result<u32, Key> {
        self.take_or("every", 0, |value| number(&value, 0..=20000).map(|every| every as u32))
    }
}
