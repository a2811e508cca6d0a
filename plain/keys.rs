//! What the tables of campaigns and calibrations hold, by their names.

use std::ops::RangeInclusive;

use crate::toml::{Table, Value};

pub fn tables(value: Value) -> Option<Vec<Table>> {
    list(value)?.into_iter().map(table).collect()
}

fn table(value: Value) -> Option<Table> {
    if let Value::Table(table) = value { Some(table) } else { None }
}

fn list(value: Value) -> Option<Vec<Value>> {
    if let Value::List(values) = value { Some(values) } else { None }
}

pub fn number(value: &Value, range: RangeInclusive<i64>) -> Option<i64> {
    if let Value::Number(number) = value { range.contains(number).then_some(*number) } else { None }
}

fn word(value: &Value, most: u16) -> Option<u16> {
    number(value, 0..=i64::from(most)).map(|number| number as u16)
}

pub fn truth(value: &Value) -> Option<bool> {
    if let Value::Truth(truth) = value { Some(*truth) } else { None }
}

/// A list of so many numbers.
pub fn numbers(value: &Value, counts: RangeInclusive<usize>, most: u16) -> Option<Vec<u16>> {
    let Value::List(values) = value else { return None };
    let numbers: Vec<u16> = values.iter().map(|value| word(value, most)).collect::<Option<_>>()?;
    counts.contains(&numbers.len()).then_some(numbers)
}

/// The name of a key that is refused, of its own table.
pub type Key = &'static str;

/// The names of a table that weren't taken yet.
pub struct Keys {
    pub table: Table,
}

impl Keys {
    /// What a name holds, made into something else; or the name, where it is missing or holds anything else.
    pub fn take<T>(&mut self, name: Key, made: impl FnOnce(Value) -> Option<T>) -> Result<T, Key> {
        self.table.remove(name).and_then(made).ok_or(name)
    }

    /// The same, and this where the name is missing.
    pub fn take_or<T>(
        &mut self,
        name: Key,
        absent: T,
        made: impl FnOnce(Value) -> Option<T>,
    ) -> Result<T, Key> {
        if self.table.contains_key(name) { self.take(name, made) } else { Ok(absent) }
    }

    /// Refused where a name is left.
    pub fn end(&self) -> Result<(), Key> {
        if self.table.is_empty() { Ok(()) } else { Err("unknown") }
    }

    /// The keys of a table, none where it is missing.
    pub fn keys(&mut self, name: Key) -> Keys {
        Keys { table: self.take(name, table).unwrap_or_default() }
    }

    pub fn text(&mut self, name: Key, is_good: impl Fn(&str) -> bool) -> Result<String, Key> {
        self.take(
            name,
            |value| if let Value::Text(text) = value { is_good(&text).then_some(text) } else { None },
        )
    }

    pub fn truth(&mut self, name: Key) -> Result<bool, Key> {
        self.take(name, |value| truth(&value))
    }

    pub fn number(&mut self, name: Key, range: RangeInclusive<i64>) -> Result<i64, Key> {
        self.take(name, |value| number(&value, range))
    }

    pub fn word(&mut self, name: Key, range: RangeInclusive<i64>) -> Result<u16, Key> {
        self.number(name, range).map(|number| number as u16)
    }

    pub fn place(&mut self, name: Key, range: RangeInclusive<i64>) -> Result<usize, Key> {
        self.number(name, range).map(|number| number as usize)
    }

    pub fn numbers(&mut self, name: Key, counts: RangeInclusive<usize>, most: u16) -> Result<Vec<u16>, Key> {
        self.take(name, |value| numbers(&value, counts, most))
    }

    /// A list of so many entries.
    pub fn list<T>(
        &mut self,
        name: Key,
        counts: RangeInclusive<usize>,
        entry: impl Fn(&Value) -> Option<T>,
    ) -> Result<Vec<T>, Key> {
        self.take(name, |value| {
            let entries: Vec<T> = list(value)?.iter().map(entry).collect::<Option<_>>()?;
            counts.contains(&entries.len()).then_some(entries)
        })
    }
}
