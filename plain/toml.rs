//! TOML 1.1: the table that a document is.

use std::collections::BTreeMap;

use crate::text::{Reader, Scalar};

/// A value, or a table by its names.
pub enum Value {
    Number(i64),
    Truth(bool),
    Text(String),
    /// A float, a date or a time.
    Other,
    List(Vec<Value>),
    Table(Table),
}

pub type Table = BTreeMap<String, Value>;

/// How deep lists and inline tables may stand in one another.
const MOST_DEPTH: usize = 80;

/// How a table came to be there.
#[derive(Clone, Copy, PartialEq)]
enum Origin {
    /// A heading of a table below it.
    Implied,
    /// A dotted key.
    Dotted,
    /// A heading of its own.
    Heading,
}

/// A table that may still grow.
struct Growing {
    origin: Origin,
    nodes: BTreeMap<String, Node>,
}

/// What a name of such a table stands for.
enum Node {
    /// A value that doesn't grow, as inline tables and lists.
    Value(Value),
    Table(Growing),
    /// The tables of an array of tables, of which the last one may grow.
    Tables(Vec<Growing>),
}

impl Growing {
    fn new(origin: Origin) -> Growing {
        Growing { origin, nodes: BTreeMap::new() }
    }

    /// The table of a name on the way of a heading: one that is there, or a new one.
    fn on_way_of_heading(&mut self, name: &str) -> Option<&mut Growing> {
        let implied = || Node::Table(Growing::new(Origin::Implied));
        match self.nodes.entry(name.to_string()).or_insert_with(implied) {
            Node::Table(table) => Some(table),
            Node::Tables(tables) => tables.last_mut(),
            Node::Value(_) => None,
        }
    }

    /// The table of a name on the way of a dotted key: one that such a key made, or a new one.
    fn on_way_of_key(&mut self, name: &str) -> Option<&mut Growing> {
        let dotted = || Node::Table(Growing::new(Origin::Dotted));
        match self.nodes.entry(name.to_string()).or_insert_with(dotted) {
            Node::Table(table) if table.origin == Origin::Dotted => Some(table),
            _ => None,
        }
    }

    /// Gives a name that isn't there yet this value.
    fn put(&mut self, key: &[String], value: Value) -> Option<()> {
        let (last, way) = key.split_last()?;
        let table = way.iter().try_fold(self, |table, name| table.on_way_of_key(name))?;
        table.nodes.insert(last.clone(), Node::Value(value)).is_none().then_some(())
    }

    /// Begins the table of a heading, which has none yet.
    fn begin(&mut self, key: &[String]) -> Option<()> {
        let (last, way) = key.split_last()?;
        let table = way.iter().try_fold(self, |table, name| table.on_way_of_heading(name))?;
        let implied = || Node::Table(Growing::new(Origin::Implied));
        match table.nodes.entry(last.clone()).or_insert_with(implied) {
            Node::Table(table) if table.origin == Origin::Implied => {
                table.origin = Origin::Heading;
                Some(())
            }
            _ => None,
        }
    }

    /// Begins the next table of an array of tables.
    fn begin_next(&mut self, key: &[String]) -> Option<()> {
        let (last, way) = key.split_last()?;
        let table = way.iter().try_fold(self, |table, name| table.on_way_of_heading(name))?;
        match table.nodes.entry(last.clone()).or_insert_with(|| Node::Tables(Vec::new())) {
            Node::Tables(tables) => {
                tables.push(Growing::new(Origin::Heading));
                Some(())
            }
            _ => None,
        }
    }

    fn done(self) -> Table {
        self.nodes.into_iter().map(|(name, node)| (name, node.done())).collect()
    }
}

impl Node {
    fn done(self) -> Value {
        match self {
            Node::Value(value) => value,
            Node::Table(table) => Value::Table(table.done()),
            Node::Tables(tables) => {
                Value::List(tables.into_iter().map(|table| Value::Table(table.done())).collect())
            }
        }
    }
}

impl Reader<'_> {
    /// A value in which lists and inline tables stand so deep at most.
    fn value(&mut self, depth: usize) -> Option<Value> {
        if depth > 0 && self.takes("[") {
            return self.list(depth - 1).map(Value::List);
        }
        if depth > 0 && self.takes("{") {
            return self.inline_table(depth - 1).map(Value::Table);
        }
        Some(match self.scalar()? {
            Scalar::Number(number) => Value::Number(number),
            Scalar::Truth(truth) => Value::Truth(truth),
            Scalar::Text(text) => Value::Text(text),
            Scalar::Other => Value::Other,
        })
    }

    /// The rest of a list.
    fn list(&mut self, depth: usize) -> Option<Vec<Value>> {
        let mut values = Vec::new();
        loop {
            self.lines();
            if self.takes("]") {
                return Some(values);
            }
            values.push(self.value(depth)?);
            self.lines();
            if !self.takes(",") {
                self.expects("]")?;
                return Some(values);
            }
        }
    }

    /// The rest of a table that is written inline.
    fn inline_table(&mut self, depth: usize) -> Option<Table> {
        let mut table = Growing::new(Origin::Heading);
        loop {
            self.lines();
            if self.takes("}") {
                return Some(table.done());
            }
            self.entry(&mut table, depth)?;
            self.lines();
            if !self.takes(",") {
                self.expects("}")?;
                return Some(table.done());
            }
        }
    }

    /// A key and its value.
    fn entry(&mut self, table: &mut Growing, depth: usize) -> Option<()> {
        let key = self.key()?;
        self.blanks();
        self.expects("=")?;
        self.blanks();
        let value = self.value(depth)?;
        table.put(&key, value)
    }

    /// The key of a heading, with the mark behind it.
    fn heading(&mut self, mark: &str) -> Option<Vec<String>> {
        self.blanks();
        let key = self.key()?;
        self.blanks();
        self.expects(mark)?;
        Some(key)
    }
}

/// Where a byte stands: outside of comments and texts, in a comment, or in a text, which has a delimiter and one line
/// or several. A text of several lines knows how many of its delimiters came last.
#[derive(Clone, Copy, PartialEq)]
enum Place {
    Outside,
    Comment,
    Text(u8),
    Lines(u8, u8),
}

/// What may come next outside: what is no value; the second bracket of a heading; the value of a name; a value of a list.
#[derive(Clone, Copy, PartialEq)]
enum Due {
    Nothing,
    Heading,
    Value,
    Item,
}

/// The greatest weight with which a document is read.
const MOST_WEIGHT: u64 = 55_000_000;

/// How many values a list has, and how many names a table.
#[derive(Clone, Copy, Default)]
struct Counts {
    values: u64,
    names: u64,
}

/// What a document weighs, as far as it is known.
struct Scale {
    due: Due,
    /// What the lists and inline tables have that are open, from the outside in; the first stands for none.
    open: Vec<Counts>,
    weight: u64,
}

impl Scale {
    /// One byte more that stands outside.
    fn put(&mut self, byte: u8) {
        if matches!(byte, b' ' | b'\t' | b'\r' | b'\n' | b'#') {
            return;
        }
        let due = std::mem::replace(&mut self.due, Due::Nothing);
        if due == Due::Item && byte != b']' && byte != b'}' {
            self.item();
        }
        match byte {
            b'[' if due == Due::Nothing => {
                self.weight += 1480;
                self.counts().names = 0;
                self.due = Due::Heading;
            }
            b'[' if due == Due::Heading => {}
            b'[' | b'{' => {
                // One that stands too deep takes the place of the one around it.
                self.open.truncate(MOST_DEPTH);
                self.open.push(Counts::default());
                if byte == b'[' {
                    self.due = Due::Item;
                } else {
                    self.weight += 1296;
                }
            }
            b']' | b'}' => {
                self.open.pop();
                if self.open.is_empty() {
                    self.open.push(Counts::default());
                }
            }
            b',' => self.due = Due::Item,
            b'=' => {
                self.weight += if self.counts().names < 15 { 32 } else { 27_000 };
                self.counts().names += 1;
                self.due = Due::Value;
            }
            b'.' => self.weight += 1296,
            b'"' | b'\'' if matches!(due, Due::Value | Due::Item) => self.weight += 32,
            _ => {}
        }
    }

    /// What the innermost of these has.
    fn counts(&mut self) -> &mut Counts {
        self.open.last_mut().expect("one stands for none")
    }

    /// A value of the innermost list. Its room is for four at first, and for twice as many whenever it is full.
    fn item(&mut self) {
        self.weight += match self.counts().values {
            0 => 184,
            full if full >= 4 && full.is_power_of_two() => 40 * full,
            _ => 0,
        };
        self.counts().values += 1;
    }
}

/// Whether a document weighs too much to be read.
pub fn is_too_heavy(bytes: &[u8]) -> bool {
    let mut scale = Scale { due: Due::Nothing, open: vec![Counts::default()], weight: 0 };
    let mut place = Place::Outside;
    let mut at = 0;
    while at < bytes.len() {
        let byte = bytes[at];
        place = match place {
            Place::Outside => {
                scale.put(byte);
                if scale.weight > MOST_WEIGHT {
                    return true;
                }
                match byte {
                    b'#' => Place::Comment,
                    b'"' | b'\'' if bytes[at..].starts_with(&[byte; 3]) => {
                        at += 2;
                        Place::Lines(byte, 0)
                    }
                    b'"' | b'\'' => Place::Text(byte),
                    _ => Place::Outside,
                }
            }
            Place::Comment if byte == b'\n' => Place::Outside,
            Place::Comment => Place::Comment,
            Place::Text(mark) if byte == mark => Place::Outside,
            Place::Lines(mark, run) if byte == mark => {
                let ends = run == 2 && bytes.get(at + 1) != Some(&mark);
                if ends { Place::Outside } else { Place::Lines(mark, (run + 1).min(2)) }
            }
            Place::Text(b'"') | Place::Lines(b'"', _) if byte == b'\\' => {
                at += 1;
                if place == Place::Text(b'"') { place } else { Place::Lines(b'"', 0) }
            }
            Place::Text(mark) => Place::Text(mark),
            Place::Lines(mark, _) => Place::Lines(mark, 0),
        };
        at += 1;
    }
    false
}

/// The table of a document, or None where it is refused.
pub fn document(text: &str) -> Option<Table> {
    let mut reader = Reader { rest: text.strip_prefix('\u{feff}').unwrap_or(text) };
    let mut table = Growing::new(Origin::Heading);
    let mut heading = Vec::new();
    loop {
        reader.lines();
        if reader.rest.is_empty() {
            return Some(table.done());
        }
        if reader.takes("[[") {
            heading = reader.heading("]]")?;
            table.begin_next(&heading)?;
        } else if reader.takes("[") {
            heading = reader.heading("]")?;
            table.begin(&heading)?;
        } else {
            let begun = heading.iter().try_fold(&mut table, |table, name| table.on_way_of_heading(name))?;
            reader.entry(begun, MOST_DEPTH)?;
        }
        reader.ends_line()?;
    }
}
