//! Faults outside level 1, and what is out of order at a tick.

/// What a fault does, with its numbers.
pub enum Class {
    Script { track: usize, values: Vec<u16> },
    Offset { track: usize, add: i32 },
    Bus { mask: u16 },
    Plate { at: u16 },
    Skip { module: usize },
    Disturb { module: usize, mask: u16 },
    Flip { word: usize, mask: u16 },
    Halt,
    Timing { offset: u32 },
    Wild { questions: Vec<u16>, opens: Vec<bool> },
    Path1Closed,
    Path2Closed,
    PathOpen { path: u32 },
    Lapse { after: Vec<u32>, every: u32 },
}

pub struct Fault {
    pub onset: u32,
    pub class: Class,
}

/// What a faulty track reads.
#[derive(Clone, Copy, PartialEq)]
pub enum Reading {
    Value(u16),
    Offset(i32),
}

/// What is out of order at a tick.
#[derive(Clone, Copy, PartialEq)]
pub struct Effects {
    pub track: Option<(usize, Reading)>,
    pub raise: u16,
    pub held: Option<u16>,
    pub level1_runs: bool,
    pub modules_run: [bool; 8],
    pub disturbances: [u16; 8],
    pub flip: Option<(usize, u16)>,
    /// The tick of the period at which answers are sent, where it is another.
    pub send: Option<u32>,
    /// What a wild monitoring module asks, and whether it orders path 2 open.
    pub wild: Option<(u16, bool)>,
    /// Whether a path conducts, where its latch doesn't decide.
    pub path1: Option<bool>,
    pub path2: Option<bool>,
}

impl Effects {
    pub const NONE: Effects = Effects {
        track: None,
        raise: 0,
        held: None,
        level1_runs: true,
        modules_run: [true; 8],
        disturbances: [0; 8],
        flip: None,
        send: None,
        wild: None,
        path1: None,
        path2: None,
    };

    /// Whether each path conducts, where the latches are open or not.
    #[inline(always)]
    pub fn conduct(&self, open1: bool, open2: bool) -> [bool; 2] {
        [self.path1.unwrap_or(!open1), self.path2.unwrap_or(!open2)]
    }
}

impl Fault {
    pub fn effects(&self, tick: u32) -> Effects {
        tick.checked_sub(self.onset).map_or(Effects::NONE, |since| self.class.effects(since))
    }

    /// Whether anything is out of order at a tick.
    pub fn acts_at(&self, tick: u32) -> bool {
        self.effects(tick) != Effects::NONE
    }
}

impl Class {
    /// What campaigns call it.
    pub fn name(&self) -> &'static str {
        match self {
            Class::Script { .. } => "script",
            Class::Offset { .. } => "offset",
            Class::Bus { .. } => "bus",
            Class::Plate { .. } => "plate",
            Class::Skip { .. } => "skip",
            Class::Disturb { .. } => "disturb",
            Class::Flip { .. } => "flip",
            Class::Halt => "halt",
            Class::Timing { .. } => "timing",
            Class::Wild { .. } => "wild",
            Class::Path1Closed => "path1-closed",
            Class::Path2Closed => "path2-closed",
            Class::PathOpen { .. } => "path-open",
            Class::Lapse { .. } => "lapse",
        }
    }

    /// Its own keys as campaigns spell them, each with its numbers or truth values.
    pub fn keys(&self) -> String {
        match self {
            Class::Script { track, values } => format!("track {track} values {}", listed(values)),
            Class::Offset { track, add } => format!("track {track} add {add}"),
            Class::Bus { mask } => format!("mask {mask}"),
            Class::Plate { at } => format!("at {at}"),
            Class::Skip { module } => format!("module {module}"),
            Class::Disturb { module, mask } => format!("module {module} mask {mask}"),
            Class::Flip { word, mask } => format!("word {word} mask {mask}"),
            Class::Timing { offset } => format!("offset {offset}"),
            Class::Wild { questions, opens } => {
                format!("questions {} opens {}", listed(questions), listed(opens))
            }
            Class::PathOpen { path } => format!("path {path}"),
            Class::Lapse { after, every } => format!("after {} every {every}", listed(after)),
            Class::Halt | Class::Path1Closed | Class::Path2Closed => String::new(),
        }
    }

    /// What is out of order so many ticks after the onset.
    fn effects(&self, since: u32) -> Effects {
        let mut effects = Effects::NONE;
        match self {
            Class::Script { track, values } => {
                effects.track = Some((*track, Reading::Value(in_turn(values, since))));
            }
            Class::Offset { track, add } => effects.track = Some((*track, Reading::Offset(*add))),
            Class::Bus { mask } => effects.raise = *mask,
            Class::Plate { at } => effects.held = Some(*at),
            Class::Skip { module } => effects.modules_run[*module] = false,
            Class::Disturb { module, mask } => effects.disturbances[*module] = *mask,
            Class::Flip { word, mask } => effects.flip = (since == 0).then_some((*word, *mask)),
            Class::Halt => {
                effects.level1_runs = false;
                effects.modules_run = [false; 8];
            }
            Class::Timing { offset } => effects.send = Some(*offset),
            Class::Wild { questions, opens } => {
                effects.wild = Some((in_turn(questions, since), in_turn(opens, since)));
            }
            Class::Path1Closed => effects.path1 = Some(true),
            Class::Path2Closed => effects.path2 = Some(true),
            Class::PathOpen { path: 1 } => effects.path1 = Some(false),
            Class::PathOpen { .. } => effects.path2 = Some(false),
            Class::Lapse { after, every } => effects.modules_run = [!lapses(after, *every, since); 8],
        }
        effects
    }
}

/// The entries of a list with blanks between them.
fn listed<T: ToString>(entries: &[T]) -> String {
    entries.iter().map(T::to_string).collect::<Vec<String>>().join(" ")
}

/// The entry of a list that is used from its first again after its last.
fn in_turn<T: Copy>(entries: &[T], since: u32) -> T {
    entries[since as usize % entries.len()]
}

fn lapses(after: &[u32], every: u32, since: u32) -> bool {
    after.contains(&if every == 0 { since } else { since % every })
}
