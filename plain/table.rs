//! The table of a campaign's runs: a line for each. What it needs of the rows of a run is kept until its end, and is
//! then looked at span by span.

use crate::calibration::Calibration;
use crate::level1::Trap;
use crate::level2::{WATCHES, Watches};
use crate::report::trap_name;
use crate::unit::{Row, Run, play};

pub const HEADER: &str = "run,class,onset,fault,acted,first,first_at,cut,cut_at,off_at,last_on,confirmed,\
    stretch,peak,reaction,settled,bound,trap,trap_at\n";

/// The watches that don't cut: pedal and start.
const CUTS_NOTHING: [usize; 2] = [1, 7];

/// What is kept of a row.
struct Tick {
    tick: u32,
    /// Whether a span begins here.
    fresh: bool,
    on: bool,
    testing: bool,
    /// How much torque there is above permitted torque and threshold: 0 without a true excess.
    excess: u16,
    /// What found something here.
    found: Watches,
}

impl Tick {
    fn of(cal: &Calibration, row: &Row) -> Tick {
        Tick {
            tick: row.tick,
            fresh: row.fresh,
            on: row.on,
            testing: row.testing,
            excess: row.torque.saturating_sub(row.limit).saturating_sub(cal.threshold),
            found: row.found,
        }
    }
}

/// The ticks of a run from one that begins a span up to the one before the next such.
struct Span<'a> {
    ticks: &'a [Tick],
    /// The first tick by which the true excess is confirmed in it.
    confirmed: Option<u32>,
}

impl<'a> Span<'a> {
    fn of(cal: &Calibration, ticks: &'a [Tick]) -> Span<'a> {
        let mut counter = 0;
        let confirms = ticks.iter().find(|tick| {
            counter = cal.torque.feed(counter, tick.excess > 0);
            counter >= cal.torque.limit
        });
        Span { ticks, confirmed: confirms.map(|tick| tick.tick) }
    }

    fn last(&self) -> &Tick {
        &self.ticks[self.ticks.len() - 1]
    }

    /// How many ticks pass from the confirmed excess until the stages are off for good, where they are.
    fn reaction(&self) -> Option<u32> {
        let confirmed = self.confirmed?;
        let last_on = last_on(self.ticks);
        (!self.last().on).then(|| last_on.map_or(0, |on| (on + 1).saturating_sub(confirmed)))
    }

    /// Whether so many ticks of it follow the confirmed excess, where there is one.
    fn is_settled(&self, bound: u32) -> Option<bool> {
        self.confirmed.map(|confirmed| self.last().tick - confirmed >= bound)
    }

    /// The greatest number of ticks in a row with a true excess.
    fn stretch(&self) -> usize {
        let stretches = self.ticks.split(|tick| tick.excess == 0);
        stretches.map(<[Tick]>::len).max().unwrap_or(0)
    }
}

/// The first tick at which one of these watches found something, and the first such watch.
fn first(ticks: &[Tick], watches: impl Fn(&usize) -> bool) -> Option<(&'static str, u32)> {
    let found = |tick: &Tick| (0..WATCHES.len()).filter(|watch| tick.found[*watch]).find(&watches);
    ticks.iter().find_map(|tick| Some((WATCHES[found(tick)?], tick.tick)))
}

fn last_on(ticks: &[Tick]) -> Option<u32> {
    ticks.iter().rev().find(|tick| tick.on).map(|tick| tick.tick)
}

/// Plays a run of this name. Its line in the table, with its line feed.
pub fn line(cal: &Calibration, name: &str, run: &Run) -> String {
    let mut ticks = Vec::with_capacity(run.drives.len());
    let trap = play(cal, run, |row| ticks.push(Tick::of(cal, row)));
    let spans: Vec<Span> = ticks.chunk_by(|_, next| !next.fresh).map(|ticks| Span::of(cal, ticks)).collect();
    let off_at = ticks.iter().find(|tick| !tick.on && !tick.testing).map(|tick| tick.tick);
    let confirmed = spans.iter().find_map(|span| span.confirmed);
    let bound = cal.times.reaction();
    let settled = spans.iter().filter_map(|span| span.is_settled(bound)).min();
    let columns = [
        name.to_string(),
        class_and_onset(run),
        keys_and_acted(run),
        named(first(&ticks, |_| true)),
        named(first(&ticks, |watch| !CUTS_NOTHING.contains(watch))),
        shown(off_at),
        shown(last_on(&ticks)),
        shown(confirmed),
        shown(spans.iter().map(Span::stretch).max()),
        shown(ticks.iter().map(|tick| tick.excess).max()),
        shown(spans.iter().filter_map(Span::reaction).max()),
        shown(settled.map(u8::from)),
        bound.to_string(),
        named(trap.map(|(kind, tick): (Trap, u32)| (trap_name(kind), tick))),
    ];
    columns.join(",") + "\n"
}

/// The class of the run's fault and its onset.
pub fn class_and_onset(run: &Run) -> String {
    run.fault.map_or("none,".to_string(), |fault| format!("{},{}", fault.class.name(), fault.onset))
}

/// The own keys of the run's fault, and whether anything is out of order by it at some tick of the run.
fn keys_and_acted(run: &Run) -> String {
    run.fault.map_or(",".to_string(), |fault| {
        let acted = (0..run.drives.len() as u32).any(|tick| fault.acts_at(tick));
        format!("{},{}", fault.class.keys(), u8::from(acted))
    })
}

/// What came at a tick, and that tick, in two columns; both are empty where it didn't come.
fn named(came: Option<(&str, u32)>) -> String {
    came.map_or(",".to_string(), |(name, tick)| format!("{name},{tick}"))
}

pub fn shown<T: ToString>(number: Option<T>) -> String {
    number.map_or(String::new(), |number| number.to_string())
}
