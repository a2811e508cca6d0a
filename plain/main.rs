//! The whole program as plain Rust, written to be fast: one array of words for all three levels, plain structs,
//! and no allocation in a tick. No row of a run is kept, but for `table`, which looks at a run span by span: what a
//! report, `margins`, `soak` or `replay` says is gathered as the ticks are made, and each line of a record and of
//! `signals` is put as its tick is made, a line a write, as in the proved program. It takes the words and files that
//! `egasim` takes, refuses what it refuses, and writes what it writes, notes too. It was written from docs/, is
//! measured beside the proved program by `bench/unit` and `bench/all`, and compared with it by `bench/compare` and
//! `bench/fuzz`. Nothing of it is proved.
//! Usage: check [--cal NAME] FILE, bound [--cal NAME], limits [--cal NAME], coverage [--cal NAME], answers FILE,
//! run [--cal NAME] CAMPAIGN, table [--cal NAME] CAMPAIGN, margins [--cal NAME] CAMPAIGN,
//! record [--cal NAME] CAMPAIGN RUN, couple [--cal NAME] CAMPAIGN RUN, sweep [--cal NAME] CAMPAIGN RUN STEP,
//! soak SEED RUNS, replay [--cal NAME], signals [--cal NAME], asm FILE, dis FILE

// The name `anew` is no other's (`KEEPS`).
#![allow(unexpected_cfgs)]

mod calibration;
mod calibration_file;
mod campaign;
mod couple;
mod coverage;
mod engine;
mod fault;
mod files;
mod keys;
#[cfg_attr(anew, path = "../bench/machine.rs")]
mod level1;
mod level2;
mod level3;
mod lines;
mod margins;
mod measurement;
mod record;
mod records;
mod replay;
mod report;
mod soak;
mod source;
mod sweep;
mod table;
mod text;
mod toml;
mod unit;

use std::env;
use std::fs::{self, File};
use std::hint::black_box;
use std::io::{self, BufWriter, Write};
use std::os::fd::AsFd;
use std::process::exit;

use calibration::{Calibration, Drive, exceeds, reference};
use campaign::Plan;
use couple::{Coupled, Partner};
use measurement::Measurement;
use replay::{Level2, Summary};
use unit::{Run, play};

/// Whether a run keeps what doesn't change in it: the results of test rows, and what the permit table gives for a
/// drive row. With `--cfg anew` (`bench/unit`) these are worked out at each tick, and each step of level 1 decodes.
const KEEPS: bool = !cfg!(anew);

/// Why nothing was done.
pub enum End {
    Usage,
    /// This file can't be read.
    Read(String),
    /// With this note a file is refused, or there is no such run.
    Refused(String),
    Write,
    /// A document weighs too much.
    Memory,
}

impl End {
    fn status(&self) -> i32 {
        match self {
            End::Usage => 2,
            End::Read(_) => 3,
            End::Refused(_) => 4,
            End::Write => 5,
            End::Memory => 6,
        }
    }

    fn note(&self) -> String {
        match self {
            End::Usage => "not a command of egasim".to_string(),
            End::Read(name) => format!("cannot read {}", noted(name)),
            End::Refused(note) => note.clone(),
            End::Write => "cannot write".to_string(),
            End::Memory => "no memory".to_string(),
        }
    }
}

/// A name as a note has it: on one line, and without anything that a terminal would obey.
pub fn noted(name: &str) -> String {
    let mut noted = String::new();
    for c in name.chars() {
        match c {
            '\\' => noted += "\\\\",
            _ if c.is_control() => {
                c.encode_utf8(&mut [0; 4]).bytes().for_each(|byte| noted += &format!("\\x{byte:02x}"));
            }
            _ => noted.push(c),
        }
    }
    noted
}

/// What comes of a file of this name, or the note of its refusal.
pub fn of_file<T>(name: &str, came: Result<T, String>) -> Result<T, End> {
    came.map_err(|refusal| End::Refused(format!("{}: {refusal}", noted(name))))
}

impl From<io::Error> for End {
    /// Only writing asks for it.
    fn from(_: io::Error) -> End {
        End::Write
    }
}

type Output = BufWriter<File>;

/// What is known of the rows of a check file.
#[derive(Default)]
struct Excess {
    rows: u32,
    /// The permitted torque of the row before.
    limit: u16,
    counter: u16,
    confirmed: Option<u32>,
}

/// The first tick by which the excess of a file's rows is confirmed.
fn check(cal: &Calibration, file: &str, out: &mut Output) -> Result<(), End> {
    let add = |excess: &mut Excess, drive: &Drive, torque| {
        excess.limit = cal.ramped(excess.limit, cal.permit.table(drive.pedal, drive.speed).max(drive.raise));
        excess.counter = cal.torque.feed(excess.counter, exceeds(torque, excess.limit, cal.threshold));
        if excess.confirmed.is_none() && excess.counter >= cal.torque.limit {
            excess.confirmed = Some(excess.rows);
        }
        excess.rows += 1;
    };
    match of_file(file, files::check(&files::bytes(file)?, add))?.confirmed {
        None => writeln!(out, "none")?,
        Some(tick) => writeln!(out, "torque {tick}")?,
    }
    Ok(())
}

/// The worst-case reaction, and the bound for lapses.
fn bound(cal: &Calibration, out: &mut Output) -> Result<(), End> {
    put(format!("reaction {}\n", cal.times.reaction()).as_bytes(), out)?;
    put(format!("lapse {}\n", or_none(cal.lapse_bound())).as_bytes(), out)?;
    Ok(())
}

/// The bounds, and what else a calibration comes to.
fn limits(cal: &Calibration, out: &mut Output) -> Result<(), End> {
    bound(cal, out)?;
    let times = &cal.times;
    put(format!("verdicts {}\n", times.weights.to_confirm()).as_bytes(), out)?;
    put(format!("excess {}\n", cal.torque.to_confirm()).as_bytes(), out)?;
    put(format!("test {}\n", times.test_ticks()).as_bytes(), out)?;
    put(format!("spacing {}\n", or_none(times.miss_spacing())).as_bytes(), out)?;
    put(format!("stretch {}\n", cal.stretch()).as_bytes(), out)?;
    put(format!("peak {}\n", cal.peak()).as_bytes(), out)?;
    put(format!("ramp {}\n", or_none(cal.ramp_ticks())).as_bytes(), out)?;
    put(format!("missed {}\n", or_none(cal.missed())).as_bytes(), out)?;
    Ok(())
}

/// What finds each class of fault, and when.
fn coverage(cal: &Calibration, out: &mut Output) -> Result<(), End> {
    for line in coverage::lines(cal) {
        put(line.as_bytes(), out)?;
    }
    Ok(())
}

fn or_none<T: ToString>(number: Option<T>) -> String {
    number.map_or("none".to_string(), |number| number.to_string())
}

/// The bytes of a calibration or a campaign.
fn document(name: &str) -> Result<Vec<u8>, End> {
    let bytes = files::bytes(name)?;
    if toml::is_too_heavy(&bytes) { Err(End::Memory) } else { Ok(bytes) }
}

/// The right answers to the questions of a calibration file.
fn answers(file: &str, out: &mut Output) -> Result<(), End> {
    let right = of_file(file, calibration_file::answers(&document(file)?))?;
    let line = |(place, answer)| put(format!("answer {place}: {answer}\n").as_bytes(), out);
    Ok(right.iter().enumerate().try_for_each(line)?)
}

/// A command over a campaign, with its words.
struct Call<'a> {
    words: &'a [&'a str],
    cal: Calibration,
    file: &'a str,
}

fn run_of<'a>(plan: &'a Plan, drives: &'a [Drive], image: &'a [u16]) -> Run<'a> {
    Run { image, drives, plan: &plan.slices, fault: plan.fault.as_ref(), engine: plan.engine }
}

const MOST_TICKS: usize = 1_000_000;

impl Call<'_> {
    fn campaign(&self) -> Result<Vec<Plan>, End> {
        of_file(self.file, campaign::campaign(&document(self.file)?))
    }

    /// The bytes of a file that the campaign names. What isn't a regular one is opened only if the words name it too.
    fn bytes(&self, name: &str) -> Result<Vec<u8>, End> {
        if !self.words.contains(&name) && !fs::metadata(name).is_ok_and(|data| data.is_file()) {
            return Err(End::Read(name.to_string()));
        }
        files::bytes(name)
    }

    fn drives(&self, plan: &Plan) -> Result<Vec<Drive>, End> {
        of_file(&plan.trace, files::trace(&self.bytes(&plan.trace)?))
    }

    fn image(&self, plan: &Plan) -> Result<Vec<u16>, End> {
        of_file(&plan.image, files::image(&self.bytes(&plan.image)?))
    }

    /// Tells each run of the campaign with its name, in their order. Answers how many there are.
    fn each_run(&self, mut tell: impl FnMut(&str, &Run)) -> Result<usize, End> {
        let plans = self.campaign()?;
        let mut ticks = 0;
        for (number, plan) in (1..).zip(&plans) {
            let drives = self.drives(plan)?;
            ticks += drives.len();
            if ticks > MOST_TICKS {
                return of_file(self.file, Err(format!("run {number} passes {MOST_TICKS} ticks")));
            }
            let image = self.image(plan)?;
            tell(&plan.name, &run_of(plan, &drives, &image));
        }
        Ok(plans.len())
    }

    /// The run of that name.
    fn named(&self, name: &str) -> Result<Plan, End> {
        let named = self.campaign()?.into_iter().find(|plan| plan.name == name);
        named.ok_or_else(|| End::Refused("no such run".to_string()))
    }

    /// The run of that name, with its drive and its image.
    fn loaded(&self, name: &str) -> Result<(Plan, Vec<Drive>, Vec<u16>), End> {
        let plan = self.named(name)?;
        let (drives, image) = (self.drives(&plan)?, self.image(&plan)?);
        Ok((plan, drives, image))
    }
}

/// The report on the runs of a campaign.
fn run(call: &Call, out: &mut Output) -> Result<(), End> {
    let mut text = String::new();
    let (mut detected, mut off) = (0, 0);
    let runs = call.each_run(|name, run| {
        let summary = report::summary(&call.cal, run);
        detected += u32::from(summary.first.is_some());
        off += u32::from(summary.off.is_some());
        text += &summary.line(name, &call.cal);
    })?;
    writeln!(out, "{text}runs {runs}; detected {detected}; off {off}")?;
    Ok(())
}

/// A header, and below it the line of each run of a campaign.
fn lines(call: &Call, header: &str, line: impl Fn(&str, &Run) -> String, out: &mut Output) -> Result<(), End> {
    let mut lines = vec![header.to_string()];
    call.each_run(|name, run| lines.push(line(name, run)))?;
    Ok(lines.iter().try_for_each(|line| put(line.as_bytes(), out))?)
}

/// The table of the runs of a campaign.
fn table(call: &Call, out: &mut Output) -> Result<(), End> {
    lines(call, table::HEADER, |name, run| table::line(&call.cal, name, run), out)
}

/// How near the runs of a campaign came to a cut.
fn margins(call: &Call, out: &mut Output) -> Result<(), End> {
    lines(call, margins::HEADER, |name, run| margins::line(&call.cal, name, run), out)
}

/// The record of a run of a campaign.
fn record(call: &Call, name: &str, out: &mut Output) -> Result<(), End> {
    let (plan, drives, image) = call.loaded(name)?;
    put(record::HEADER.as_bytes(), out)?;
    let mut line = record::Line::new();
    let mut written = Ok(());
    play(&call.cal, &run_of(&plan, &drives, &image), |row| {
        if written.is_ok() {
            written = put(line.row(row), out);
        }
    });
    Ok(written?)
}

/// The unit of a run around an engine that a partner has: each line is put before the partner's answer is read.
fn couple(call: &Call, name: &str, out: &mut Output) -> Result<(), End> {
    let plan = call.named(name)?;
    let image = call.image(&plan)?;
    let (mut coupled, mut partner) = (Coupled::new(&call.cal, &image, &plan), Partner::begin()?);
    put(couple::header().as_bytes(), out)?;
    let mut line = record::Line::new();
    let mut next = coupled.commands();
    put(line.coupled(None, &next), out)?;
    while let Some(answer) = partner.next(call.cal.kt, next.on)? {
        let row = coupled.tick(&answer);
        next = coupled.commands();
        put(line.coupled(row.as_ref(), &next), out)?;
    }
    Ok(())
}

/// Puts a line by a write of its own, as the proved program does.
fn put(line: &[u8], out: &mut Output) -> io::Result<()> {
    out.write_all(line)?;
    out.flush()
}

/// What comes of a run of a campaign under every class of fault, each at every onset of a grid.
fn sweep(call: &Call, name: &str, step: u32, out: &mut Output) -> Result<(), End> {
    let (plan, drives, image) = call.loaded(name)?;
    let lines = sweep::sweep(&call.cal, &run_of(&plan, &drives, &image), step);
    let lines = lines.ok_or_else(|| End::Refused("grid too large".to_string()))?;
    Ok(lines.iter().try_for_each(|line| put(line.as_bytes(), out))?)
}

/// What level 2 alone makes of a measurement, put when it has been read to its end.
fn replay(cal: &Calibration, out: &mut Output) -> Result<(), End> {
    let mut measurement = Measurement::begin()?;
    let (mut level2, mut summary) = (Level2::new(cal), Summary::default());
    while let Some((read, brake)) = measurement.next()? {
        summary.add(&level2.tick(read, brake));
    }
    Ok(summary.lines(cal).iter().try_for_each(|line| put(line.as_bytes(), out))?)
}

/// The same tick by tick: each line is put before the next one of the measurement is read.
fn signals(cal: &Calibration, out: &mut Output) -> Result<(), End> {
    let mut measurement = Measurement::begin()?;
    put(replay::HEADER.as_bytes(), out)?;
    let (mut level2, mut line) = (Level2::new(cal), record::Line::new());
    while let Some((read, brake)) = measurement.next()? {
        put(line.tick(&level2.tick(read, brake)), out)?;
    }
    Ok(())
}

/// The image of a source.
fn asm(file: &str, out: &mut Output) -> Result<(), End> {
    let words = of_file(file, source::assemble(&files::bytes(file)?))?;
    Ok(words.iter().try_for_each(|word| put(format!("{word:04x}\n").as_bytes(), out))?)
}

/// The source of an image.
fn dis(file: &str, out: &mut Output) -> Result<(), End> {
    let words = of_file(file, files::image(&files::bytes(file)?))?;
    Ok(words.iter().try_for_each(|word| put(source::line(*word).as_bytes(), out))?)
}

/// A word of at most so many digits.
fn number(word: &str, most: usize) -> Result<u32, End> {
    let digits = (1..=most).contains(&word.len()) && word.bytes().all(|byte| byte.is_ascii_digit());
    if digits { word.parse().map_err(|_| End::Usage) } else { Err(End::Usage) }
}

fn step_of(word: &str) -> Result<u32, End> {
    let step = number(word, 5)?;
    if (1..=20_000).contains(&step) { Ok(step) } else { Err(End::Usage) }
}

fn soak(cal: &Calibration, seed: &str, runs: &str, out: &mut Output) -> Result<(), End> {
    let (seed, runs) = (number(seed, 10)?, number(runs, 10)?);
    if !(1..=500).contains(&runs) {
        return Err(End::Usage);
    }
    Ok(out.write_all(soak::soak(cal, seed, runs).as_bytes())?)
}

/// The calibration of a file, or the reference calibration.
fn calibration(name: Option<&str>) -> Result<Calibration, End> {
    match name {
        Some(name) => of_file(name, calibration_file::calibration(&document(name)?)),
        // The compiler is not to know the numbers of the calibration: the proved program takes any.
        None => Ok(black_box(reference())),
    }
}

/// Whether a word may be the name of a file or of a run.
fn is_name(word: &str) -> bool {
    !word.is_empty() && !word.starts_with('-')
}

/// Does the command of these words.
fn command(words: &[&str]) -> Result<(), End> {
    let mut out = BufWriter::with_capacity(1 << 16, File::from(io::stdout().as_fd().try_clone_to_owned()?));
    let done = work(words, &mut out).and_then(|()| Ok(out.flush()?));
    // What a write has left that failed is not tried again.
    let _ = out.into_parts();
    done
}

fn work(words: &[&str], out: &mut Output) -> Result<(), End> {
    let (name, form) = match *words {
        [command, "--cal", name, ref rest @ ..] if is_name(name) => (Some(name), [&[command], rest].concat()),
        _ => (None, words.to_vec()),
    };
    let called = |file| Ok::<Call, End>(Call { words, cal: calibration(name)?, file });
    match (form.as_slice(), name) {
        (["bound"], _) => bound(&calibration(name)?, out),
        (["limits"], _) => limits(&calibration(name)?, out),
        (["coverage"], _) => coverage(&calibration(name)?, out),
        (["check", file], _) if is_name(file) => check(&calibration(name)?, file, out),
        (["run", file], _) if is_name(file) => run(&called(file)?, out),
        (["table", file], _) if is_name(file) => table(&called(file)?, out),
        (["margins", file], _) if is_name(file) => margins(&called(file)?, out),
        (["record", file, run], _) if is_name(file) && is_name(run) => record(&called(file)?, run, out),
        (["couple", file, run], _) if is_name(file) && is_name(run) => couple(&called(file)?, run, out),
        (["sweep", file, run, step], _) if is_name(file) && is_name(run) => {
            let step = step_of(step)?;
            sweep(&called(file)?, run, step, out)
        }
        (["replay"], _) => replay(&calibration(name)?, out),
        (["signals"], _) => signals(&calibration(name)?, out),
        (["soak", seed, runs], None) => soak(&calibration(None)?, seed, runs, out),
        (["answers", file], None) if is_name(file) => answers(file, out),
        (["asm", file], None) if is_name(file) => asm(file, out),
        (["dis", file], None) if is_name(file) => dis(file, out),
        _ => Err(End::Usage),
    }
}

fn main() {
    // A word that isn't UTF-8 is no form of a command.
    let words: Result<Vec<String>, _> = env::args_os().skip(1).map(|word| word.into_string()).collect();
    let done = match &words {
        Ok(words) => command(&words.iter().map(String::as_str).collect::<Vec<&str>>()),
        Err(_) => Err(End::Usage),
    };
    if let Err(end) = done {
        // One write; a note that can't be written changes nothing.
        let _ = io::stderr().write_all((end.note() + "\n").as_bytes());
        exit(end.status());
    }
}
