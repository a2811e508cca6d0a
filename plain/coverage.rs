//! `coverage`: for each class of fault what finds it, within which time, and when the stages are off.

use crate::calibration::Calibration;

/// When the stages are off for good, in ticks: from a fault's begin, from the confirmation of an excess, or from an
/// order to open path 2; or how long an excess stays shorter than.
enum Off {
    From(u32),
    Confirmed(u32),
    Ordered(u32),
    Below(Option<u32>),
}

fn line(class: &str, case: &str, effect: &str, finds: &str, within: Option<u32>, off: Off, hidden: &str) -> String {
    let within = within.map_or("-".to_string(), |ticks| ticks.to_string());
    let off = match off {
        Off::From(ticks) => ticks.to_string(),
        Off::Confirmed(ticks) => format!("confirmed + {ticks}"),
        Off::Ordered(ticks) => format!("ordered + {ticks}"),
        Off::Below(bound) => bound.map_or("-".to_string(), |ticks| format!("excess < {ticks}")),
    };
    format!("{class},{case},{effect},{finds},{within},{off},{hidden}\n")
}

/// A fault that is found by this watch.
fn found(class: &str, case: &str, effect: &str, watch: &str, within: u32, off: Off) -> String {
    line(class, case, effect, watch, Some(within), off, "0")
}

/// A fault that may stay hidden.
fn unfound(class: &str, case: &str, effect: &str, off: Off) -> String {
    line(class, case, effect, "-", None, off, "1")
}

/// The header, and the rows in the order of the classes, a line each.
pub fn lines(cal: &Calibration) -> Vec<String> {
    let (apart, reaction, test) = (cal.pairs.to_confirm(), cal.times.reaction(), cal.times.test_ticks());
    let mut lines = vec!["class,case,effect,finds,within,off,hidden\n".to_string()];
    for class in ["script", "offset"] {
        for pair in ["pedal", "plate", "load", "speed"] {
            let off = if pair == "pedal" { Off::Confirmed(1) } else { Off::From(apart) };
            let (case, effect) = (format!("{pair} apart by more than its tolerance"), format!("wrong {pair} is seen"));
            lines.push(found(class, &case, &effect, pair, apart, off));
        }
        for case in ["any pair apart within its tolerance", "a contact of the brake"] {
            lines.push(unfound(class, case, "level 2 errs to the safe side", Off::Confirmed(1)));
        }
    }
    lines.push(unfound("bus", "any mask", "raise taken as 0", Off::Confirmed(1)));
    lines.push(unfound("plate", "any angle", "torque not as ordered", Off::Confirmed(1)));
    for class in ["skip", "disturb"] {
        lines.push(found(class, "any module", "no answer is right", "answers", reaction, Off::From(reaction)));
    }
    lines.push(found("flip", "any word", "a wrong word of level 2", "mirror", 1, Off::From(1)));
    lines.push(found("halt", "both levels", "outputs stay as they are", "answers", reaction, Off::From(reaction)));
    let outside = "answers outside the window";
    lines.push(found("timing", outside, "no answer is right", "answers", reaction, Off::From(reaction)));
    lines.push(unfound("timing", "answers inside the window", "one verdict may be wrong", Off::Confirmed(1)));
    lines.push(unfound("wild", "opens path 2 at times", "cut without need", Off::Ordered(1)));
    lines.push(unfound("wild", "never opens path 2", "no cut by path 2", Off::Confirmed(1)));
    for (path, late) in [(1, reaction), (2, 1)] {
        let (class, effect) = (format!("path{path}-closed"), format!("no cut by path {path}"));
        lines.push(unfound(&class, "without a reset", &effect, Off::Confirmed(late)));
        lines.push(found(&class, "with a reset", &effect, "start", test + 1, Off::From(0)));
    }
    lines.push(unfound("path-open", "either path", "cut without need", Off::From(0)));
    let (case, effect) = ("level 2 left out at times", "late cut");
    lines.push(if cal.times.wrong_verdicts() == 1 {
        found("lapse", case, effect, "answers", reaction, Off::From(reaction))
    } else {
        unfound("lapse", case, effect, Off::Below(cal.missed().map(|longest| longest + 1)))
    });
    lines
}
