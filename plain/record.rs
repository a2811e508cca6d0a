//! The lines of records, of `couple` and of `signals`.

use crate::level2::{WATCHES, Watches};
use crate::level3::Mark;
use crate::replay::Tick;
use crate::unit::{Commands, Row};

pub const HEADER: &str = "tick,pedal,speed,raise,plate,charge,torque,limit,path1,path2,on,used,permitted,actual,\
    excess,pairs,throttle,ignition,found,answer,verdict\n";

/// A line that is being written. The longest has fewer bytes.
pub struct Line {
    bytes: [u8; 192],
    length: usize,
}

impl Line {
    pub fn new() -> Line {
        Line { bytes: [0; 192], length: 0 }
    }

    fn byte(&mut self, byte: u8) {
        self.bytes[self.length] = byte;
        self.length += 1;
    }

    fn text(&mut self, text: &str) {
        let end = self.length + text.len();
        self.bytes[self.length..end].copy_from_slice(text.as_bytes());
        self.length = end;
    }

    /// A number below 10^7, and a comma.
    #[inline(always)]
    fn number(&mut self, number: u32) {
        let (text, digits) = if number < 10 { (u64::from(number) + 0x30, 1) } else { digits(number) };
        let comma = u64::from(b',') << (8 * digits);
        self.bytes[self.length..self.length + 8].copy_from_slice(&(text | comma).to_le_bytes());
        self.length += digits + 1;
    }

    fn numbers(&mut self, numbers: &[u16]) {
        for number in numbers {
            self.number(u32::from(*number));
        }
    }

    fn truths(&mut self, truths: &[bool]) {
        for truth in truths {
            self.byte(b'0' + u8::from(*truth));
            self.byte(b',');
        }
    }

    /// The names of the watches that are found, joined by `+`.
    fn found(&mut self, watches: &Watches) {
        let start = self.length;
        for name in found(watches) {
            if self.length > start {
                self.byte(b'+');
            }
            self.text(name);
        }
        if self.length == start {
            self.byte(b'-');
        }
    }

    /// The line of a row, with its line feed.
    pub fn row(&mut self, row: &Row) -> &[u8] {
        self.told(row);
        self.ended()
    }

    /// The line of a row and of what is commanded next, with its line feed. Without a row it has `-` for each column.
    pub fn coupled(&mut self, row: Option<&Row>, next: &Commands) -> &[u8] {
        match row {
            Some(row) => self.told(row),
            None => self.no_row(),
        }
        self.byte(b',');
        self.numbers(&[next.throttle, next.ignition]);
        self.truths(&[next.on]);
        match next.held {
            Some(held) => self.text(&held.to_string()),
            None => self.byte(b'-'),
        }
        self.ended()
    }

    fn ended(&mut self) -> &[u8] {
        self.byte(b'\n');
        &self.bytes[..self.length]
    }

    fn no_row(&mut self) {
        self.length = 0;
        HEADER.matches(',').for_each(|_| self.text("-,"));
        self.byte(b'-');
    }

    /// The columns of a row.
    fn told(&mut self, row: &Row) {
        self.length = 0;
        self.number(row.tick);
        self.numbers(&[row.drive.pedal, row.drive.speed, row.drive.raise]);
        self.numbers(&[row.plate, row.charge, row.torque, row.limit]);
        self.truths(&[row.path1, row.path2, row.on]);
        self.numbers(&row.signals);
        self.numbers(&[row.throttle, row.ignition]);
        self.found(&row.found);
        self.text(match row.answer {
            Mark::None => ",-",
            Mark::Good => ",good",
            Mark::Bad => ",bad",
        });
        self.text(match row.verdict {
            None => ",-",
            Some(true) => ",right",
            Some(false) => ",wrong",
        });
    }

    /// The line of a tick of level 2 alone, with its line feed.
    pub fn tick(&mut self, tick: &Tick) -> &[u8] {
        self.length = 0;
        match u32::try_from(tick.number) {
            Ok(number @ 0..10_000_000) => self.number(number),
            _ => self.text(&format!("{},", tick.number)),
        }
        self.numbers(&tick.signals);
        self.numbers(&tick.weights);
        self.found(&tick.found);
        self.byte(b'\n');
        &self.bytes[..self.length]
    }
}

/// The digits of a number below 10^7, one a byte, the first one lowest, and their count. All are found together:
/// the number is cut into fours, pairs and single digits, side by side.
#[inline(always)]
fn digits(number: u32) -> (u64, usize) {
    let fours = u64::from(number / 10_000) | u64::from(number % 10_000) << 32;
    // For numbers below 10,000, and below 100, these are their quotients by 100 and by 10.
    let hundreds = ((fours * 5243) >> 19) & 0x0000_007f_0000_007f;
    let pairs = hundreds | (fours - 100 * hundreds) << 16;
    let tens = ((pairs * 103) >> 10) & 0x000f_000f_000f_000f;
    let ones = tens | (pairs - 10 * tens) << 8;
    // Leading zeros; of 0 itself the last digit stays.
    let zeros = (ones | 1 << 63).trailing_zeros() as usize / 8;
    ((ones | 0x3030_3030_3030_3030) >> (8 * zeros), 8 - zeros)
}

/// The watches that are found, in their order.
fn found(found: &Watches) -> impl Iterator<Item = &'static str> {
    WATCHES.into_iter().zip(*found).filter(|watch| watch.1).map(|watch| watch.0)
}
