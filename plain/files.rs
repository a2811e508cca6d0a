//! Check files, traces and images.

use std::fs::File;
use std::io::Read;

use crate::calibration::Drive;
use crate::records::Records;
use crate::{End, of_file};

const MOST_BYTES: usize = 4_194_304;
const MOST_ROWS: usize = 20_000;
const MOST_WORDS: usize = 1024;

/// What the note says of a refused file behind its name.
type Refusal = String;

/// The bytes of a file, of which no more than one too many are read.
pub fn bytes(name: &str) -> Result<Vec<u8>, End> {
    let fault = |_| End::Read(name.to_string());
    let file = File::open(name).map_err(fault)?;
    let length = file.metadata().map_or(0, |data| data.len() as usize);
    let mut bytes = Vec::with_capacity(length.min(MOST_BYTES) + 1);
    file.take(MOST_BYTES as u64 + 1).read_to_end(&mut bytes).map_err(fault)?;
    let too_long = bytes.len() > MOST_BYTES;
    of_file(name, if too_long { Err(format!("longer than {MOST_BYTES} bytes")) } else { Ok(bytes) })
}

/// The rest of a file of plain records: of digits, commas and ends of lines alone.
struct Plain<'a> {
    rest: &'a [u8],
    rows: usize,
}

impl<'a> Plain<'a> {
    /// The records below a header.
    fn below(bytes: &'a [u8], header: &str) -> Option<Plain<'a>> {
        let mut plain = Plain { rest: bytes, rows: 0 };
        plain.skip_ends();
        plain.rest = plain.rest.strip_prefix(header.as_bytes())?;
        plain.end()?;
        Some(plain)
    }

    fn skip_ends(&mut self) {
        while let [b'\n' | b'\r', rest @ ..] = self.rest {
            self.rest = rest;
        }
    }

    /// The end of a record, and empty lines after it.
    #[inline(always)]
    fn end(&mut self) -> Option<()> {
        match self.rest {
            [] => {}
            [b'\n' | b'\r', rest @ ..] => {
                self.rest = rest;
                self.skip_ends();
            }
            _ => return None,
        }
        Some(())
    }

    #[inline(always)]
    fn comma(&mut self) -> Option<()> {
        self.rest = self.rest.strip_prefix(b",")?;
        Some(())
    }

    /// A field of one to five digits.
    #[inline(always)]
    fn number(&mut self, most: u32) -> Option<u16> {
        let mut number = 0;
        let mut digits = 0;
        while let [digit @ b'0'..=b'9', rest @ ..] = self.rest {
            number = number * 10 + u32::from(digit - b'0');
            digits += 1;
            self.rest = rest;
            if digits == 5 {
                break;
            }
        }
        (digits > 0 && number <= most).then_some(number as u16)
    }

    #[inline(always)]
    fn drive(&mut self) -> Option<Drive> {
        self.rows += 1;
        let pedal = self.number(1000)?;
        self.comma()?;
        let speed = self.number(8000)?;
        self.comma()?;
        let raise = self.number(10000)?;
        Some(Drive { pedal, speed, raise, reset: false, brake: false })
    }

    #[inline(always)]
    fn drive_with_reset(&mut self) -> Option<Drive> {
        let drive = self.drive()?;
        self.comma()?;
        Some(Drive { reset: self.truth()?, ..drive })
    }

    #[inline(always)]
    fn drive_with_brake(&mut self) -> Option<Drive> {
        let drive = self.drive_with_reset()?;
        self.comma()?;
        Some(Drive { brake: self.truth()?, ..drive })
    }

    /// A field that tells whether something is so.
    #[inline(always)]
    fn truth(&mut self) -> Option<bool> {
        let [digit @ (b'0' | b'1'), rest @ ..] = self.rest else { return None };
        self.rest = rest;
        Some(*digit == b'1')
    }

    /// Whether there were rows, and not too many.
    fn counted(&self) -> bool {
        (1..=MOST_ROWS).contains(&self.rows)
    }
}

const RESET_HEADER: &str = "pedal,speed,raise,reset";
const BRAKE_HEADER: &str = "pedal,speed,raise,reset,brake";
const DRIVE_HEADER: &str = "pedal,speed,raise";
const CHECK_HEADER: &str = "pedal,speed,raise,torque";

/// The rows of a trace.
pub fn trace(bytes: &[u8]) -> Result<Vec<Drive>, Refusal> {
    plain_trace(bytes).map_or_else(|| any_trace(bytes), Ok)
}

/// The rows of a trace of plain records, where it is a good one.
fn plain_trace(bytes: &[u8]) -> Option<Vec<Drive>> {
    if let Some(plain) = Plain::below(bytes, BRAKE_HEADER) {
        return plain_rows(plain, bytes.len() / 10, Plain::drive_with_brake);
    }
    match Plain::below(bytes, RESET_HEADER) {
        Some(plain) => plain_rows(plain, bytes.len() / 8, Plain::drive_with_reset),
        None => plain_rows(Plain::below(bytes, DRIVE_HEADER)?, bytes.len() / 6, Plain::drive),
    }
}

/// The rows of these records, of which there are at most so many.
#[inline(always)]
fn plain_rows<'a>(
    mut plain: Plain<'a>,
    most: usize,
    row: impl Fn(&mut Plain<'a>) -> Option<Drive>,
) -> Option<Vec<Drive>> {
    let mut drives = Vec::with_capacity(MOST_ROWS.min(most));
    while !plain.rest.is_empty() {
        drives.push(row(&mut plain)?);
        plain.end()?;
    }
    plain.counted().then_some(drives)
}

/// The rows of any trace, or why it is refused.
fn any_trace(bytes: &[u8]) -> Result<Vec<Drive>, Refusal> {
    rows(bytes, &[DRIVE_HEADER, RESET_HEADER, BRAKE_HEADER], |fields| {
        let drive = drive(fields)?;
        let truth = |place: usize| fields.get(place).map_or(Some(false), |field| truth(field));
        Some(Drive { reset: truth(3)?, brake: truth(4)?, ..drive })
    })
}

/// What the rows of a check file, each with its torque, add up to.
pub fn check<T: Default>(bytes: &[u8], add: impl Fn(&mut T, &Drive, u16)) -> Result<T, Refusal> {
    plain_check(bytes, &add).map_or_else(|| any_check(bytes, &add), Ok)
}

#[inline(always)]
fn plain_check<T: Default>(bytes: &[u8], add: &impl Fn(&mut T, &Drive, u16)) -> Option<T> {
    let mut plain = Plain::below(bytes, CHECK_HEADER)?;
    let mut sum = T::default();
    while !plain.rest.is_empty() {
        let drive = plain.drive()?;
        plain.comma()?;
        add(&mut sum, &drive, plain.number(65535)?);
        plain.end()?;
    }
    plain.counted().then_some(sum)
}

fn any_check<T: Default>(bytes: &[u8], add: &impl Fn(&mut T, &Drive, u16)) -> Result<T, Refusal> {
    let rows = rows(bytes, &[CHECK_HEADER], |fields| Some((drive(fields)?, number(&fields[3], 65535)?)))?;
    let mut sum = T::default();
    rows.iter().for_each(|(drive, torque)| add(&mut sum, drive, *torque));
    Ok(sum)
}

/// The rows below one of these headers, each with as many fields, or why the file is refused.
fn rows<T>(bytes: &[u8], headers: &[&str], row: impl Fn(&[Vec<u8>]) -> Option<T>) -> Result<Vec<T>, Refusal> {
    let mut records = Records::new(bytes);
    let header = records.next().ok_or("header")?;
    if !headers.iter().any(|names| names.split(',').map(str::as_bytes).eq(header.iter())) {
        return Err("header".to_string());
    }
    let mut rows = Vec::new();
    for record in records {
        if rows.len() == MOST_ROWS {
            return Err(format!("more than {MOST_ROWS} records"));
        }
        let good = if record.len() == header.len() { row(&record) } else { None };
        rows.push(good.ok_or_else(|| format!("record {}", rows.len() + 2))?);
    }
    if rows.is_empty() { Err("no records".to_string()) } else { Ok(rows) }
}

fn drive(fields: &[Vec<u8>]) -> Option<Drive> {
    let (pedal, speed) = (number(&fields[0], 1000)?, number(&fields[1], 8000)?);
    Some(Drive { pedal, speed, raise: number(&fields[2], 10000)?, reset: false, brake: false })
}

/// One to five digits.
fn number(field: &[u8], most: u32) -> Option<u16> {
    if !(1..=5).contains(&field.len()) || !field.iter().all(u8::is_ascii_digit) {
        return None;
    }
    let number = field.iter().fold(0, |number, digit| number * 10 + u32::from(digit - b'0'));
    (number <= most).then_some(number as u16)
}

fn truth(field: &[u8]) -> Option<bool> {
    match field {
        b"0" => Some(false),
        b"1" => Some(true),
        _ => None,
    }
}

fn digit(byte: u8) -> Option<u16> {
    char::from(byte).to_digit(16).map(|digit| digit as u16)
}

/// A line of an image.
fn word(line: &[u8]) -> Option<u16> {
    let [first, second, third, fourth, b'\n'] = line else {
        return None;
    };
    Some(digit(*first)? << 12 | digit(*second)? << 8 | digit(*third)? << 4 | digit(*fourth)?)
}

/// The words of an image.
pub fn image(bytes: &[u8]) -> Result<Vec<u16>, Refusal> {
    let mut words = Vec::new();
    for line in bytes.split_inclusive(|byte| *byte == b'\n') {
        if words.len() == MOST_WORDS {
            return Err(format!("more than {MOST_WORDS} lines"));
        }
        words.push(word(line).ok_or_else(|| format!("line {}", words.len() + 1))?);
    }
    Ok(words)
}
