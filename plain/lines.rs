//! Standard input, line by line. No line is kept, and none is waited for before it is asked for.

use std::fs::File;
use std::io::{self, BufRead, BufReader, Read};
use std::os::fd::AsFd;

use crate::{End, of_file};

/// What a note calls it.
const NAME: &str = "standard input";

pub struct Lines {
    input: BufReader<File>,
    line: Vec<u8>,
    /// Of a longer line no more than a byte beyond so many is read: what is cut there is refused like the whole line.
    most_bytes: usize,
    /// How many lines were read.
    pub count: u64,
}

impl Lines {
    /// Standard input, whose longest line has so many bytes, with CR LF.
    pub fn of_input(most_bytes: usize) -> Result<Lines, End> {
        let file = File::from(io::stdin().as_fd().try_clone_to_owned().map_err(fault)?);
        let input = BufReader::with_capacity(1 << 16, file);
        Ok(Lines { input, line: Vec::with_capacity(most_bytes + 1), most_bytes, count: 0 })
    }

    /// The next line without its end, or none behind the last.
    #[inline(always)]
    pub fn next(&mut self) -> Result<Option<&[u8]>, End> {
        self.line.clear();
        let most = self.most_bytes as u64 + 1;
        self.input.by_ref().take(most).read_until(b'\n', &mut self.line).map_err(fault)?;
        if self.line.is_empty() {
            return Ok(None);
        }
        self.count += 1;
        Ok(Some(match self.line.as_slice() {
            [line @ .., b'\r', b'\n'] | [line @ .., b'\n'] | [line @ .., b'\r'] => line,
            line => line,
        }))
    }
}

fn fault(_: io::Error) -> End {
    End::Read(NAME.to_string())
}

#[cold]
pub fn refused<T>(refusal: String) -> Result<T, End> {
    of_file(NAME, Err(refusal))
}

/// The numbers of a line that has just so many, with commas between them.
#[inline(always)]
pub fn numbers<const COUNT: usize>(line: &[u8]) -> Option<[u16; COUNT]> {
    let mut numbers = [0; COUNT];
    let mut rest = line;
    for (place, field) in numbers.iter_mut().enumerate() {
        if place > 0 {
            comma(&mut rest)?;
        }
        *field = number(&mut rest)?;
    }
    rest.is_empty().then_some(numbers)
}

/// A comma at the beginning of a text, which is left without it.
#[inline(always)]
pub fn comma(rest: &mut &[u8]) -> Option<()> {
    *rest = rest.strip_prefix(b",")?;
    Some(())
}

/// One to five digits at the beginning of a text, which is left without them.
#[inline(always)]
pub fn number(rest: &mut &[u8]) -> Option<u16> {
    let mut number = 0;
    let mut digits = 0;
    while let [digit @ b'0'..=b'9', more @ ..] = *rest {
        number = number * 10 + u32::from(digit - b'0');
        digits += 1;
        *rest = more;
        if digits == 5 {
            break;
        }
    }
    if digits == 0 { None } else { u16::try_from(number).ok() }
}
