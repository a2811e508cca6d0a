//! Sources of images: assembling them, and writing them of an image.

use std::collections::HashMap;

use Operand::{Number, Register, Target};

const MOST_WORDS: usize = 1024;

/// What stands in an operand's place: a register, and the lowest of its three bits; a number, and the greatest; or a
/// target, and how far it may be back.
enum Operand {
    Register(u16),
    Number(u16),
    Target(u16),
}

/// A form of instructions: its name, its word with 0 in each operand's place, and its operands.
struct Form(&'static str, u16, &'static [Operand]);

const A: Operand = Register(9);
const B: Operand = Register(6);
const C: Operand = Register(3);

/// The last is a form of any word.
const FORMS: [Form; 18] = [
    Form("nop", 0x0000, &[]),
    Form("ldi", 0x1000, &[A, Number(511)]),
    Form("ldx", 0x2000, &[A, Number(127)]),
    Form("mov", 0x3000, &[A, B]),
    Form("add", 0x4000, &[A, B, C]),
    Form("sub", 0x5000, &[A, B, C]),
    Form("and", 0x6000, &[A, B, C]),
    Form("or", 0x7000, &[A, B, C]),
    Form("xor", 0x8000, &[A, B, C]),
    Form("shr", 0x9000, &[A, B, Number(15)]),
    Form("mul", 0xa000, &[A, B, C]),
    Form("ld", 0xb000, &[A, B, Number(63)]),
    Form("st", 0xc000, &[A, B, Number(63)]),
    Form("jz", 0xd000, &[A, Target(256)]),
    Form("jlt", 0xe000, &[A, B, Target(32)]),
    Form("wait", 0xf000, &[]),
    Form("jr", 0xf001, &[A]),
    Form("word", 0x0000, &[Number(65535)]),
];

/// Where a jump goes.
enum Aim<'a> {
    Label(&'a [u8]),
    Distance(i64),
}

/// A jump whose word still lacks its distance, of fewer than `reach` words, or back of at most as many; and the line
/// of the source in which it stands.
struct Jump<'a> {
    line: u32,
    place: usize,
    reach: u16,
    aim: Aim<'a>,
}

#[derive(Default)]
struct Source<'a> {
    words: Vec<u16>,
    jumps: Vec<Jump<'a>>,
    labels: HashMap<&'a [u8], usize>,
    /// The line that is read, the first being 1.
    line: u32,
    /// The first line that repeats a label.
    repeats: Option<u32>,
}

/// The words of a source, or what the note of its refusal says.
pub fn assemble(bytes: &[u8]) -> Result<Vec<u16>, String> {
    let mut source = Source::default();
    for line in bytes.split_inclusive(|byte| *byte == b'\n') {
        source.line += 1;
        let full = source.words.len() == MOST_WORDS;
        if line.strip_suffix(b"\n").and_then(|line| source.read(line)).is_none() {
            return Err(if full { "more than 1024 words".to_string() } else { format!("line {}", source.line) });
        }
    }
    source.link().map_err(|line| format!("label in line {line}"))
}

impl<'a> Source<'a> {
    fn read(&mut self, line: &'a [u8]) -> Option<()> {
        match line {
            [] | [b';', ..] => {}
            [name @ .., b':'] if is_name(name) => {
                if self.labels.contains_key(name) {
                    self.repeats = self.repeats.or(Some(self.line));
                } else {
                    self.labels.insert(name, self.words.len());
                }
            }
            _ => self.read_instruction(line)?,
        }
        Some(())
    }

    fn read_instruction(&mut self, line: &'a [u8]) -> Option<()> {
        if self.words.len() == MOST_WORDS {
            return None;
        }
        let (name, mut rest) = cut(line, b' ');
        let Form(_, base, operands) = FORMS.iter().find(|form| form.0.as_bytes() == name)?;
        let mut word = *base;
        for operand in *operands {
            let (text, behind) = cut(rest?, b',');
            word |= self.read_operand(operand, text)?;
            rest = behind;
        }
        self.words.push(word);
        rest.is_none().then_some(())
    }

    /// What an operand adds to its word, but for a target, which is kept.
    fn read_operand(&mut self, operand: &Operand, text: &'a [u8]) -> Option<u16> {
        match *operand {
            Register(low) => match text {
                [b'r', digit @ b'0'..=b'7'] => Some(u16::from(digit - b'0') << low),
                _ => None,
            },
            Number(most) => number(text).filter(|number| *number <= i64::from(most)).map(|number| number as u16),
            Target(reach) => {
                let (line, place) = (self.line, self.words.len());
                self.jumps.push(Jump { line, place, reach, aim: aim(text)? });
                Some(0)
            }
        }
    }

    /// The words with the distances of the jumps, or the first line with a label at fault.
    fn link(mut self) -> Result<Vec<u16>, u32> {
        for jump in &self.jumps {
            let distance = match jump.aim {
                Aim::Label(name) => self.labels.get(name).map(|at| *at as i64 - (jump.place as i64 + 1)),
                Aim::Distance(distance) => Some(distance),
            };
            let reach = i64::from(jump.reach);
            let Some(distance) = distance.filter(|distance| (-reach..reach).contains(distance)) else {
                return Err(self.repeats.map_or(jump.line, |line| line.min(jump.line)));
            };
            self.words[jump.place] |= distance as u16 & (2 * jump.reach - 1);
        }
        self.repeats.map_or(Ok(self.words), Err)
    }
}

fn aim(text: &[u8]) -> Option<Aim<'_>> {
    match text {
        [b'-', b'0', ..] => None,
        [b'-', digits @ ..] => Some(Aim::Distance(-number(digits)?)),
        _ if is_name(text) => Some(Aim::Label(text)),
        _ => Some(Aim::Distance(number(text)?)),
    }
}

/// 0, or decimal digits without a leading 0. A number past a million is told as less than it is.
fn number(text: &[u8]) -> Option<i64> {
    match text {
        b"0" => Some(0),
        [b'1'..=b'9', ..] if text.iter().all(u8::is_ascii_digit) => {
            Some(text.iter().take(7).fold(0, |number, digit| number * 10 + i64::from(digit - b'0')))
        }
        _ => None,
    }
}

fn is_name(text: &[u8]) -> bool {
    (1..=16).contains(&text.len()) && text.iter().all(u8::is_ascii_lowercase)
}

/// What stands before the first such byte, and what stands behind it, where there is one.
fn cut(text: &[u8], byte: u8) -> (&[u8], Option<&[u8]>) {
    match text.iter().position(|it| *it == byte) {
        Some(place) => (&text[..place], Some(&text[place + 1..])),
        None => (text, None),
    }
}

/// The line of a word, with its line feed.
pub fn line(word: u16) -> String {
    let Form(name, _, operands) = FORMS.iter().find(|form| is_of(word, form)).unwrap();
    let values: Vec<String> = operands.iter().map(|operand| value_in(word, operand)).collect();
    let space = if values.is_empty() { "" } else { " " };
    format!("{name}{space}{}\n", values.join(","))
}

/// Whether all bits of a word but those of the operands are those of the form.
fn is_of(word: u16, form: &Form) -> bool {
    let Form(_, base, operands) = form;
    let places = operands.iter().fold(0, |places, operand| places | bits(operand));
    word & !places == *base
}

fn bits(operand: &Operand) -> u16 {
    match *operand {
        Register(low) => 7 << low,
        Number(most) => most,
        Target(reach) => 2 * reach - 1,
    }
}

fn value_in(word: u16, operand: &Operand) -> String {
    let bits = word & bits(operand);
    match *operand {
        Register(low) => format!("r{}", bits >> low),
        Number(_) => bits.to_string(),
        Target(reach) if bits < reach => bits.to_string(),
        Target(reach) => format!("-{}", 2 * reach - bits),
    }
}
