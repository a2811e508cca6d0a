//! Level 1's machine once more, for the programs that work out everything anew: it decodes at each step, and reads the
//! fields of an instruction where they are needed. Its steps are written apart from those of the plain program, of
//! which it has all else (plain/level1.rs): by way of the decoded instructions there a step takes a quarter more.

#[allow(dead_code)]
#[path = "../plain/level1.rs"]
pub mod kept;

pub use kept::{State, Trap, Words};
use kept::{CODE, load, store};

pub struct Machine {
    pub r: [u16; 8],
    pub pc: usize,
    pub state: State,
}

impl Machine {
    /// A machine before its first step. Its code is that in the words.
    pub fn new(_: &[u16]) -> Machine {
        Machine { r: [0; 8], pc: 0, state: State::Running }
    }

    /// Begins the code from the start, as when it was new.
    pub fn restart(&mut self) {
        *self = Machine::new(&[]);
    }

    /// Wakes a machine that waits, and does at most so many instructions.
    #[inline(never)]
    pub fn slice(&mut self, words: &mut Words, budget: u16) {
        let Machine { r, pc, state } = self;
        kept::slice(state, pc, budget, |pc| Some(step(r, words, *words[..CODE].get(pc)?, pc + 1)));
    }
}

// The fields of an instruction.
#[inline(always)]
fn a(word: u16) -> usize {
    usize::from(word >> 9 & 7)
}

#[inline(always)]
fn b(word: u16) -> usize {
    usize::from(word >> 6 & 7)
}

#[inline(always)]
fn c(word: u16) -> usize {
    usize::from(word >> 3 & 7)
}

/// An address so far past another one.
#[inline(always)]
fn past(at: usize, distance: i16) -> usize {
    (at as u16).wrapping_add_signed(distance).into()
}

/// One instruction: where the next one stands, or the state that ends the slice.
#[inline(always)]
fn step(r: &mut [u16; 8], words: &mut Words, word: u16, next: usize) -> Result<usize, State> {
    match word >> 12 {
        0 => {}
        1 => r[a(word)] = word & 511,
        2 => r[a(word)] = (r[a(word)] << 7).wrapping_add(word & 127),
        3 => r[a(word)] = r[b(word)],
        4 => r[a(word)] = r[b(word)].wrapping_add(r[c(word)]),
        5 => r[a(word)] = r[b(word)].wrapping_sub(r[c(word)]),
        6 => r[a(word)] = r[b(word)] & r[c(word)],
        7 => r[a(word)] = r[b(word)] | r[c(word)],
        8 => r[a(word)] = r[b(word)] ^ r[c(word)],
        9 => r[a(word)] = r[b(word)] >> (word & 15),
        10 => r[a(word)] = r[b(word)].wrapping_mul(r[c(word)]),
        11 => r[a(word)] = load(words, r[b(word)].wrapping_add(word & 63))?,
        12 => store(words, r[b(word)].wrapping_add(word & 63), r[a(word)])?,
        13 if r[a(word)] == 0 => return Ok(past(next, (word << 7) as i16 >> 7)),
        14 if r[a(word)] < r[b(word)] => return Ok(past(next, (word << 10) as i16 >> 10)),
        13 | 14 => {}
        _ => match word & 511 {
            0 => return Err(State::Waiting),
            1 => return Ok(r[a(word)].into()),
            _ => return Err(State::Trapped(Trap::Illegal)),
        },
    }
    Ok(next)
}
