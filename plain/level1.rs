//! Level 1: the word machine, and what it may load and store.

/// The memory that the three levels share.
pub type Words = [u16; 4096];

#[derive(Clone, Copy, PartialEq)]
pub enum Trap {
    Fetch,
    Load,
    Store,
    Illegal,
}

#[derive(Clone, Copy, PartialEq)]
pub enum State {
    Running,
    Waiting,
    Trapped(Trap),
}

pub struct Machine {
    code: [Instruction; CODE],
    /// The first eight are there; as many as a byte can name, so that no place needs a test.
    registers: [u16; 256],
    pc: usize,
    pub state: State,
}

pub const CODE: usize = 1024;

/// An instruction, as it was decoded when the run began: no code changes in a run.
#[derive(Clone, Copy)]
enum Instruction {
    Nothing,
    Set { a: u8, number: u16 },
    Extend { a: u8, number: u16 },
    Move { a: u8, b: u8 },
    Add { a: u8, b: u8, c: u8 },
    Subtract { a: u8, b: u8, c: u8 },
    And { a: u8, b: u8, c: u8 },
    Or { a: u8, b: u8, c: u8 },
    ExclusiveOr { a: u8, b: u8, c: u8 },
    ShiftRight { a: u8, b: u8, count: u16 },
    Multiply { a: u8, b: u8, c: u8 },
    Load { a: u8, b: u8, number: u16 },
    Store { a: u8, b: u8, number: u16 },
    JumpZero { a: u8, target: u16 },
    JumpLess { a: u8, b: u8, target: u16 },
    Wait,
    Jump { a: u8 },
    Illegal,
}

/// The instruction of a word, whose next one stands at an address.
fn decode(word: u16, next: u16) -> Instruction {
    use Instruction::*;
    let [a, b, c] = [9, 6, 3].map(|place| (word >> place & 7) as u8);
    let number = word & 63;
    match word >> 12 {
        0 => Nothing,
        1 => Set { a, number: word & 511 },
        2 => Extend { a, number: word & 127 },
        3 => Move { a, b },
        4 => Add { a, b, c },
        5 => Subtract { a, b, c },
        6 => And { a, b, c },
        7 => Or { a, b, c },
        8 => ExclusiveOr { a, b, c },
        9 => ShiftRight { a, b, count: word & 15 },
        10 => Multiply { a, b, c },
        11 => Load { a, b, number },
        12 => Store { a, b, number },
        13 => JumpZero { a, target: next.wrapping_add_signed((word << 7) as i16 >> 7) },
        14 => JumpLess { a, b, target: next.wrapping_add_signed((word << 10) as i16 >> 10) },
        _ => match word & 511 {
            0 => Wait,
            1 => Jump { a },
            _ => Illegal,
        },
    }
}

#[inline(always)]
pub fn may_load(at: u16) -> bool {
    at < 2058 || (2064..=2065).contains(&at) || (2080..=2084).contains(&at)
}

#[inline(always)]
fn may_store(at: u16) -> bool {
    (1024..2048).contains(&at) || (2064..=2065).contains(&at)
}

impl Machine {
    pub fn new(image: &[u16]) -> Machine {
        let mut code = [Instruction::Nothing; CODE];
        for ((place, next), word) in code.iter_mut().zip(1..).zip(image) {
            *place = decode(*word, next);
        }
        Machine { code, registers: [0; 256], pc: 0, state: State::Running }
    }

    /// Begins the code from the start, as when it was new.
    pub fn restart(&mut self) {
        self.registers.fill(0);
        self.pc = 0;
        self.state = State::Running;
    }

    /// Wakes a machine that waits, and does at most so many instructions.
    pub fn slice(&mut self, words: &mut Words, budget: u16) {
        let Machine { code, registers, pc, state } = self;
        slice(state, pc, budget, |pc| Some(step(registers, words, code.get(pc)?, pc + 1)));
    }
}

/// A slice of at most so many steps, of which none is there behind the code.
#[inline(always)]
pub fn slice(
    state: &mut State,
    at: &mut usize,
    budget: u16,
    mut step: impl FnMut(usize) -> Option<Result<usize, State>>,
) {
    if let State::Trapped(_) = *state {
        return;
    }
    *state = State::Running;
    let mut pc = *at;
    for _ in 0..budget {
        let Some(done) = step(pc) else {
            *state = State::Trapped(Trap::Fetch);
            break;
        };
        match done {
            Ok(next) => pc = next,
            Err(ended) => {
                pc += usize::from(ended == State::Waiting);
                *state = ended;
                break;
            }
        }
    }
    *at = pc;
}

/// One instruction: where the next one stands, or the state that ends the slice.
#[inline(always)]
fn step(
    registers: &mut [u16; 256],
    words: &mut Words,
    instruction: &Instruction,
    next: usize,
) -> Result<usize, State> {
    let r = |register: u8| registers[usize::from(register)];
    let (a, value) = match *instruction {
        Instruction::Nothing => return Ok(next),
        Instruction::Set { a, number } => (a, number),
        Instruction::Extend { a, number } => (a, (r(a) << 7).wrapping_add(number)),
        Instruction::Move { a, b } => (a, r(b)),
        Instruction::Add { a, b, c } => (a, r(b).wrapping_add(r(c))),
        Instruction::Subtract { a, b, c } => (a, r(b).wrapping_sub(r(c))),
        Instruction::And { a, b, c } => (a, r(b) & r(c)),
        Instruction::Or { a, b, c } => (a, r(b) | r(c)),
        Instruction::ExclusiveOr { a, b, c } => (a, r(b) ^ r(c)),
        Instruction::ShiftRight { a, b, count } => (a, r(b) >> count),
        Instruction::Multiply { a, b, c } => (a, r(b).wrapping_mul(r(c))),
        Instruction::Load { a, b, number } => (a, load(words, r(b).wrapping_add(number))?),
        Instruction::Store { a, b, number } => {
            store(words, r(b).wrapping_add(number), r(a))?;
            return Ok(next);
        }
        Instruction::JumpZero { a, target } => return Ok(if r(a) == 0 { target.into() } else { next }),
        Instruction::JumpLess { a, b, target } => return Ok(if r(a) < r(b) { target.into() } else { next }),
        Instruction::Wait => return Err(State::Waiting),
        Instruction::Jump { a } => return Ok(r(a).into()),
        Instruction::Illegal => return Err(State::Trapped(Trap::Illegal)),
    };
    registers[usize::from(a)] = value;
    Ok(next)
}

#[inline(always)]
pub fn load(words: &Words, at: u16) -> Result<u16, State> {
    if may_load(at) { Ok(words[usize::from(at)]) } else { Err(State::Trapped(Trap::Load)) }
}

#[inline(always)]
pub fn store(words: &mut Words, at: u16, word: u16) -> Result<(), State> {
    if !may_store(at) {
        return Err(State::Trapped(Trap::Store));
    }
    words[usize::from(at)] = word;
    Ok(())
}
