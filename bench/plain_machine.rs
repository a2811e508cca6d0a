// Slices of level 1's machine as plain Rust (machine.rs), which is measured beside the proved one by `bench/run`. It
// prints the same registers, state and sum over memory.
// Usage: plain_machine SLICES, each of 1,000 steps of a busy image.

#[allow(dead_code)]
mod machine;

use machine::kept::may_load;
use machine::{Machine, State};

/// A loop of 15 instructions that loads, stores, computes and jumps.
const IMAGE: [u16; 20] = [
    0x1208, 0x2200, 0x1410, 0x2400, 0x1601, 0xb842, 0x4918, 0xc842, 0xba80, 0x8b60, 0x9d43, 0xada0, 0xcc43, 0x7fa0,
    0x6fe8, 0x5fe0, 0x3f80, 0xce90, 0xe980, 0xd1f1,
];

fn main() {
    let slices: u32 = std::env::args().nth(1).and_then(|n| n.parse().ok()).expect("SLICES");
    let mut memory = [0u16; 4096];
    memory[..IMAGE.len()].copy_from_slice(&IMAGE);
    let mut machine = Machine::new(&IMAGE);
    for _ in 0..slices {
        machine.slice(&mut memory, 1000);
    }
    for word in machine.r {
        print!("{word} ");
    }
    // All that level 1 may load, in one number.
    let mut sum = 0u32;
    for at in 0..4096u16 {
        let word = if may_load(at) { memory[usize::from(at)] } else { 0 };
        sum = sum.wrapping_mul(31).wrapping_add(u32::from(word));
    }
    println!("{} {} {sum}", machine.pc, machine.state == State::Running);
}
