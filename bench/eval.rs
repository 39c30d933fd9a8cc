//! The loops of eval.rt.txt over native operations: `eval_native OPCODE` prints the checksum of that opcode's loop.

use std::env;
use std::process::ExitCode;

/// How many pairs each loop takes.
const PAIRS: u32 = 0x100_0000;

fn main() -> ExitCode {
    for name in env::args().skip(1) {
        let sum = match name.as_str() {
            "iadd" => sum_over_pairs(u32::wrapping_add),
            "imul" => sum_over_pairs(u32::wrapping_mul),
            "idiv" => sum_over_pairs(idiv),
            // rotate_left takes the count modulo 32.
            "urol" => sum_over_pairs(u32::rotate_left),
            "bit_count" => sum_over_pairs(|x, _| x.count_ones()),
            _ => return ExitCode::from(2),
        };
        println!("{sum}");
    }
    ExitCode::SUCCESS
}

/// The state after this one, of which a pair of words is taken.
fn next(state: u64) -> u64 {
    state
        .wrapping_mul(0x5851_f42d_4c95_7f2d)
        .wrapping_add(0x1405_7b7e_f767_814f)
}

fn high(state: u64) -> u32 {
    (state >> 32) as u32
}

fn low(state: u64) -> u32 {
    state as u32
}

/// The sum of what an operation makes of each pair. It is compiled anew for each operation.
fn sum_over_pairs(made: impl Fn(u32, u32) -> u32) -> u64 {
    let mut state = 1;
    let mut sum = 0u64;
    for _ in 0..PAIRS {
        state = next(state);
        sum = sum.wrapping_add(u64::from(made(high(state), low(state))));
    }
    sum
}

/// The signed quotient, towards zero, and 0 where y is 0.
fn idiv(x: u32, y: u32) -> u32 {
    if y == 0 {
        return 0;
    }
    x.cast_signed()
        .wrapping_div(y.cast_signed())
        .cast_unsigned()
}
