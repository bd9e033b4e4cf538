//! The machine that a table was measured on: its processor, and the clock that it ran at.

use crate::turns::time;
use std::arch::asm;
use std::process::Command;

pub struct Machine {
    pub processor: String,
    /// Cycles in a nanosecond, estimated.
    pub clock: f64,
}

const CHAIN: u64 = 100;
const TURNS: u64 = 100_000;
const ROUNDS: usize = 15;

impl Machine {
    pub fn look() -> Machine {
        let least = (0..ROUNDS).map(|_| time(|| chain(TURNS))).fold(f64::MAX, f64::min);
        Machine { processor: processor(), clock: (CHAIN * TURNS) as f64 / least }
    }
}

/// What lscpu calls the processor, and the kind of machine.
fn processor() -> String {
    let said = |command: &mut Command| command.output().map(|out| String::from_utf8_lossy(&out.stdout).into_owned()).unwrap_or_default();
    let lines = said(Command::new("lscpu").env("LC_ALL", "C"));
    let field = |name: &str| lines.lines().find_map(|line| line.trim().strip_prefix(name)).map(str::trim).map(String::from);
    let name = field("Model name:").unwrap_or("unknown processor".to_string());
    format!("{name} ({})", said(Command::new("uname").arg("-m")).trim())
}

/// A chain of exclusive ors, each of which waits for the one before: a cycle each, beside which the loop costs nothing.
fn chain(turns: u64) {
    let (mut turns, mut value) = (turns, 1u64);
    #[cfg(target_arch = "x86_64")]
    unsafe {
        asm!("2:", ".rept 100", "xor {value}, {turns}", ".endr", "dec {turns}", "jnz 2b", value = inout(reg) value, turns = inout(reg) turns);
    }
    #[cfg(target_arch = "aarch64")]
    unsafe {
        asm!("2:", ".rept 100", "eor {value}, {value}, {turns}", ".endr", "subs {turns}, {turns}, #1", "b.ne 2b", value = inout(reg) value, turns = inout(reg) turns);
    }
    std::hint::black_box((turns, value));
}
