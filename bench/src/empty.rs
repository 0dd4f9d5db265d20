//! A call that does nothing: what an exported call costs beside one that Rust compiled itself.

use std::arch::asm;
use std::arch::global_asm;

// As the archive's functions are: nothing of it can be compiled into the caller.
global_asm!(".globl bench_empty", "bench_empty:", "mov rax, rdi", "ret");

extern "C" {
    fn bench_empty(n: u64) -> u64;
}

/// n itself, by an exported call.
pub fn exported(n: u64) -> u64 {
    // It reads a register and writes another.
    unsafe { bench_empty(n) }
}

/// n itself, by a function of this program, which the compiler can't look into either.
#[inline(never)]
pub fn rust(n: u64) -> u64 {
    let same: u64;
    // It reads a register and writes another.
    unsafe { asm!("mov {}, {}", out(reg) same, in(reg) n, options(pure, nomem, nostack)) }
    same
}
