//! Timing: the core's clock, and the best of several rounds.

use std::arch::asm;
use std::hint::black_box;
use std::time::Instant;

/// Sums that wait for each other, one a cycle.
fn sums(times: u64) -> u64 {
    let (mut sum, one) = (0u64, black_box(3u64));
    for _ in 0..times {
        #[cfg(target_arch = "x86_64")]
        unsafe {
            asm!(".rept 100", "add {0}, {1}", ".endr", inout(reg) sum, in(reg) one)
        };
        #[cfg(target_arch = "aarch64")]
        unsafe {
            asm!(".rept 100", "add {0}, {0}, {1}", ".endr", inout(reg) sum, in(reg) one)
        };
    }
    sum
}

/// Cycles of this core in a nanosecond.
pub fn clock() -> f64 {
    let times = 20_000;
    let cycles = (100 * times) as f64;
    cycles / best(20, || _ = black_box(sums(times)))
}

/// The least nanoseconds that the work took in so many rounds.
pub fn best(rounds: usize, mut work: impl FnMut()) -> f64 {
    let mut least = f64::MAX;
    for _ in 0..rounds {
        let start = Instant::now();
        work();
        least = least.min(start.elapsed().as_nanos() as f64);
    }
    least
}
