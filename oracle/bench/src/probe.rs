//! What stands around a call: the machine's counter for a time, or callgrind's switch for instructions.
//!
//! A call is timed by itself, so that the state it starts from is made outside the timed stretch. Before each call nothing is timed
//! likewise, and the time of that is taken off. A ring sum, of a few nanoseconds, is timed a thousand calls at a time.

use crate::copies;
use std::hint::black_box;
use std::time::{Duration, Instant};

#[derive(Clone, Copy, PartialEq)]
enum Mode {
    /// the call runs and its outcome is wanted
    Compare,
    Time,
    /// callgrind collects during the call
    Count,
    /// the port's copies are counted
    Copies,
}

pub struct Probe {
    mode: Mode,
    ticks: u64,
    calls: u64,
    /// ticks of the empty stretches
    empty: u64,
    per_ns: f64,
    /// calls of memcpy and memset, and their bytes
    copies: (u64, u64),
}

#[cfg(target_arch = "x86_64")]
#[inline(always)]
fn counter() -> u64 {
    use core::arch::x86_64::{_mm_lfence, _rdtsc};
    // SAFETY: every x86-64 has both; the fences keep the call between the two readings
    unsafe {
        _mm_lfence();
        let now = _rdtsc();
        _mm_lfence();
        now
    }
}

#[cfg(target_arch = "aarch64")]
#[inline(always)]
fn counter() -> u64 {
    let now: u64;
    // SAFETY: reads the virtual counter; the barriers keep the call between the two readings
    unsafe { core::arch::asm!("isb", "mrs {}, cntvct_el0", "isb", out(reg) now) };
    now
}

/// what was stored before has left the core's store buffer, so that a call does not wait for what its state was made with
#[cfg(target_arch = "x86_64")]
#[inline(always)]
fn drain() {
    // SAFETY: every x86-64 has it
    unsafe { core::arch::x86_64::_mm_mfence() };
}

#[cfg(target_arch = "aarch64")]
#[inline(always)]
fn drain() {
    // SAFETY: waits for the stores before it
    unsafe { core::arch::asm!("dsb st") };
}

fn ticks_per_ns() -> f64 {
    let (wall, start) = (Instant::now(), counter());
    while wall.elapsed() < Duration::from_millis(100) {}
    (counter() - start) as f64 / wall.elapsed().as_nanos() as f64
}

impl Probe {
    fn new(mode: Mode, per_ns: f64) -> Probe {
        Probe { mode, ticks: 0, calls: 0, empty: 0, per_ns, copies: (0, 0) }
    }

    pub fn clock() -> Probe {
        Probe::new(Mode::Time, ticks_per_ns())
    }

    pub fn counting() -> Probe {
        Probe::new(Mode::Count, 1.0)
    }

    pub fn copying() -> Probe {
        Probe::new(Mode::Copies, 1.0)
    }

    pub fn comparing() -> Probe {
        Probe::new(Mode::Compare, 1.0)
    }

    pub fn compares(&self) -> bool {
        self.mode == Mode::Compare
    }

    #[inline(always)]
    pub fn call<T>(&mut self, act: impl FnOnce() -> T) -> T {
        self.calls_of(1, act)
    }

    /// `act` makes `count` calls
    #[inline(always)]
    pub fn calls_of<T>(&mut self, count: u64, act: impl FnOnce() -> T) -> T {
        self.calls += count;
        match self.mode {
            Mode::Compare => act(),
            Mode::Time => {
                drain();
                let before = counter();
                let start = counter();
                let answer = black_box(act());
                self.ticks += counter() - start;
                self.empty += start - before;
                answer
            }
            Mode::Count => {
                crate::callgrind::toggle();
                let answer = black_box(act());
                crate::callgrind::toggle();
                answer
            }
            Mode::Copies => {
                let before = copies::so_far();
                let answer = black_box(act());
                let behind = copies::so_far();
                self.copies = (behind.0 - before.0, behind.1 - before.1);
                answer
            }
        }
    }

    /// the ticks of a loop that reads 4,096 words, a few at a time, as a quick call does
    pub fn fixed_loop(&self) -> u64 {
        let words = [7u64; 512];
        let start = counter();
        let mut sums = [0u64; 4];
        for _ in 0..8 {
            for four in words.chunks_exact(4) {
                sums.iter_mut().zip(four).for_each(|(sum, word)| *sum = sum.wrapping_add(black_box(*word)));
            }
        }
        black_box(sums);
        counter() - start
    }

    /// one sample: two repetitions to warm up, then at least 16 and until 20 µs are timed, or 512: the state of a short call is long in the
    /// making, and what else runs should not come in between; nanoseconds a call
    pub fn sample<T>(&mut self, mut once: impl FnMut(&mut Probe) -> T) -> f64 {
        for _ in 0..2 {
            black_box(once(self));
        }
        (self.ticks, self.empty, self.calls) = (0, 0, 0);
        let (mut stretches, enough) = (0, (20_000.0 * self.per_ns) as u64);
        while self.ticks < self.empty + enough || stretches < 16 {
            black_box(once(self));
            stretches += 1;
            if stretches == 512 {
                break;
            }
        }
        self.ticks.saturating_sub(self.empty) as f64 / self.per_ns / self.calls as f64
    }

    /// the calls so far, for dividing a count
    pub fn calls(&self) -> u64 {
        self.calls
    }

    /// calls of memcpy and memset in the last stretch, and their bytes
    pub fn copies(&self) -> (u64, u64) {
        self.copies
    }
}
