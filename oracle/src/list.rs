//! The stored list: calls with the lifted Rust's answers, for crates/replay, which makes them again with no Rust at hand.
//!
//! A line is a call: the number and the name of its kind, what goes in, a colon, what comes out; numbers are hexadecimal in capitals.
//! Every call was put to the Rust and to the model, and both agreed on all that the comparison of session calls and plans looks at.
//! All lie on demand 2's domain, but for those that both refuse with 11: there an address begins above 32 bits.
//! The answers are the Rust's. The model's, compared with the Rust's in the Rust's own form, are: the sum of a session's bytes, the
//! chunk of a length that is one chunk, and of what was refused the toggle. A failed request's packets are those it was submitted with.
//! Sums stand for many numbers: the 2,048 words of the ring lent (of which the session uses 512 or 128) or of a plan's array, the bytes
//! of a session, the 64 bytes of a frame list, the 255 results lent, the seven numbers of a stage (of one that is not there, zeros).
//! The eight setup bytes are one number, the first byte its lowest; an opening answers as a poll does.
//! "store" and "poke" are no calls: the controller's words, into the ring and into the array of a plan.

mod plans;
mod session;
mod sums;

use crate::rng::Rng;
use plans::plans;
use session::session;
use sums::ring_sums;

const KINDS: [&str; 25] = [
    "open", "submit", "poll", "reclaim", "cancel", "reset", "store", "size", "limit", "gcd", "capacity", "start", "slot", "grid",
    "schinfo", "frames", "pid", "next", "data", "control", "moved", "setup", "split", "packets", "poke",
];
/// 01's column "Rust": 11 is off demand 2's domain, and the Rust gives it only for an address at which something starts
const REFUSALS: [usize; 14] = [1, 2, 3, 4, 5, 6, 7, 9, 10, 11, 12, 14, 15, 16];
const WORDS: usize = 2_048;

/// from 1 on, h × 65,537 + x modulo the prime 2^47 − 115, for each half of a word
fn sum(halves: impl Iterator<Item = u64>) -> u64 {
    halves.fold(1, |h, x| (h * 65_537 + x) % 140_737_488_355_213)
}

fn sum_longs(words: &[u64]) -> u64 {
    sum_words(words.iter().flat_map(|w| [*w as u32, (*w >> 32) as u32]))
}

/// of a frame list, which is 64 bytes long
fn sum_frames(frames: &[u8]) -> u64 {
    sum(frames.iter().copied().chain(std::iter::repeat(0)).take(64).map(u64::from))
}

fn sum_words(words: impl Iterator<Item = u32>) -> u64 {
    sum(words.flat_map(|w| [u64::from(w % 65_536), u64::from(w / 65_536)]))
}

#[derive(Default)]
struct List {
    text: String,
    count: [u64; KINDS.len()],
    refusals: [u64; 21],
    outcomes: [u64; 5],
    /// by speed (high, full) and direction
    accepted: [[u64; 2]; 2],
    wrapped: [u64; 2],
    halts: u64,
}

impl List {
    fn line(&mut self, kind: &str, inputs: &[u64], answers: &[u64]) {
        let number = KINDS.iter().position(|k| *k == kind).expect("a kind");
        self.count[number] += 1;
        self.text.push_str(&format!("{number:X} {kind}"));
        inputs.iter().for_each(|n| self.text.push_str(&format!(" {n:X}")));
        self.text.push(':');
        answers.iter().for_each(|n| self.text.push_str(&format!(" {n:X}")));
        self.text.push('\n');
    }

    /// a number that the model and the Rust agree on
    fn same(&mut self, kind: &str, inputs: &[u64], ours: u64, rust: u64) -> Result<(), String> {
        if ours != rust {
            return Err(format!("{kind} {inputs:X?}: model {ours:X}, Rust {rust:X}"));
        }
        self.line(kind, inputs, &[rust]);
        Ok(())
    }

    fn calls(&self) -> u64 {
        KINDS.iter().zip(self.count).filter(|(k, _)| !matches!(**k, "store" | "poke")).map(|(_, n)| n).sum()
    }

    fn session_calls(&self) -> u64 {
        self.count[..6].iter().sum()
    }

    /// an error where something that the list is to hold is missing
    fn is_whole(&self) -> Result<(), String> {
        let missing: Vec<String> = REFUSALS
            .iter()
            .filter(|n| self.refusals[**n] == 0)
            .map(|n| format!("refusal {n}"))
            .chain(KINDS.iter().zip(self.count).filter(|(_, n)| *n == 0).map(|(k, _)| format!("kind {k}")))
            .chain((0..5).filter(|n| self.outcomes[*n] == 0).map(|n| format!("outcome {n}")))
            .chain((0..2).filter(|n| self.wrapped[*n] == 0).map(|n| format!("a ring of size {n} that wraps")))
            .chain((0..4).filter(|n| self.accepted[n / 2][n % 2] == 0).map(|n| format!("speed and direction {n}")))
            .collect();
        let given = (1..21).find(|n| self.refusals[*n] > 0 && !REFUSALS.contains(n));
        if self.calls() < 2_000 || self.halts == 0 || !missing.is_empty() || given.is_some() {
            return Err(format!("{} calls, {} halts; missing: {missing:?}; not of the Rust: {given:?}", self.calls(), self.halts));
        }
        Ok(())
    }

    fn tell(&self) {
        let counted = |numbers: &mut dyn Iterator<Item = (String, u64)>| {
            numbers.filter(|(_, n)| *n > 0).map(|(name, n)| format!("{name} {n}")).collect::<Vec<_>>().join(", ")
        };
        eprintln!("{} calls, {} of them on a session", self.calls(), self.session_calls());
        eprintln!("{}", counted(&mut KINDS.iter().map(|k| k.to_string()).zip(self.count)));
        eprintln!("refusals: {}", counted(&mut (1..21).map(|n| (format!("{n}:"), self.refusals[n]))));
        eprintln!("outcomes 0 to 4: {:?}; halts asked for: {}", self.outcomes, self.halts);
        eprintln!("accepted by speed and direction: {:?}; submissions over the ring's end: {:?}", self.accepted, self.wrapped);
    }
}

/// the list on standard output, and what it holds on standard error
pub fn run(seed: u64) -> Result<(), String> {
    let (mut list, mut rng) = (List::default(), Rng::new(seed));
    ring_sums(&mut list, &mut rng)?;
    plans(&mut list, &mut rng)?;
    let mut nth = 0;
    while list.session_calls() < 1_600 {
        session(&mut list, &mut rng, nth)?;
        nth += 1;
    }
    list.is_whole()?;
    list.tell();
    print!("{}", list.text);
    Ok(())
}
