//! A row of the session: the steps before the call, and the call. On both sides the state is made anew for each repetition,
//! outside the timed stretch: the Rust's by the steps, since it cannot be copied, the port's by copying its bytes and its ring.

use crate::port::RING_WORDS;
use crate::probe::Probe;
use crate::rows::{Once, Row};
use crate::sides::{self, LENGTHS, PortSession, Step, port_after, rust_after};
use lifted::rust_session::{RustSession, halts, request};
use std::hint::black_box;

#[derive(Clone, Copy)]
pub enum Timed {
    Submit(usize),
    Poll(Option<u32>),
    Reclaim(u64, Option<u32>),
    Cancel(u64),
    Reset,
    /// the port alone
    Open,
    Check,
    Recover,
}

/// what a call left, as one number: both sides must agree on it
fn outcome(answers: &[u64], ring: &[u32], counts: (usize, usize, usize)) -> u64 {
    let counts = [counts.0 as u64, counts.1 as u64, counts.2 as u64];
    let words = answers.iter().copied().chain(ring.iter().map(|w| u64::from(*w))).chain(counts);
    words.fold(0xcbf2_9ce4_8422_2325, |sum, word| (sum ^ word).wrapping_mul(0x100_0000_01b3))
}

fn rust_outcome(probe: &Probe, s: &RustSession, answers: &[u64]) -> u64 {
    if !probe.compares() {
        return 0;
    }
    let mut ring = [0; RING_WORDS];
    s.ring(&mut ring);
    outcome(answers, &ring, s.counts())
}

fn rust_once(probe: &mut Probe, steps: &[Step], timed: Timed) -> u64 {
    let mut s = rust_after(steps);
    match timed {
        Timed::Submit(n) => {
            let request = request(&LENGTHS[..n]);
            sides::board(None);
            let id = probe.call(|| s.submit(black_box(request))).expect("accepted").raw();
            rust_outcome(probe, &s, &[id])
        }
        Timed::Poll(event) => {
            sides::board(event);
            probe.call(|| s.poll());
            rust_outcome(probe, &s, &[halts().into()])
        }
        Timed::Reclaim(id, event) => {
            sides::board(event);
            let done = probe.call(|| s.reclaim(black_box(id))).expect("completed").expect("done");
            let packets = done.iso_packets.iter().map(|p| (p.actual_length | p.requested_length << 12) as u64);
            let answers: Vec<u64> = [done.actual_length as u64].into_iter().chain(packets).collect();
            rust_outcome(probe, &s, &answers)
        }
        Timed::Cancel(id) => {
            sides::board(None);
            probe.call(|| s.cancel(black_box(id))).expect("known");
            rust_outcome(probe, &s, &[halts().into()])
        }
        Timed::Reset => {
            probe.call(|| s.reset()).expect("empty");
            rust_outcome(probe, &s, &[])
        }
        Timed::Open | Timed::Check | Timed::Recover => unreachable!("calls of the port alone"),
    }
}

fn port_once(probe: &mut Probe, s: &mut PortSession, timed: Timed) -> u64 {
    let answers = match timed {
        Timed::Submit(n) => {
            let (lengths, transfer) = (&LENGTHS[..n], sides::transfer(n));
            vec![probe.call(|| s.submit(black_box(lengths), transfer)).value]
        }
        Timed::Poll(event) => vec![probe.call(|| s.poll(black_box(event))).halt.into()],
        Timed::Reclaim(id, event) => {
            let done = probe.call(|| s.reclaim(black_box(id), event));
            let packets = s.results[..done.packets as usize].iter().copied();
            if !probe.compares() {
                return 0;
            }
            [u64::from(done.length)].into_iter().chain(packets).collect()
        }
        Timed::Cancel(id) => vec![probe.call(|| s.cancel(black_box(id))).halt.into()],
        Timed::Reset => {
            assert_eq!(probe.call(|| s.reset()).refusal, 0);
            vec![]
        }
        Timed::Open => vec![probe.call(|| s.open()).into()],
        Timed::Check => vec![probe.call(|| s.check()).into()],
        Timed::Recover => vec![probe.call(|| s.recover()).refusal.into()],
    };
    if probe.compares() { outcome(&answers, &s.ring[..], s.counts()) } else { 0 }
}

pub fn row(name: String, steps: Vec<Step>, timed: Timed) -> Row {
    let start = port_after(&steps);
    let mut work = start.clone();
    let port: Once = Box::new(move |probe| {
        work.restore(&start);
        port_once(probe, &mut work, timed)
    });
    let alone = matches!(timed, Timed::Open | Timed::Check | Timed::Recover);
    let rust: Option<Once> = (!alone).then(|| Box::new(move |probe: &mut Probe| rust_once(probe, &steps, timed)) as Once);
    Row { name, rust, port }
}
