//! Demand 2: the model beside the lifted Rust, after every call, on 01's stated domain.

use crate::gen_calls::{Source, config};
use crate::model::{Endpoint, Session};
use crate::rng::Rng;
use crate::wire::Party;
use lifted::Camera;
use lifted::calls::*;

/// "none of 8, 11, 13, 17 to 20 given", no cut, no recovery
pub fn on_domain(call: &Call, s: &Session, ring: &[u32]) -> bool {
    match call {
        Call::Recover { .. } => false,
        Call::Submit { .. } => {
            let (mut s, mut ring) = (s.clone(), ring.to_vec());
            let reply = s.call(call, &mut ring, &mut []);
            !matches!(reply.answer, Answer::Cut | Answer::Refused(8 | 11 | 13 | 17..=20))
        }
        _ => true,
    }
}

/// a failed completion has no packets in the Rust
fn comparable(mut reply: Reply) -> Reply {
    if let Answer::Completed { failure: Some(_), packets, .. } = &mut reply.answer {
        *packets = 0;
    }
    reply
}

pub struct Pair {
    pub model: Session,
    pub ring: Vec<u32>,
    rust: Camera,
    pub rust_ring: Vec<u32>,
}

pub const BLANK: u64 = 0x5a5a_5a5a_5a5a_5a5a;

/// what differed, in words
pub type Difference = String;

impl Pair {
    pub fn open(cfg: &Config, next: u64) -> Pair {
        let mut ring = vec![0xdead_beef; cfg.words()];
        let (_, mut model) = Session::open(cfg, &mut ring);
        let mut rust = Camera::open(cfg);
        model.next = next;
        rust.set_next(next);
        Pair { model, rust_ring: vec![0; cfg.words()], ring, rust }
    }

    /// None: not on the domain, and not made
    pub fn call(&mut self, call: &Call, connected: bool) -> Option<Result<Answer, Difference>> {
        if !on_domain(call, &self.model, &self.ring) {
            return None;
        }
        Some(self.both(call, connected).map(|(reply, _)| reply.answer))
    }

    /// what the Rust replied, and its results, where the model did the same
    pub fn both(&mut self, call: &Call, connected: bool) -> Result<(Reply, [u64; 255]), Difference> {
        let mut ours = [BLANK; 255];
        let mut theirs = [BLANK; 255];
        let mine = comparable(self.model.call(call, &mut self.ring, &mut ours));
        let rust = self.rust.call(call, &mut theirs, connected);
        if mine != rust {
            return Err(format!("model {mine:?}\n     Rust  {rust:?}"));
        }
        if ours != theirs {
            let at = (0..255).find(|i| ours[*i] != theirs[*i]).unwrap();
            return Err(format!("result {at}: model {:#x}, Rust {:#x}", ours[at], theirs[at]));
        }
        self.rust.ring(&mut self.rust_ring);
        if self.ring != self.rust_ring {
            let at = (0..self.ring.len()).find(|i| self.ring[*i] != self.rust_ring[*i]).unwrap();
            return Err(format!("ring word {at}: model {:#010x}, Rust {:#010x}", self.ring[at], self.rust_ring[at]));
        }
        let (view, rust_view) = (self.model.view(), self.rust.view());
        if view != rust_view {
            return Err(format!("session:\n     model {view:?}\n     Rust  {rust_view:?}"));
        }
        Ok((rust, theirs))
    }
}

fn replay(cfg: &Config, next: u64, calls: &[(Call, bool)]) -> Option<(usize, Difference)> {
    let mut pair = Pair::open(cfg, next);
    calls.iter().enumerate().find_map(|(i, (call, connected))| match pair.call(call, *connected) {
        Some(Err(difference)) => Some((i, difference)),
        _ => None,
    })
}

/// drops calls and shortens submissions as long as some difference stays
fn shrink(cfg: &Config, next: u64, mut calls: Vec<(Call, bool)>) -> Vec<(Call, bool)> {
    let mut size = calls.len().max(1);
    while size > 0 {
        let mut at = 0;
        while at < calls.len() {
            let mut fewer = calls.clone();
            fewer.drain(at..(at + size).min(calls.len()));
            if let Some((last, _)) = replay(cfg, next, &fewer) {
                fewer.truncate(last + 1);
                calls = fewer;
            } else {
                at += size;
            }
        }
        size /= 2;
    }
    for i in 0..calls.len() {
        while let (Call::Submit { transfer, lengths, ring_len }, connected) = &calls[i] {
            if lengths.len() < 2 {
                break;
            }
            let mut shorter = lengths.clone();
            let gone = shorter.pop().unwrap();
            let transfer = Transfer { buffer_len: transfer.buffer_len.wrapping_sub(gone), ..*transfer };
            let mut fewer = calls.clone();
            fewer[i] = (Call::Submit { transfer, lengths: shorter, ring_len: *ring_len }, *connected);
            if replay(cfg, next, &fewer).is_none() {
                break;
            }
            calls = fewer;
        }
    }
    calls
}

#[derive(Default)]
pub struct Tally {
    pub calls: u64,
    /// stores of the controller, and numbers set by hand: no calls
    pub steps: u64,
    /// of the sessions, those in which the next number was set by hand, which the domain does not know
    pub set: u64,
    pub sessions: u64,
    pub skipped: u64,
    pub refusals: [u64; 21],
    pub accepted: u64,
    pub first: u64,
    pub completed: u64,
    pub failed: [u64; 4],
    pub not_yet: u64,
}

impl Tally {
    fn note(&mut self, answer: Answer, was_live: bool) {
        self.calls += 1;
        match answer {
            Answer::Refused(n) => self.refusals[usize::from(n)] += 1,
            Answer::TooLong(_) => self.refusals[9] += 1,
            Answer::Accepted(_) => {
                self.accepted += 1;
                self.first += u64::from(!was_live);
            }
            Answer::NotYet => self.not_yet += 1,
            Answer::Completed { failure: None, .. } => self.completed += 1,
            Answer::Completed { failure: Some(f), .. } => {
                self.failed[match f {
                    Failure::Disconnected => 0,
                    Failure::Cancelled => 1,
                    Failure::Fault(..) => 2,
                    Failure::UnexpectedHalt(_) => 3,
                }] += 1
            }
            Answer::Done | Answer::Cut => {}
        }
    }

    pub fn print(&self) {
        println!(
            "{} session calls in {} sessions, no mismatch ({} calls off the domain were passed over)",
            self.calls, self.sessions, self.skipped
        );
        println!("  {} steps between them; in {} sessions the next number was set by hand", self.steps, self.set);
        println!("  submissions accepted {}, first ones {}", self.accepted, self.first);
        println!(
            "  reclaimed: done {}, disconnected {}, cancelled {}, fault {}, unexpected halt {}; not yet {}",
            self.completed, self.failed[0], self.failed[1], self.failed[2], self.failed[3], self.not_yet
        );
        let given: Vec<String> = (1..21).filter(|n| self.refusals[*n] > 0).map(|n| format!("{n}: {}", self.refusals[n])).collect();
        println!("  refusals: {}", given.join(", "));
    }
}

/// a run that differs, shrunk and in words
fn told(cfg: &Config, next: u64, made: Vec<(Call, bool)>) -> String {
    let short = shrink(cfg, next, made);
    let (_, difference) = replay(cfg, next, &short).expect("a shrunk run differs");
    let mut text = format!("{cfg:?}, next number {next}\n");
    for (i, (call, connected)) in short.iter().enumerate() {
        text.push_str(&format!("  {i}: {call:?}{}\n", if *connected { "" } else { " (not connected)" }));
    }
    text.push_str(&format!("  -> {difference}"));
    text
}

/// One random session; a difference comes back shrunk and in words.
fn one(rng: &mut Rng, tally: &mut Tally, third: Option<&mut dyn Party>) -> Result<(), String> {
    let cfg = config(rng);
    let next = if rng.one_in(30) { u64::MAX - rng.below(4) } else { 1 };
    let mut pair = Pair::open(&cfg, next);
    let mut source = Source::new(rng, false);
    let mut made = Vec::new();
    let mut on_domain = Vec::new();
    let mut set_by_hand = next != 1;
    tally.sessions += 1;
    for _ in 0..source.calls(rng) {
        let call = source.call(rng, &pair.model, &pair.ring);
        let connected = rng.one_in(2);
        let was_live = pair.model.live;
        made.push((call, connected));
        let (call, connected) = made.last().unwrap();
        match pair.call(call, *connected) {
            None => tally.skipped += 1,
            Some(Ok(answer)) => {
                if matches!(call, Call::Controller { .. } | Call::Number { .. }) {
                    tally.steps += 1;
                    set_by_hand |= matches!(call, Call::Number { .. });
                } else {
                    tally.note(answer, was_live);
                }
                if third.is_some() {
                    on_domain.push(call.clone());
                }
            }
            Some(Err(_)) => return Err(told(&cfg, next, made)),
        }
    }
    tally.set += u64::from(set_by_hand);
    match third {
        Some(party) => crate::off::session_of(&cfg, next, &on_domain, party),
        None => Ok(()),
    }
}

/// `third` is asked the same calls, beside the model and the Rust
pub fn session(seed: u64, calls: u64, mut third: Option<&mut dyn Party>) -> Result<Tally, String> {
    let mut rng = Rng::new(seed);
    let mut tally = Tally::default();
    while tally.calls < calls {
        one(&mut rng, &mut tally, third.as_mut().map(|p| &mut **p as &mut dyn Party))?;
    }
    Ok(tally)
}
