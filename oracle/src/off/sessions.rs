//! Sessions beside the model: those of the domain as they come, and random ones with refused openings, cuts, recovery and damage.

use super::damage::damage;
use super::script::Script;
use crate::gen_calls::{Source, config, shut};
use crate::layout::SESSION_BYTES;
use crate::model::{Endpoint, Session};
use crate::rng::Rng;
use crate::wire::{self, Party, RING_ROOM, RawOpen};
use lifted::calls::*;

const ALL_BYTES: u32 = SESSION_BYTES as u32;

/// the calls of one session on the domain, for a party that stands beside the lifted Rust and the model
#[cfg_attr(not(lifted), allow(dead_code))]
pub fn session_of(cfg: &Config, next: u64, calls: &[Call], party: &mut dyn Party) -> Result<(), String> {
    let words = cfg.words() as u32;
    let mut script = Script::new(0x5a);
    script.add(wire::open(&wire::RawOpen::of(cfg, ALL_BYTES, words)));
    script.add(wire::poke(0, 16, &next.to_le_bytes()));
    script.kept = 4;
    for call in calls {
        add_call(&mut script, call, ALL_BYTES, words, None, 1);
    }
    script.run(party)
}

/// the controller stores only where the model says so
fn add_call(script: &mut Script, call: &Call, session_len: u32, ring_words: u32, kind: Option<u8>, yes: u8) {
    if let Call::Controller { slot, word } = call {
        let mut ring = script.model.ring.clone();
        if let Some(s) = script.model.held() {
            s.controller(*slot, *word, &mut ring);
        }
        if ring == script.model.ring {
            return;
        }
    }
    script.add(wire::call(call, session_len, ring_words, kind, yes));
}

#[derive(Default)]
pub struct Tally {
    pub calls: u64,
    pub cuts: u64,
    pub recoveries: u64,
    pub damaged: u64,
    pub refusals: [u64; 21],
}

impl Tally {
    fn note(&mut self, op: u8, answer: &[u8]) {
        let at = if op == 0x11 { 8 } else { 0 };
        let number = u32::from_le_bytes(answer[at..at + 4].try_into().unwrap());
        self.calls += 1;
        self.refusals[number as usize] += 1;
        self.cuts += u64::from(op == 0x11 && answer[12] == 1);
        self.recoveries += u64::from(op == 0x16 && number == 0);
    }

    pub fn print(&self, party: &str) {
        println!(
            "{} session calls beside {party}, no mismatch: {} cuts, {} recoveries, {} damaged sessions",
            self.calls, self.cuts, self.recoveries, self.damaged
        );
        let given: Vec<String> = (1..21).filter(|n| self.refusals[*n] > 0).map(|n| format!("{n}: {}", self.refusals[n])).collect();
        println!("  refusals: {}", given.join(", "));
    }
}

/// an opening that is refused, or nearly
fn spoil(rng: &mut Rng, raw: &mut RawOpen, cfg: &Config) {
    match rng.below(8) {
        0 => raw.session_len = rng.pick(&[0, 1, 40, ALL_BYTES - 1]),
        1 => raw.ring_words = rng.below(cfg.words() as u64 + 1) as u32,
        2 => raw.speed = rng.below(256) as u8,
        3 => raw.direction = rng.below(256) as u8,
        4 => raw.mode = rng.below(256) as u8,
        5 => raw.endpoint = rng.word() as u8,
        6 => raw.mult = rng.below(6) as u8,
        _ => (raw.device, raw.max_packet_size) = (rng.word() as u8, rng.word() as u16),
    }
}

/// A session in the making: its script, and what its next call is drawn from.
struct Making {
    script: Script,
    source: Source,
    /// whether its bytes are damaged now and then
    forging: bool,
    cfg: Config,
    session_len: u32,
    ring_words: u32,
    /// the bytes from before they were damaged
    whole: Option<Vec<u8>>,
    /// whether the last call was cut
    cut: bool,
}

impl Making {
    fn open(rng: &mut Rng, tally: &mut Tally) -> Making {
        let cfg = config(rng);
        let forging = rng.one_in(3);
        let mut script = Script::new(rng.word() as u8);
        let ring_words = if rng.one_in(3) { RING_ROOM as u32 } else { cfg.words() as u32 };
        let session_len = if rng.one_in(3) { wire::SESSION_ROOM as u32 } else { ALL_BYTES };
        let mut raw = RawOpen::of(&cfg, session_len, ring_words);
        if rng.one_in(12) {
            spoil(rng, &mut raw, &cfg);
        }
        script.add(wire::open(&raw));
        tally.note(0x10, script.answered(script.len() - 1));
        Making { script, source: Source::new(rng, true), forging, cfg, session_len, ring_words, whole: None, cut: false }
    }

    /// damages the bytes, or puts them back as they were
    fn forge(&mut self, rng: &mut Rng, tally: &mut Tally) {
        let script = &mut self.script;
        if let Some(bytes) = self.whole.take() {
            script.add(wire::poke(0, 0, &bytes));
            return;
        }
        self.whole = Some(script.model.session[..SESSION_BYTES].to_vec());
        let held = script.model.held().cloned();
        for _ in 0..1 + rng.below(2) {
            let (at, bytes) = damage(rng, held.as_ref(), &script.model.session);
            script.add(wire::poke(0, at, &bytes));
        }
        tally.damaged += 1;
        script.add(wire::check(self.session_len));
        tally.note(0x17, script.answered(script.len() - 1));
    }

    fn next_call(&mut self, rng: &mut Rng) -> Call {
        // where the bytes are no session, the calls are those for a blank one
        let s = match self.script.model.held() {
            Some(s) => s.clone(),
            None => Session::open(&self.cfg, &mut vec![0; self.cfg.words()]).1,
        };
        self.cfg = s.cfg;
        if self.cut && !rng.one_in(6) {
            Call::Recover { ring_len: u32::MAX }
        } else if self.whole.is_some() && !s.live && rng.one_in(4) {
            shut(rng)
        } else {
            self.source.call(rng, &s, &self.script.model.ring)
        }
    }

    fn call(&mut self, rng: &mut Rng, tally: &mut Tally) {
        let call = self.next_call(rng);
        let kind = rng.one_in(80).then(|| rng.pick(&[0, 1, 2, 3, 4, 255]));
        let len = if rng.one_in(150) { rng.pick(&[0, 5, 40, ALL_BYTES - 1]) } else { self.session_len };
        let before = self.script.len();
        add_call(&mut self.script, &call, len, self.ring_words, kind, if rng.one_in(30) { 255 } else { 1 });
        if self.script.len() > before && !matches!(call, Call::Controller { .. } | Call::Number { .. }) {
            let (op, answer) = (self.script.requests[before].bytes[0], self.script.answered(before));
            tally.note(op, answer);
            self.cut = op == 0x11 && answer[12] == 1;
        }
    }
}

fn one_session(rng: &mut Rng, tally: &mut Tally, party: &mut dyn Party) -> Result<(), String> {
    let mut made = Making::open(rng, tally);
    for _ in 0..made.source.calls(rng) {
        if made.forging && rng.one_in(8) {
            made.forge(rng, tally);
        }
        made.call(rng, tally);
    }
    made.script.kept = 3;
    made.script.run(party)
}

pub fn session(seed: u64, calls: u64, party: &mut dyn Party) -> Result<Tally, String> {
    let mut rng = Rng::new(seed);
    let mut tally = Tally::default();
    while tally.calls < calls {
        one_session(&mut rng, &mut tally, party)?;
    }
    Ok(tally)
}
