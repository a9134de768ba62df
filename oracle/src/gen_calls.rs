//! Random configurations and calls, led by the state of the model so that they reach every path.

use crate::model::{Endpoint, Session, packet_limit};
use crate::rng::Rng;
use lifted::calls::*;

pub fn config(rng: &mut Rng) -> Config {
    let interval = match rng.below(10) {
        0..4 => 1 + rng.below(8) as u16,
        4..6 => 1 << rng.below(9),
        6..8 => rng.below(300) as u16,
        8 => rng.below(65_536) as u16,
        _ => rng.pick(&[0, 1, 2, 3, 6, 12, 60, 63, 64, 65, 127, 255, 256, 257, 32_768, 65_535]),
    };
    Config {
        speed: rng.pick(&[
            Speed::High,
            Speed::High,
            Speed::High,
            Speed::High,
            Speed::Full,
            Speed::Full,
            Speed::Full,
            Speed::Full,
            Speed::Low,
        ]),
        direction: rng.pick(&[Direction::In, Direction::Out]),
        interval,
        endpoint: rng.below(16) as u8,
        device: rng.below(128) as u8,
        max_packet_size: if rng.one_in(8) { rng.pick(&[0, 1, 2_047]) } else { rng.below(2_048) as u16 },
        mult: rng.below(4) as u8,
        mode: rng.pick(&[Mode::Compatible, Mode::Guarded]),
        tiny: 0,
    }
}

/// A clock and what is still to come; `off` lets calls leave demand 2's domain.
pub struct Source {
    clock: u32,
    queue: Vec<Call>,
    off: bool,
    /// requests are left where they lie, so that the tables fill
    hoard: bool,
    /// hardly a fault, and gates that stay open, so that a session lives long
    calm: bool,
    /// numbers that come twice
    twice: bool,
}

const ALL_RING: u32 = u32::MAX;

/// a first submission of one packet that a gate turns away
pub fn shut(rng: &mut Rng) -> Call {
    let first = rng.one_in(2);
    let lengths = vec![1];
    let (start_reading, frame_reading) = (rng.word(), rng.word());
    let transfer = Transfer { start_reading, frame_reading, gate_program: !first, gate_enable: first, ..Transfer::plain(&lengths) };
    Call::Submit { transfer, lengths, ring_len: ALL_RING }
}

impl Source {
    pub fn new(rng: &mut Rng, off: bool) -> Source {
        let clock = if rng.one_in(4) { rng.word() } else { rng.below(65_536) as u32 };
        let hoard = rng.one_in(if off { 4 } else { 8 });
        Source { clock, queue: Vec::new(), off, hoard, calm: hoard || rng.one_in(2), twice: rng.one_in(20) }
    }

    /// the same, with numbers that come twice or with none
    pub fn numbered_twice(self, twice: bool) -> Source {
        Source { twice, ..self }
    }

    /// how many calls to make of this kind of session
    pub fn calls(&self, rng: &mut Rng) -> u64 {
        if self.hoard { 300 + rng.below(400) } else { 20 + rng.below(300) }
    }

    /// seldom, and in a calm session hardly ever
    fn seldom(&self, rng: &mut Rng, n: u64) -> bool {
        rng.one_in(if self.calm { 12 * n } else { n })
    }

    fn ring_len(&self, rng: &mut Rng, s: &Session) -> u32 {
        if self.off && self.seldom(rng, 40) {
            return rng.below(s.cfg.words() as u64 + 2) as u32;
        }
        ALL_RING
    }

    fn reading(&mut self, rng: &mut Rng) -> u32 {
        match rng.below(20) {
            0 => rng.word(),
            1 => rng.pick(&[u32::MAX, u32::MAX - 1, 65_534, 65_535, 0]),
            _ => {
                self.clock = self.clock.wrapping_add(rng.below(24) as u32);
                self.clock
            }
        }
    }

    fn lengths(&self, rng: &mut Rng, s: &Session) -> Vec<u32> {
        let room = s.cfg.capacity().saturating_sub(s.pending_packets());
        let n = match rng.below(24) {
            0 if self.calm => 1,
            0 => 0,
            1 => s.cfg.capacity() + rng.below(3),
            2 => room + rng.below(2),
            3 => rng.below(300),
            4..8 => 1 + rng.below(room.max(1)),
            8..14 => 1,
            _ => 1 + rng.below(8),
        };
        let limit = packet_limit(s.cfg.speed);
        let size = rng.pick(&[0, 1, 3, 192, limit, limit]);
        let mut lengths: Vec<u32> = (0..n)
            .map(|_| match rng.below(6) {
                0 => rng.below(u64::from(limit) + 1) as u32,
                1 => limit,
                _ => size.min(limit),
            })
            .collect();
        if !lengths.is_empty() && self.seldom(rng, 24) {
            let many = 1 + rng.below(2);
            for _ in 0..many {
                let at = rng.below(n) as usize;
                lengths[at] = rng.pick(&[limit + 1, 1_023, 1_024, 3_072, 3_073, 4_095, 4_096, 65_536, u32::MAX]);
            }
        }
        lengths
    }

    /// where a buffer of `sum` bytes begins: up to the last address that fits, off the domain beyond it
    fn base(&mut self, rng: &mut Rng, sum: u64) -> u64 {
        let top = 4_294_967_295u64.saturating_sub(sum);
        let base = match rng.below(8) {
            0 => 0,
            1 => top,
            _ => u64::from(rng.word()).min(top),
        };
        if !self.off || !self.seldom(rng, 16) {
            return base;
        }
        match rng.below(4) {
            0 => top + 1,
            1 => rng.next(),
            2 => u64::MAX,
            _ => 4_294_967_295,
        }
    }

    fn buffer_len(&mut self, rng: &mut Rng, sum: u64) -> u32 {
        let whole = sum.min(u64::from(u32::MAX)) as u32;
        if !self.seldom(rng, 24) {
            return whole;
        }
        match rng.below(3) {
            0 => whole.wrapping_add(1),
            1 => whole.wrapping_sub(1),
            _ => rng.word(),
        }
    }

    /// how many words are stored before a cut; with `two_n` or more there is none
    fn words(&mut self, rng: &mut Rng, two_n: u32) -> u32 {
        if !self.off || !self.seldom(rng, 6) {
            return rng.pick(&[two_n, two_n + 1, u32::MAX]);
        }
        match rng.below(4) {
            0 => 0,
            1 => two_n.saturating_sub(1),
            _ => rng.below(u64::from(two_n) + 1) as u32,
        }
    }

    fn submit(&mut self, rng: &mut Rng, s: &Session) -> Call {
        let lengths = self.lengths(rng, s);
        let sum: u64 = lengths.iter().map(|l| u64::from(*l)).sum();
        let base = self.base(rng, sum);
        let buffer_len = self.buffer_len(rng, sum);
        let words = self.words(rng, 2 * lengths.len() as u32);
        let transfer = Transfer {
            isochronous: !self.seldom(rng, 40),
            has_buffer: !self.seldom(rng, 40),
            buffer_len,
            base,
            start_reading: self.reading(rng),
            frame_reading: self.reading(rng),
            channel_free: !self.seldom(rng, 12),
            gate_program: !self.seldom(rng, 12),
            gate_enable: !self.seldom(rng, 12),
            words,
        };
        Call::Submit { transfer, lengths, ring_len: self.ring_len(rng, s) }
    }

    fn event(&mut self, rng: &mut Rng) -> Event {
        let bit = |rng: &mut Rng| 1 << rng.below(32);
        let kind = if self.calm && !rng.one_in(16) { rng.below(12) } else { rng.below(24) };
        let hcint = match kind {
            0..6 => 0,
            6..12 => 1,
            12 => 2,
            13 => 3,
            14 => bit(rng),
            15 => bit(rng) | bit(rng),
            16 => rng.word(),
            17 => rng.word() & 0xffff_f800,
            18 => rng.word() & 0xffff_f801,
            19 => rng.pick(&[0x180, 0x82, 0x102, 0x10, 0x20, 0x200, 0x600, 0x400, 0x4, 0x8, 0x6, 0xc]),
            _ => rng.word() & 0xffff_f871,
        };
        Event { reported: !rng.one_in(10), unplugged: self.seldom(rng, 40), hcint }
    }

    fn id(&mut self, rng: &mut Rng, s: &Session) -> u64 {
        let known = s.completed.len() + s.pending.len();
        match rng.below(12) {
            0 => rng.pick(&[0, s.next, s.next.wrapping_sub(1), 1, u64::MAX]),
            1 => rng.next(),
            2..4 if !s.pending.is_empty() => s.pending[rng.below(s.pending.len() as u64) as usize].id,
            _ if known > 0 => {
                let at = if rng.one_in(2) { 0 } else { rng.below(known as u64) as usize };
                if at < s.completed.len() { s.completed[at].id } else { s.pending[at - s.completed.len()].id }
            }
            _ => s.next,
        }
    }

    /// the controller's word for a slot: served, still active, or anything
    fn word(rng: &mut Rng, now: u32) -> u32 {
        match rng.below(8) {
            0..4 => (now & 0x0200_0000) | rng.below(4_096) as u32,
            4 => rng.below(4_096) as u32 | (rng.below(4) as u32) << 28,
            5 => now & 0x7fff_f000,
            6 => now & 0x8fff_f000 | rng.below(4_096) as u32 | (rng.below(4) as u32) << 28,
            _ => rng.word(),
        }
    }

    fn controller(&mut self, rng: &mut Rng, s: &Session, ring: &[u32]) -> Call {
        // a damaged record may have a request of no packets, or slots beyond the ring
        let status = |slot: u16| ring.get(2 * usize::from(slot)).copied().unwrap_or(0);
        let at = if rng.one_in(3) { rng.below(s.pending.len().max(1) as u64) as usize } else { 0 };
        let slot = if let Some(of) = s.pending.get(at).filter(|r| !r.packets.is_empty() && !rng.one_in(8)) {
            if rng.one_in(2) {
                // the whole request is served
                for p in of.packets.iter().rev().skip(1) {
                    self.queue.push(Call::Controller { slot: p.slot, word: Self::word(rng, status(p.slot)) });
                }
                of.packets[of.packets.len() - 1].slot
            } else {
                of.packets[rng.below(of.packets.len() as u64) as usize].slot
            }
        } else {
            rng.below(s.cfg.ring().into()) as u16
        };
        Call::Controller { slot, word: Self::word(rng, status(slot)) }
    }

    pub fn call(&mut self, rng: &mut Rng, s: &Session, ring: &[u32]) -> Call {
        if let Some(call) = self.queue.pop() {
            return call;
        }
        if self.twice && rng.one_in(12) {
            return Call::Number { next: if rng.one_in(8) { 0 } else { 1 + rng.below(4) } };
        }
        match rng.below(100) {
            0..34 => self.submit(rng, s),
            34..56 if s.live => self.controller(rng, s, ring),
            34..72 => Call::Poll { event: self.event(rng), ring_len: self.ring_len(rng, s) },
            72..92 => {
                if self.hoard && !rng.one_in(12) {
                    return self.submit(rng, s);
                }
                let results_len = if self.off && rng.one_in(60) { rng.below(256) as u32 } else { 255 };
                Call::Reclaim { id: self.id(rng, s), event: self.event(rng), ring_len: self.ring_len(rng, s), results_len }
            }
            92..95 if !self.calm || rng.one_in(8) => Call::Cancel { id: self.id(rng, s) },
            95..97 => Call::Reset,
            97..100 if self.off && self.seldom(rng, 2) => Call::Recover { ring_len: self.ring_len(rng, s) },
            _ => Call::Poll { event: self.event(rng), ring_len: ALL_RING },
        }
    }
}
