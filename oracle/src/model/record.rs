//! The record of a session: what it holds, when it is bad, and how it opens.

use super::sums::{capacity_of, packet_limit, ring_size};
use crate::slips::{Slip, slip};
use lifted::calls::*;

pub const MAX_REQUESTS: usize = 64;
pub const MAX_PACKETS: usize = 1_024;
pub const MIN_RESULTS: usize = 255;

#[derive(Clone, Copy, PartialEq, Eq, Debug, Hash, Default)]
pub struct Packet {
    pub planned: u16,
    pub slot: u16,
    pub actual: u16,
    pub error: bool,
}

#[derive(Clone, PartialEq, Eq, Debug, Hash)]
pub struct Request {
    pub id: u64,
    pub total: u32,
    pub failure: Option<Failure>,
    pub packets: Vec<Packet>,
}

/// An entry of the port's table of requests that is not in use.
#[derive(Clone, Copy, PartialEq, Eq, Debug, Default, Hash)]
pub struct Entry {
    pub id: u64,
    pub total: u32,
    pub packets: u16,
    pub failure: Option<Failure>,
}

/// An entry that is not in use: what an entry of the layout says, or bytes that are none and stay.
#[derive(Clone, PartialEq, Eq, Debug, Hash)]
pub enum Unused<T> {
    Entry(T),
    Bytes(Vec<u8>),
}

/// What stands behind the entries in use: not of 01, kept only to foretell every byte of the port's session. Removing a request
/// moves those behind it down and leaves the last where it was (DECISIONS 39 and the promise of `reclaim`).
#[derive(Clone, PartialEq, Eq, Debug, Hash, Default)]
pub struct Behind {
    pub requests: Vec<Unused<Entry>>,
    pub packets: Vec<Unused<Packet>>,
}

impl Behind {
    /// some of it is no entry
    pub fn has_bytes(&self) -> bool {
        self.requests.iter().any(|e| matches!(e, Unused::Bytes(_))) || self.packets.iter().any(|p| matches!(p, Unused::Bytes(_)))
    }
}

#[derive(Clone, PartialEq, Eq, Debug, Hash)]
pub struct Session {
    pub cfg: Config,
    pub next: u64,
    pub live: bool,
    pub cursor: u16,
    pub start: u32,
    pub reason: Option<Reason>,
    pub completed: Vec<Request>,
    pub pending: Vec<Request>,
    pub behind: Option<Behind>,
}

pub trait Endpoint {
    fn ring(&self) -> u32;
    fn words(&self) -> usize;
    fn capacity(&self) -> u64;
    fn is_bad(&self) -> bool;
}

impl Endpoint for Config {
    fn ring(&self) -> u32 {
        if self.tiny > 0 { self.tiny.into() } else { ring_size(self.speed) }
    }

    fn words(&self) -> usize {
        2 * self.ring() as usize
    }

    fn capacity(&self) -> u64 {
        capacity_of(self.interval, self.ring())
    }

    /// 18: "endpoint over 15, device over 127, packet over 2,047, mult over 3"
    fn is_bad(&self) -> bool {
        self.endpoint > 15 || self.device > 127 || self.max_packet_size > 2_047 || self.mult > 3
    }
}

impl Session {
    fn idle(cfg: &Config) -> Session {
        Session {
            cfg: *cfg,
            next: 1,
            live: false,
            cursor: 0,
            start: 0,
            reason: None,
            completed: Vec::new(),
            pending: Vec::new(),
            behind: None,
        }
    }

    /// "One endpoint configuration is fixed at opening, which zeroes the ring; refused, it stores nothing and gives an idle session
    /// of what was offered."
    pub fn open(cfg: &Config, ring: &mut [u32]) -> (u16, Session) {
        let session = Session::idle(cfg);
        if ring.len() < cfg.words() {
            return (17, session);
        }
        if cfg.is_bad() {
            return (18, session);
        }
        ring[..cfg.words()].fill(0);
        (0, session)
    }

    /// the same session, with what stands behind its entries
    pub fn with_behind(mut self) -> Session {
        let (request, packet) = (Unused::Entry(Entry::default()), Unused::Entry(Packet::default()));
        self.behind = Some(Behind { requests: vec![request; MAX_REQUESTS], packets: vec![packet; MAX_PACKETS] });
        self
    }

    pub(super) fn packets_of(requests: &[Request]) -> u64 {
        requests.iter().map(|r| r.packets.len() as u64).sum()
    }

    pub fn pending_packets(&self) -> u64 {
        Self::packets_of(&self.pending)
    }

    /// 18: ".. or a record whose counts, lengths, slots or cursor lie beyond their limits, with a request of no packets, or with
    /// requests pending or a reason but no live channel" (DECISIONS 27)
    pub fn is_bad(&self) -> bool {
        let cfg = &self.cfg;
        let limit = packet_limit(cfg.speed);
        cfg.is_bad()
            || self.completed.len() + self.pending.len() > MAX_REQUESTS
            || Self::packets_of(&self.completed) + self.pending_packets() > MAX_PACKETS as u64
            || self.pending_packets() > cfg.capacity()
            || u32::from(self.cursor) >= cfg.ring()
            || !self.live && (!self.pending.is_empty() || self.reason.is_some())
            || self.completed.iter().chain(&self.pending).any(|r| {
                r.packets.is_empty()
                    || r.packets.len() > 255
                    || r.packets.iter().any(|p| u32::from(p.planned) > limit || p.actual > p.planned || u32::from(p.slot) >= cfg.ring())
            })
    }

    /// 17 and 18 of a call that is lent the ring
    pub(super) fn refusal(&self, ring_len: usize) -> Option<u16> {
        if slip(Slip::RecordFirst) && self.is_bad() {
            Some(18)
        } else if ring_len < self.cfg.words() {
            Some(17)
        } else if self.is_bad() {
            Some(18)
        } else {
            None
        }
    }

    /// what the lifted Rust holds too
    pub fn view(&self) -> View {
        let completed = self.completed.iter().map(|r| {
            let results = r.packets.iter().map(|p| ResultView { planned: p.planned.into(), actual: p.actual.into(), error: p.error });
            (
                r.id,
                match r.failure {
                    None => Ok((r.total, results.collect())),
                    Some(failure) => Err(failure),
                },
            )
        });
        let pending = self.pending.iter().map(|r| {
            let packets = r.packets.iter().map(|p| PacketView {
                planned: p.planned.into(),
                slot: p.slot.into(),
                actual: p.actual.into(),
                error: p.error,
            });
            (r.id, packets.collect())
        });
        View {
            next: self.next,
            live: self.live,
            cursor: self.cursor.into(),
            start: self.start,
            reason: self.reason,
            completed: completed.collect(),
            pending: pending.collect(),
        }
    }
}
