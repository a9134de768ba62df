//! A run's state, and what a submission lays in it.

use crate::model::{Endpoint, Session, interval_of, is_active, iso_status, packet_limit};
use lifted::calls::*;

/// What is laid for a packet: its slot and its two words.
#[derive(Clone, Copy, PartialEq, Eq, Debug, Hash)]
pub(super) struct Laid {
    pub(super) slot: u16,
    pub(super) address: u32,
    pub(super) status: u32,
}

/// A run: the session, the ring, and what is put there for the packets pending.
#[derive(Clone, Debug, Hash)]
pub(super) struct State {
    pub(super) session: Session,
    pub(super) ring: Vec<u32>,
    pub(super) put: Vec<Laid>,
}

/// "a controller that changes only the status word of active slots and never makes one active"
pub(super) fn touch(ring: &mut [u32], slot: u16, word: u32) -> bool {
    let at = 2 * usize::from(slot);
    let may = at < ring.len() && is_active(ring[at]);
    if may {
        ring[at] = word;
    }
    may
}

pub(super) fn holds(ring: &[u32], x: &Laid) -> bool {
    ring[2 * usize::from(x.slot)] == x.status && ring[2 * usize::from(x.slot) + 1] == x.address
}

/// what a submission plans: written once more, so that the model's own loop is not the measure
pub(super) fn planned(s: &Session, t: &Transfer, lengths: &[u32], ring: &[u32]) -> Vec<Laid> {
    let insert = s.insert(t, ring);
    let step = interval_of(s.cfg.interval);
    let mut address = t.base;
    let mut laid = Vec::new();
    for (i, length) in lengths.iter().enumerate() {
        let slot = ((insert + i as u64 * step) % u64::from(s.cfg.ring())) as u16;
        laid.push(Laid { slot, address: address as u32, status: iso_status(*length, i + 1 == lengths.len()) });
        address = address.wrapping_add((*length).into());
    }
    laid
}

/// the stores, in their order: place and word
pub(super) fn words_of(laid: &[Laid]) -> Vec<(usize, u32)> {
    laid.iter().flat_map(|x| [(2 * usize::from(x.slot) + 1, x.address), (2 * usize::from(x.slot), x.status)]).collect()
}

pub(super) fn accepted(s: &Session, t: &Transfer, lengths: &[u32], ring: &[u32]) -> Option<Session> {
    let (mut s, mut ring) = (s.clone(), ring.to_vec());
    let t = Transfer { words: 2 * lengths.len() as u32, ..*t };
    matches!(s.submit(&t, lengths, &mut ring).answer, Answer::Accepted(_)).then_some(s)
}

impl State {
    pub(super) fn open(cfg: &Config) -> State {
        let mut ring = vec![0xffff_ffff; cfg.words()];
        let (_, session) = Session::open(cfg, &mut ring);
        State { session, ring, put: Vec::new() }
    }

    /// what is laid for the packets pending still: the oldest were settled
    fn drop_settled(&mut self) {
        let still = self.session.pending_packets() as usize;
        self.put.drain(..self.put.len().saturating_sub(still));
    }

    fn controller(&mut self, slot: u16, word: u32) {
        if touch(&mut self.ring, slot, word) {
            for x in self.put.iter_mut().filter(|x| x.slot == slot) {
                x.status = word;
            }
        }
    }

    pub(super) fn call(&mut self, call: &Call, between: &[(u16, u32)]) {
        if let Call::Controller { slot, word } = call {
            return self.controller(*slot, *word);
        }
        let plan = match call {
            Call::Submit { transfer, lengths, .. } if lengths.iter().all(|l| *l <= packet_limit(self.session.cfg.speed)) => {
                planned(&self.session, transfer, lengths, &self.ring)
            }
            _ => Vec::new(),
        };
        let before = self.session.clone();
        let mut results = [0; 255];
        match self.session.call(call, &mut self.ring, &mut results).answer {
            Answer::Accepted(_) => self.put.extend(plan),
            Answer::Cut => {
                for (slot, word) in between {
                    touch(&mut self.ring, *slot, *word);
                }
                self.session = before;
                self.session.recover(&mut self.ring);
                self.drop_settled();
            }
            _ => self.drop_settled(),
        }
    }
}
