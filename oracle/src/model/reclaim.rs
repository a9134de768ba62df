//! Reclaiming: a completed request is handed out, and its entries leave the table.

use super::*;
use crate::slips::{Slip, slip};

impl Session {
    /// "Reclaim looks, polls if it found nothing, looks again; a pending number answers "not yet"."
    pub fn reclaim(&mut self, id: u64, event: &Event, ring: &mut [u32], results: &mut [u64]) -> Reply {
        if ring.len() < self.cfg.words() || results.len() < MIN_RESULTS {
            return refused(17);
        }
        if self.is_bad() {
            return refused(18);
        }
        let mut given = reply(Answer::Done);
        if slip(Slip::PollFirst) {
            given = self.polled(event, ring);
        }
        if let Some(answer) = self.hand_out(id, results) {
            given.answer = answer;
            return given;
        }
        if !slip(Slip::PollFirst) {
            given = self.polled(event, ring);
        }
        let again = if slip(Slip::NoSecondLook) { None } else { self.hand_out(id, results) };
        given.answer = match again {
            Some(answer) => answer,
            None if self.pending.iter().any(|r| r.id == id) && !slip(Slip::NotYetLost) => Answer::NotYet,
            None => Answer::Refused(15),
        };
        given
    }

    /// "It writes one result a packet into the lent results and leaves the others, or all of them where the outcome is an error."
    fn hand_out(&mut self, id: u64, results: &mut [u64]) -> Option<Answer> {
        let at = self.completed.iter().position(|r| r.id == id)?;
        self.remember_last(self.completed[at].packets.len());
        let request = self.completed.remove(at);
        if request.failure.is_none() || slip(Slip::ResultsOnError) {
            for (word, p) in results.iter_mut().zip(&request.packets) {
                // DECISIONS, DESIGN 5: actual in bits 0 to 11, planned in 12 to 23, error in 24
                *word = u64::from(p.actual) + u64::from(p.planned) * 4_096 + if p.error { 1 << 24 } else { 0 };
            }
        }
        let total = if request.failure.is_none() { request.total } else { 0 };
        Some(Answer::Completed { failure: request.failure, total, packets: request.packets.len() as u16 })
    }

    /// what a removal of `packets` packets leaves behind the entries in use
    fn remember_last(&mut self, packets: usize) {
        let Some(mut behind) = self.behind.take() else { return };
        let all = || self.completed.iter().chain(&self.pending);
        let last = all().last().expect("a request to remove");
        let entry = Entry { id: last.id, total: last.total, packets: last.packets.len() as u16, failure: last.failure };
        behind.requests.insert(0, Unused::Entry(entry));
        let table: Vec<Packet> = all().flat_map(|r| r.packets.iter().copied()).collect();
        behind.packets.splice(0..0, table[table.len() - packets..].iter().copied().map(Unused::Entry));
        self.behind = Some(behind);
    }
}
