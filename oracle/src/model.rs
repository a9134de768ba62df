//! Document 01 once more, in Rust: ring sums, words and the camera session. The sentences in quotation marks are 01's. Where 01 is
//! silent, docs/DECISIONS.md is followed and named; MODEL.md says where that makes agreement with the port no evidence.

mod cancel;
mod poll;
mod reclaim;
mod record;
mod submit;
mod sums;
mod words;

use lifted::calls::*;
pub use record::*;
pub use sums::*;
pub use words::*;

fn reply(answer: Answer) -> Reply {
    Reply { answer, taken: false, halt: false, start: None }
}

fn refused(number: u16) -> Reply {
    reply(Answer::Refused(number))
}

impl Session {
    pub fn call(&mut self, call: &Call, ring: &mut [u32], results: &mut [u64]) -> Reply {
        let lent = |len: &u32, ring: &[u32]| (*len as usize).min(ring.len());
        match call {
            Call::Submit { transfer, lengths, ring_len } => {
                let len = lent(ring_len, ring);
                self.submit(transfer, lengths, &mut ring[..len])
            }
            Call::Poll { event, ring_len } => {
                let len = lent(ring_len, ring);
                self.poll(event, &mut ring[..len])
            }
            Call::Reclaim { id, event, ring_len, results_len } => {
                let len = lent(ring_len, ring);
                let many = (*results_len as usize).min(results.len());
                self.reclaim(*id, event, &mut ring[..len], &mut results[..many])
            }
            Call::Cancel { id } => self.cancel(*id),
            Call::Reset => self.reset(),
            Call::Recover { ring_len } => {
                let len = lent(ring_len, ring);
                self.recover(&mut ring[..len])
            }
            Call::Controller { slot, word } => {
                self.controller(*slot, *word, ring);
                reply(Answer::Done)
            }
            Call::Number { next } => {
                self.next = *next;
                reply(Answer::Done)
            }
        }
    }

    /// the controller "changes only the status word of active slots and never makes one active" (DECISIONS: only while live)
    pub fn controller(&self, slot: u16, word: u32, ring: &mut [u32]) {
        let at = 2 * usize::from(slot);
        if self.live && at < self.cfg.words() && is_active(ring[at]) {
            ring[at] = word;
        }
    }
}
