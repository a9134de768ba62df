//! Cancel, reset and recovery.

use super::*;
use crate::slips::{Slip, slip};

impl Session {
    /// "Cancel turns a completed result into cancelled; on a pending one it sets the reason and asks for a halt, and does nothing
    /// when a reason stands."
    pub fn cancel(&mut self, id: u64) -> Reply {
        if self.is_bad() {
            return refused(18);
        }
        if let Some(request) = self.completed.iter_mut().find(|r| r.id == id) {
            if !slip(Slip::CancelDone) {
                request.failure = Some(Failure::Cancelled);
            }
            return reply(Answer::Done);
        }
        if !self.pending.iter().any(|r| r.id == id) {
            return refused(15);
        }
        if self.reason.is_some() && !slip(Slip::CancelAgain) {
            return reply(Answer::Done);
        }
        self.reason = Some(Reason::Cancelled);
        Reply { answer: Answer::Done, taken: false, halt: !slip(Slip::CancelNoHalt), start: None }
    }

    /// "Reset, when all is empty, sets the cursor to 0."
    pub fn reset(&mut self) -> Reply {
        if self.is_bad() {
            return refused(18);
        }
        let ending = self.reason.is_some() && !slip(Slip::ResetPending);
        if !self.pending.is_empty() || !self.completed.is_empty() || ending {
            return refused(16);
        }
        self.cursor = 0;
        if slip(Slip::ResetStart) {
            self.start = 0;
        }
        reply(Answer::Done)
    }

    /// "Recovery takes the record from before a cut call and acts as unplugged, zeroing the ring also where no channel was live"
    pub fn recover(&mut self, ring: &mut [u32]) -> Reply {
        if let Some(number) = self.refusal(ring.len()) {
            return refused(number);
        }
        if slip(Slip::RecoverIdle) && !self.live {
            return reply(Answer::Done);
        }
        if slip(Slip::RecoverLast) {
            self.pending.pop();
        }
        self.end(ring, Failure::Disconnected);
        reply(Answer::Done)
    }
}
