//! Polling: what an event does to a session, and how requests settle or fail.

use super::words::{COMPLETE, HALTED};
use super::*;
use crate::slips::{Slip, slip};

impl Session {
    pub fn poll(&mut self, event: &Event, ring: &mut [u32]) -> Reply {
        match self.refusal(ring.len()) {
            Some(number) => refused(number),
            None => self.polled(event, ring),
        }
    }

    pub(super) fn polled(&mut self, event: &Event, ring: &mut [u32]) -> Reply {
        let idle_unplug = slip(Slip::UnpluggedIdle) && event.unplugged;
        if !event.reported || !self.live && !idle_unplug {
            return reply(Answer::Done);
        }
        let word = event.hcint;
        let halted = word & HALTED != 0;
        let mut halt = false;
        let fault = if slip(Slip::HaltBeforeFault) && halted { None } else { fault(word) };
        if event.unplugged {
            self.end(ring, Failure::Disconnected);
        } else if let Some(fault) = fault {
            if halted {
                self.end(ring, Failure::Fault(fault, word));
            } else {
                if self.reason.is_none() || !slip(Slip::FirstReason) {
                    self.reason = Some(Reason::Fault(fault, word));
                }
                halt = !slip(Slip::HaltLost);
            }
        } else if let Some(reason) = self.reason {
            if halted {
                self.end(
                    ring,
                    match reason {
                        Reason::Cancelled => Failure::Cancelled,
                        Reason::Fault(fault, word) => Failure::Fault(fault, word),
                    },
                );
            }
        } else if halted {
            self.end(ring, Failure::UnexpectedHalt(word));
        } else {
            self.settle(ring, word & COMPLETE != 0);
        }
        Reply { answer: Answer::Done, taken: true, halt, start: None }
    }

    /// "The complete bit settles the oldest request whatever its descriptors say; after it, or with no bit, each oldest one whose
    /// last descriptor is inactive."
    fn settle(&mut self, ring: &mut [u32], bit: bool) {
        if !bit && slip(Slip::NoBitNone) {
            return;
        }
        let mut by_bit = bit && !slip(Slip::BitLooks);
        while let Some(oldest) = self.pending.first() {
            let last = oldest.packets[oldest.packets.len() - 1];
            if !by_bit && is_active(ring[2 * usize::from(last.slot)]) {
                break;
            }
            let request = self.pending.remove(0);
            let request = self.settled(request, ring);
            self.completed.push(request);
            if by_bit && slip(Slip::BitSettlesOne) {
                break;
            }
            by_bit = by_bit && slip(Slip::BitSettlesAll);
        }
    }

    /// "IN length is planned minus remaining, not below 0; OUT is planned. A completion gives these, their sum and each packet's
    /// status. Settled slots become zero."
    fn settled(&self, mut request: Request, ring: &mut [u32]) -> Request {
        for p in &mut request.packets {
            let status = ring[2 * usize::from(p.slot)];
            let remaining = if slip(Slip::IsoCountWide) { status & 0x1_ffff } else { status & 0xfff };
            let moved = if self.cfg.direction == Direction::In || slip(Slip::OutRemaining) {
                let below = if slip(Slip::InWraps) { remaining } else { 0 };
                u32::from(p.planned).checked_sub(remaining).unwrap_or(below)
            } else {
                p.planned.into()
            };
            p.actual = moved as u16;
            let result = (status >> 28) & 3;
            p.error = if slip(Slip::ErrorAny) { result != 0 } else { result == 1 };
        }
        for p in &request.packets {
            if slip(Slip::SettledStays) {
                continue;
            }
            ring[2 * usize::from(p.slot)] = 0;
            if !slip(Slip::SettledAddress) {
                ring[2 * usize::from(p.slot) + 1] = 0;
            }
        }
        request.total = request.packets.iter().map(|p| u32::from(p.actual)).sum();
        // (a damaged record's pending request may have held another)
        request.failure = None;
        request
    }

    /// "A session that ends reports every pending request in order and leaves the ring, cursor and start zero, no reason and no
    /// live channel."
    pub(super) fn end(&mut self, ring: &mut [u32], failure: Failure) {
        if slip(Slip::EndReverse) {
            self.pending.reverse();
        }
        for mut request in self.pending.drain(..) {
            request.failure = Some(failure);
            self.completed.push(request);
        }
        if !slip(Slip::EndKeepsRing) {
            ring[..self.cfg.words()].fill(0);
        }
        self.cursor = 0;
        if !slip(Slip::EndKeepsStart) {
            self.start = 0;
        }
        if !slip(Slip::EndKeepsReason) {
            self.reason = None;
        }
        self.live = false;
    }
}
