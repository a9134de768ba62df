//! Submission: the checks in 01's order, then the stores; no ring word is written before the last check but by a shut gate.

use super::*;
use crate::slips::{Slip, slip};

impl Session {
    /// "If the last descriptor of the newest pending request is active, insert at the cursor; else use the grid."
    pub fn insert(&self, t: &Transfer, ring: &[u32]) -> u64 {
        let cfg = &self.cfg;
        let tail_active = self.pending.last().and_then(|r| r.packets.last()).is_some_and(|p| is_active(ring[2 * usize::from(p.slot)]));
        if (tail_active || slip(Slip::AlwaysCursor)) && !slip(Slip::AlwaysGrid) {
            return self.cursor.into();
        }
        // "its cursor for the grid is the starting frame's slot"
        let cursor = if self.live {
            self.cursor.into()
        } else if slip(Slip::FirstCursorZero) {
            0
        } else {
            u64::from(slot_of_frame(cfg.speed, self.started(t), cfg.ring()))
        };
        let target = slot_of_frame(cfg.speed, starting_frame(t.frame_reading, cfg.speed), cfg.ring());
        grid(cursor, target.into(), cfg.interval, cfg.ring().into())
    }

    fn started(&self, t: &Transfer) -> u32 {
        starting_frame(if slip(Slip::OneReading) { t.frame_reading } else { t.start_reading }, self.cfg.speed)
    }

    /// "Packet i goes to (insert + i × interval) mod R"
    pub fn slot(&self, insert: u64, i: u64) -> u16 {
        ((insert + i * interval_of(self.cfg.interval)) % u64::from(self.cfg.ring())) as u16
    }

    pub fn submit(&mut self, t: &Transfer, lengths: &[u32], ring: &mut [u32]) -> Reply {
        let n = lengths.len() as u64;
        if let Some(number) = self.refusal_unspent(t, n, ring.len()) {
            return refused(number);
        }
        let id = self.next;
        self.next = next_number(id);
        if let Some(answer) = self.refusal_spent(t, lengths) {
            if slip(Slip::NumberSaved) && matches!(answer, Answer::TooLong(_)) {
                self.next = id;
            }
            return reply(answer);
        }
        let insert = self.insert(t, ring);
        let slots: Vec<u16> = (0..n).map(|i| self.slot(insert, i)).collect();
        if self.cfg.mode == Mode::Guarded && !slip(Slip::NoGuard) && self.any_pending(&slots) {
            return refused(13);
        }
        let first = !self.live;
        if first && !t.gate_program {
            return self.unplugged_at_gate(ring, id);
        }
        if !self.store(t, lengths, &slots, ring) {
            // "answers "cut" and hands back the session as it came"
            if !slip(Slip::CutSpends) {
                self.next = id;
            }
            return reply(Answer::Cut);
        }
        if first && !t.gate_enable && !slip(Slip::NoSecondGate) {
            return self.unplugged_at_gate(ring, id);
        }
        let start = first.then(|| self.handed_out(t));
        self.accept(id, t, insert, &slots, lengths);
        Reply { answer: Answer::Accepted(id), taken: false, halt: false, start }
    }

    /// "17, 18, 1 to 14", as far as no number is spent
    fn refusal_unspent(&self, t: &Transfer, n: u64, ring_len: usize) -> Option<u16> {
        let pending = self.pending_packets();
        let all = pending + Self::packets_of(&self.completed);
        let counted = if slip(Slip::CapacityAll) { all } else { pending };
        let over = counted + n > self.cfg.capacity();
        let (requests, packets) =
            if slip(Slip::PendingOnly) { (self.pending.len(), pending) } else { (self.completed.len() + self.pending.len(), all) };
        let tests = [
            (17, ring_len < self.cfg.words()),
            (18, ring_len >= self.cfg.words() && self.is_bad()),
            (1, self.reason.is_some()),
            (2, self.cfg.speed == Speed::Low),
            (3, !t.isochronous),
            (4, n == 0),
            (5, !t.has_buffer),
            (6, over && self.pending.is_empty()),
            (7, over && !self.pending.is_empty()),
            // "Pending and completed requests together are at most 64, their packets, failed ones too, at most 1,024."
            (8, requests + 1 > MAX_REQUESTS || packets + n > MAX_PACKETS as u64),
        ];
        tests.iter().find(|(_, holds)| *holds).map(|(number, _)| *number)
    }

    /// 9 to 12, which spend the number
    fn refusal_spent(&self, t: &Transfer, lengths: &[u32]) -> Option<Answer> {
        let first = !self.live;
        let limit = packet_limit(self.cfg.speed);
        let sum: u64 = lengths.iter().map(|l| u64::from(*l)).sum();
        if slip(Slip::ChannelFirst) && first && !t.channel_free {
            return Some(Answer::Refused(12));
        }
        if slip(Slip::SumFirst) && sum != u64::from(t.buffer_len) {
            return Some(Answer::Refused(10));
        }
        if let Some(index) = lengths.iter().position(|l| *l > limit) {
            return Some(Answer::TooLong(index as u32));
        }
        if sum != u64::from(t.buffer_len) {
            return Some(Answer::Refused(10));
        }
        let tested = if slip(Slip::AddressStart) { sum - u64::from(lengths[lengths.len() - 1]) } else { sum };
        if is_beyond(t.base, tested) && !slip(Slip::AddressNone) {
            return Some(Answer::Refused(11));
        }
        (first && !t.channel_free).then_some(Answer::Refused(12))
    }

    /// "refusal 13 exactly if a planned slot belongs to a pending request"
    fn any_pending(&self, slots: &[u16]) -> bool {
        let mut held = vec![false; self.cfg.ring() as usize];
        for p in self.pending.iter().flat_map(|r| &r.packets) {
            held[usize::from(p.slot)] = true;
        }
        slots.iter().any(|s| held[usize::from(*s)])
    }

    /// "14 also leaves ring, cursor and start zero"
    fn unplugged_at_gate(&mut self, ring: &mut [u32], before: u64) -> Reply {
        ring[..self.cfg.words()].fill(0);
        if !slip(Slip::GateKeepsCursor) {
            self.cursor = 0;
        }
        self.start = 0;
        if slip(Slip::NumberSavedGate) {
            self.next = before;
        }
        refused(14)
    }

    /// "the address word before the status word. Cut or whole, the same loop stores them." Answers whether all were stored.
    fn store(&self, t: &Transfer, lengths: &[u32], slots: &[u16], ring: &mut [u32]) -> bool {
        let mut left = t.words;
        let mut address = t.base;
        for (i, (slot, length)) in slots.iter().zip(lengths).enumerate() {
            let marked = if slip(Slip::InterruptFirst) { i == 0 } else { i + 1 == slots.len() };
            let at = 2 * usize::from(*slot);
            let mut words = [(at + 1, address as u32), (at, iso_status(*length, marked))];
            if slip(Slip::StatusFirst) {
                words.reverse();
            }
            for (place, word) in words {
                if left == 0 {
                    return false;
                }
                ring[place] = word;
                left -= 1;
            }
            if !slip(Slip::AddressStays) {
                address = address.wrapping_add((*length).into());
            }
        }
        true
    }

    /// the record once all words are stored and the gates were open
    fn accept(&mut self, id: u64, t: &Transfer, insert: u64, slots: &[u16], lengths: &[u32]) {
        if !self.live {
            self.live = true;
            self.start = self.started(t);
        }
        // "The cursor becomes insert + n × interval mod R."
        let n = lengths.len() as u64;
        self.cursor = self.slot(insert, if slip(Slip::CursorShort) { n - 1 } else { n });
        let packets = slots.iter().zip(lengths).map(|(slot, l)| Packet { planned: *l as u16, slot: *slot, actual: 0, error: false });
        self.pending.push(Request { id, total: 0, failure: None, packets: packets.collect() });
        if let Some(behind) = self.behind.as_mut() {
            // (a slip may have lost some)
            behind.requests.drain(..1.min(behind.requests.len()));
            behind.packets.drain(..lengths.len().min(behind.packets.len()));
        }
    }

    /// "it hands out HCCHAR, HCTSIZ for R descriptors, the frame list and the interrupt mask"
    fn handed_out(&self, t: &Transfer) -> Start {
        let cfg = &self.cfg;
        let hcchar = Hcchar {
            packet: cfg.max_packet_size.max(1),
            endpoint: cfg.endpoint,
            direction: cfg.direction,
            low: false,
            kind: 1,
            mult: if slip(Slip::MultZero) { cfg.mult } else { cfg.mult.max(1) },
            device: cfg.device,
            odd: false,
        };
        Start {
            hcchar: hcchar.word(),
            hctsiz: hctsiz(pid(cfg.speed, cfg.direction, cfg.mult), cfg.ring(), schinfo(cfg.speed, cfg.interval)),
            hcintmsk: interrupt_mask(cfg.direction),
            frames: service_frames(self.started(t), cfg.interval, cfg.speed),
        }
    }
}
