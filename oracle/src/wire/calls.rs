//! The session's calls as the model answers them.

use super::bytes::{In, Out};
use super::party::{Model, number_of};
use crate::layout::*;
use crate::model::{self, Endpoint, Session};
use crate::slips::{Slip, slip};
use lifted::calls::*;

fn give_reply(out: &mut Out, reply: Reply) {
    out.u32(number_of(reply.answer)).u32(reply.taken.into()).u32(reply.halt.into());
}

impl Model {
    pub(super) fn open(&mut self, r: &mut In, out: &mut Out) {
        out.u32(self.opened(r));
    }

    /// the number that the opening answers
    fn opened(&mut self, r: &mut In) -> u32 {
        let (session_len, ring_words) = (r.size(), r.size());
        let (speed, direction, mode) = (speed_named(r.u8()), direction_named(r.u8()), mode_named(r.u8()));
        let (interval, max_packet_size, endpoint, device, mult) = (r.u16(), r.u16(), r.u8(), r.u8(), r.u8());
        if session_len < SESSION_BYTES {
            return 17;
        }
        let (Some(speed), Some(direction), Some(mode)) = (speed, direction, mode) else { return 18 };
        let cfg = Config { speed, direction, interval, endpoint, device, max_packet_size, mult, mode, tiny: 0 };
        let (number, session) = Session::open(&cfg, &mut self.ring[..ring_words]);
        self.save(session.with_behind());
        number.into()
    }

    /// a call on the session of the bytes
    fn on_session(&mut self, session_len: usize, ring_words: Option<usize>, results: Option<usize>, call: &Call) -> Reply {
        let refused = |n| Reply { answer: Answer::Refused(n), taken: false, halt: false, start: None };
        match self.load(session_len) {
            // no ring has fewer than 128 words
            Err(18) if slip(Slip::RingFirst) && ring_words.is_some_and(|w| w < 128) => refused(17),
            Err(number) => refused(number),
            Ok(Loaded::Beyond(cfg)) => {
                let short = ring_words.is_some_and(|w| w < cfg.words()) || results.is_some_and(|n| n < model::MIN_RESULTS);
                refused(if short { 17 } else { 18 })
            }
            Ok(Loaded::Session(mut s)) => {
                let ring = &mut self.ring[..ring_words.unwrap_or(0)];
                let reply = s.call(call, ring, &mut self.results[..results.unwrap_or(0)]);
                self.save(s);
                reply
            }
        }
    }

    pub(super) fn submit(&mut self, r: &mut In, out: &mut Out) {
        let (session_len, ring_words, packets) = (r.size(), r.size(), r.size());
        let (base, buffer_len, start_reading, frame_reading, words) = (r.u64(), r.u32(), r.u32(), r.u32(), r.u32());
        let kind = r.u8();
        let transfer = Transfer {
            isochronous: kind == 1,
            has_buffer: r.u8() != 0,
            buffer_len,
            base,
            start_reading,
            frame_reading,
            channel_free: r.u8() != 0,
            gate_program: r.u8() != 0,
            gate_enable: r.u8() != 0,
            words,
        };
        let lengths = (0..packets).map(|_| r.u32()).collect();
        let reply = if kind > 3 {
            // of the bytes first, then 18
            let number = load(&self.session[..session_len]).err().unwrap_or(18);
            Reply { answer: Answer::Refused(number), taken: false, halt: false, start: None }
        } else {
            self.on_session(session_len, Some(ring_words), None, &Call::Submit { transfer, lengths, ring_len: ring_words as u32 })
        };
        out.u64(match reply.answer {
            Answer::Accepted(id) => id,
            Answer::TooLong(index) => index.into(),
            _ => 0,
        });
        out.u32(number_of(reply.answer)).u32((reply.answer == Answer::Cut).into()).u32(reply.start.is_some().into());
        let start = reply.start.unwrap_or(Start { hcchar: 0, hctsiz: 0, hcintmsk: 0, frames: Vec::new() });
        out.u32(start.hcchar).u32(start.hctsiz).u32(start.hcintmsk).u32(start.frames.len() as u32);
        let mut list = start.frames;
        list.resize(64, 0);
        out.all(&list);
    }

    pub(super) fn reclaim(&mut self, r: &mut In, out: &mut Out) {
        let (session_len, ring_words, results_len, id, event) = (r.size(), r.size(), r.size(), r.u64(), r.event());
        let call = Call::Reclaim { id, event, ring_len: ring_words as u32, results_len: results_len as u32 };
        let reply = self.on_session(session_len, Some(ring_words), Some(results_len), &call);
        out.u32(number_of(reply.answer));
        if let Answer::Completed { failure, total, packets } = reply.answer {
            let (tag, fault, word) = failure_numbers(failure);
            out.u32(1).u32(tag.into()).u32(fault.into()).u32(word).u32(total).u32(packets.into());
        } else {
            out.all(&[0; 24]);
        }
        out.u32(reply.taken.into()).u32(reply.halt.into());
    }

    pub(super) fn poll(&mut self, r: &mut In, out: &mut Out) {
        let (session_len, words, event) = (r.size(), r.size(), r.event());
        give_reply(out, self.on_session(session_len, Some(words), None, &Call::Poll { event, ring_len: words as u32 }));
    }

    pub(super) fn cancel(&mut self, r: &mut In, out: &mut Out) {
        let (session_len, id) = (r.size(), r.u64());
        give_reply(out, self.on_session(session_len, None, None, &Call::Cancel { id }));
    }

    pub(super) fn reset(&mut self, r: &mut In, out: &mut Out) {
        let session_len = r.size();
        give_reply(out, self.on_session(session_len, None, None, &Call::Reset));
    }

    pub(super) fn recover(&mut self, r: &mut In, out: &mut Out) {
        let (session_len, words) = (r.size(), r.size());
        give_reply(out, self.on_session(session_len, Some(words), None, &Call::Recover { ring_len: words as u32 }));
    }

    pub(super) fn check(&self, r: &mut In, out: &mut Out) {
        let session_len = r.size();
        out.u32(match load(&self.session[..session_len]) {
            Err(number) => number.into(),
            Ok(Loaded::Session(s)) if !s.is_bad() => 0,
            Ok(_) => 18,
        });
    }
}
