//! The list's sessions.

use super::{List, WORDS, sum, sum_frames, sum_longs, sum_words};
use crate::diff::{Pair, on_domain};
use crate::gen_calls::{Source, config};
use crate::gen_plans::LIMIT;
use crate::layout::{SESSION_BYTES, direction_number, failure_numbers, mode_number, save, speed_number};
use crate::model::Session;
use crate::rng::Rng;
use lifted::calls::*;

const RING_BLANK: u32 = 0xdead_beef;

struct Run {
    pair: Pair,
    /// 0 high, 1 full or low
    size: usize,
}

impl Run {
    fn open(list: &mut List, cfg: &Config) -> Run {
        let mut pair = Pair::open(cfg, 1);
        pair.model = pair.model.with_behind();
        let run = Run { pair, size: usize::from(cfg.speed != Speed::High) };
        let inputs = [
            speed_number(cfg.speed).into(),
            direction_number(cfg.direction).into(),
            mode_number(cfg.mode).into(),
            cfg.interval.into(),
            cfg.max_packet_size.into(),
            cfg.endpoint.into(),
            cfg.device.into(),
            cfg.mult.into(),
        ];
        let mut answers = vec![0; 3];
        answers.extend(run.sums());
        list.line("open", &inputs, &answers);
        run
    }

    /// of the ring lent, which is longer than a full-speed one, and of the session's bytes
    fn sums(&self) -> [u64; 2] {
        let mut ring = self.pair.rust_ring.clone();
        ring.resize(WORDS, RING_BLANK);
        let mut bytes = vec![0; SESSION_BYTES];
        save(&self.pair.model, &mut bytes);
        [sum_words(ring.into_iter()), sum(bytes.into_iter().map(u64::from))]
    }

    /// a submission whose buffer begins above 32 bits, which both refuse with 11
    fn is_beyond(&self, call: &Call) -> bool {
        matches!(call, Call::Submit { transfer, .. } if transfer.base > LIMIT) && {
            let (mut s, mut ring) = (self.pair.model.clone(), self.pair.ring.clone());
            s.call(call, &mut ring, &mut []).answer == Answer::Refused(11)
        }
    }

    /// whether the call is one for the list; if so it is made and listed
    fn call(&mut self, list: &mut List, call: &Call, connected: bool) -> Result<(), String> {
        if !on_domain(call, &self.pair.model, &self.pair.ring) && !self.is_beyond(call) {
            return Ok(());
        }
        let before = self.pair.ring.clone();
        let packets = packets_of(&self.pair.model, call);
        let (reply, results) = self.pair.both(call, connected).map_err(|d| format!("{call:?}\n  {d}"))?;
        list.halts += u64::from(reply.halt);
        match call {
            Call::Controller { slot, word } if self.pair.ring != before => {
                list.line("store", &[2 * u64::from(*slot), (*word).into()], &[]);
            }
            Call::Submit { transfer, lengths, .. } => self.submitted(list, transfer, lengths, &reply),
            Call::Reclaim { id, event, .. } => self.reclaimed(list, *id, event, &reply, &results, packets),
            Call::Poll { event, .. } => self.replied(list, "poll", &event_numbers(event), &reply),
            Call::Cancel { id } => self.replied(list, "cancel", &[*id], &reply),
            Call::Reset => self.replied(list, "reset", &[], &reply),
            _ => {}
        }
        Ok(())
    }

    fn submitted(&self, list: &mut List, t: &Transfer, lengths: &[u32], reply: &Reply) {
        let kind = if t.isochronous { 1 } else { 2 };
        let mut inputs = vec![t.base];
        inputs.extend([t.buffer_len, t.start_reading, t.frame_reading, t.words, kind].map(u64::from));
        inputs.extend([t.has_buffer, t.channel_free, t.gate_program, t.gate_enable].map(u64::from));
        inputs.extend(lengths.iter().map(|l| u64::from(*l)));
        let (value, refusal) = match reply.answer {
            Answer::Accepted(id) => (id, 0),
            Answer::TooLong(index) => (index.into(), 9),
            Answer::Refused(number) => (0, number),
            _ => unreachable!("no answer of a submission on the domain"),
        };
        list.refusals[usize::from(refusal)] += 1;
        if refusal == 0 {
            let slots: Vec<u16> = self.pair.model.pending.last().expect("accepted").packets.iter().map(|p| p.slot).collect();
            list.wrapped[self.size] += u64::from(slots.windows(2).any(|w| w[1] < w[0]));
            list.accepted[self.size][usize::from(direction_number(self.pair.model.cfg.direction))] += 1;
        }
        let mut answers = vec![value, refusal.into(), 0];
        match &reply.start {
            Some(s) => {
                answers.extend([1, s.hcchar.into(), s.hctsiz.into(), s.hcintmsk.into(), s.frames.len() as u64, sum_frames(&s.frames)]);
            }
            None => answers.extend([0, 0, 0, 0, 0, sum_frames(&[])]),
        }
        answers.extend(self.sums());
        list.line("submit", &inputs, &answers);
    }

    fn reclaimed(&self, list: &mut List, id: u64, event: &Event, reply: &Reply, results: &[u64; 255], packets: u64) {
        let mut inputs = vec![id];
        inputs.extend(event_numbers(event));
        let mut answers = match reply.answer {
            Answer::Refused(number) => {
                list.refusals[usize::from(number)] += 1;
                vec![number.into(), 0, 0, 0, 0, 0, 0]
            }
            Answer::Completed { failure, total, .. } => {
                let (tag, fault, word) = failure_numbers(failure);
                list.outcomes[usize::from(tag)] += 1;
                vec![0, 1, tag.into(), fault.into(), word.into(), total.into(), packets]
            }
            _ => vec![0; 7],
        };
        answers.extend([reply.taken, reply.halt].map(u64::from));
        answers.push(sum_longs(results));
        answers.extend(self.sums());
        list.line("reclaim", &inputs, &answers);
    }

    fn replied(&self, list: &mut List, kind: &str, inputs: &[u64], reply: &Reply) {
        let number = if let Answer::Refused(number) = reply.answer { number } else { 0 };
        list.refusals[usize::from(number)] += 1;
        let mut answers = vec![number.into(), reply.taken.into(), reply.halt.into()];
        answers.extend(self.sums());
        list.line(kind, inputs, &answers);
    }
}

fn event_numbers(event: &Event) -> [u64; 3] {
    [event.reported.into(), event.unplugged.into(), event.hcint.into()]
}

/// of the request that a reclaim names
fn packets_of(s: &Session, call: &Call) -> u64 {
    let Call::Reclaim { id, .. } = call else { return 0 };
    s.completed.iter().chain(&s.pending).find(|r| r.id == *id).map_or(0, |r| r.packets.len() as u64)
}

/// so that the list stays small: of long submissions, a few
fn is_long(call: &Call) -> bool {
    matches!(call, Call::Submit { lengths, .. } if lengths.len() > 24)
}

pub(super) fn session(list: &mut List, rng: &mut Rng, nth: usize) -> Result<(), String> {
    let mut cfg = config(rng);
    (cfg.speed, cfg.direction) = match nth % 9 {
        0 | 4 => (Speed::High, Direction::In),
        1 | 5 => (Speed::High, Direction::Out),
        2 | 6 => (Speed::Full, Direction::In),
        3 | 7 => (Speed::Full, Direction::Out),
        _ => (Speed::Low, cfg.direction),
    };
    if nth % 2 == 0 {
        cfg.interval = 1 + rng.below(8) as u16;
    }
    let mut source = Source::new(rng, false).numbered_twice(false);
    let mut run = Run::open(list, &cfg);
    for _ in 0..if cfg.speed == Speed::Low { 12 } else { 120 } {
        let mut call = source.call(rng, &run.pair.model, &run.pair.ring);
        if is_long(&call) && !rng.one_in(8) {
            continue;
        }
        if let Call::Submit { transfer, .. } = &mut call {
            if rng.one_in(40) {
                transfer.base = LIMIT + 1 + (rng.next() >> rng.below(64));
            }
        }
        let connected = rng.one_in(2);
        run.call(list, &call, connected)?;
    }
    Ok(())
}
