//! The model as a party: it keeps the stretches of memory that a driver keeps, and answers request by request.

use super::bytes::{In, Out};
use super::{ARRAY_ROOM, Party, RESULTS_ROOM, RING_ROOM, SESSION_ROOM};
use crate::layout::*;
use crate::model::Session;
use crate::slips::{Slip, set_slip};
use lifted::calls::*;

pub fn summed(mut sum: u64, bytes: &[u8]) -> u64 {
    for lane in bytes.chunks_exact(8) {
        sum = (sum ^ u64::from_le_bytes(lane.try_into().unwrap())).wrapping_mul(0xff51_afd7_ed55_8ccd);
        sum ^= sum >> 32;
    }
    sum
}

const FIRST_SUM: u64 = 0x9e37_79b9_7f4a_7c15;

pub struct Model {
    pub session: Vec<u8>,
    pub ring: Vec<u32>,
    pub results: Vec<u64>,
    pub array: Vec<u32>,
    state: u8,
    /// the session of the bytes, until they are poked
    known: Option<Session>,
}

fn words_bytes(words: &[u32]) -> Vec<u8> {
    words.iter().flat_map(|w| w.to_le_bytes()).collect()
}

fn results_bytes(words: &[u64]) -> Vec<u8> {
    words.iter().flat_map(|w| w.to_le_bytes()).collect()
}

pub(super) fn number_of(answer: Answer) -> u32 {
    match answer {
        Answer::Refused(n) => n.into(),
        Answer::TooLong(_) => 9,
        _ => 0,
    }
}

impl Model {
    pub fn new() -> Model {
        Model {
            session: vec![0; SESSION_ROOM],
            ring: vec![0; RING_ROOM],
            results: vec![0; RESULTS_ROOM],
            array: vec![0; ARRAY_ROOM],
            state: 0,
            known: None,
        }
    }

    pub(super) fn load(&mut self, session_len: usize) -> Result<Loaded, u16> {
        if session_len >= SESSION_BYTES && self.known.is_some() {
            return Ok(Loaded::Session(self.known.take().unwrap()));
        }
        load(&self.session[..session_len])
    }

    pub(super) fn save(&mut self, s: Session) {
        save(&s, &mut self.session[..SESSION_BYTES]);
        self.known = Some(s);
    }

    /// the session that the bytes hold
    pub fn held(&mut self) -> Option<&Session> {
        if self.known.is_none() {
            if let Ok(Loaded::Session(s)) = load(&self.session) {
                self.known = Some(s);
            }
        }
        self.known.as_ref()
    }

    fn session_state(&self, out: &mut Out) {
        match self.state {
            1 => {
                let sum = summed(FIRST_SUM, &self.session);
                let sum = summed(sum, &words_bytes(&self.ring));
                out.u64(summed(sum, &results_bytes(&self.results)));
            }
            2 => {
                out.all(&self.session).all(&words_bytes(&self.ring)).all(&results_bytes(&self.results));
            }
            _ => {}
        }
    }

    fn array_state(&self, out: &mut Out) {
        match self.state {
            1 => {
                out.u64(summed(FIRST_SUM, &words_bytes(&self.array)));
            }
            2 => {
                out.all(&words_bytes(&self.array));
            }
            _ => {}
        }
    }

    fn poke(&mut self, r: &mut In) {
        let (stretch, offset, count) = (r.u8(), r.size(), r.size());
        let bytes = &r.bytes[r.at..r.at + count];
        r.at += count;
        match stretch {
            0 => {
                self.session[offset..offset + count].copy_from_slice(bytes);
                self.known = None;
            }
            2 => {
                for (i, b) in bytes.iter().enumerate() {
                    let at = offset + i;
                    let shift = 8 * (at % 8);
                    self.results[at / 8] = self.results[at / 8] & !(0xff << shift) | u64::from(*b) << shift;
                }
            }
            _ => {
                let words = if stretch == 1 { &mut self.ring } else { &mut self.array };
                for (i, b) in bytes.iter().enumerate() {
                    let at = offset + i;
                    let shift = 8 * (at % 4);
                    words[at / 4] = words[at / 4] & !(0xff << shift) | u32::from(*b) << shift;
                }
            }
        }
    }

    fn fill(&mut self, r: &mut In) {
        let byte = r.u8();
        self.session.fill(byte);
        self.ring.fill(u32::from_le_bytes([byte; 4]));
        self.results.fill(u64::from_le_bytes([byte; 8]));
        self.array.fill(u32::from_le_bytes([byte; 4]));
        self.known = None;
    }

    fn one(&mut self, r: &mut In, out: &mut Out) {
        let op = r.u8();
        match op {
            0x01 => self.fill(r),
            0x02 => self.poke(r),
            0x04 => self.state = r.u8(),
            0x10 => self.open(r, out),
            0x11 => self.submit(r, out),
            0x12 => self.poll(r, out),
            0x13 => self.reclaim(r, out),
            0x14 => self.cancel(r, out),
            0x15 => self.reset(r, out),
            0x16 => self.recover(r, out),
            0x17 => self.check(r, out),
            0x20 => self.sum(r, out),
            0x22 => self.frames(r, out),
            0x23 => self.next(r, out),
            0x30 => self.plan(r, out),
            0x31 => self.control(r, out),
            0x32 => self.moved(r, out),
            0x33 => self.setup(r, out),
            0x34 => self.split(r, out),
            _ => panic!("no request {op:#04x}"),
        }
        match op {
            0x10..=0x17 => self.session_state(out),
            0x30 | 0x31 => self.array_state(out),
            _ => {}
        }
    }
}

impl Party for Model {
    fn name(&self) -> String {
        "model".into()
    }

    fn ask(&mut self, batch: &[u8]) -> Result<Vec<u8>, String> {
        let mut r = In { bytes: batch, at: 0 };
        let mut out = Out::default();
        while r.at < batch.len() {
            self.one(&mut r, &mut out);
        }
        Ok(out.0)
    }
}

/// A model with a slip, as a party to be caught.
pub struct Slipped {
    pub model: Model,
    pub slip: Slip,
}

impl Party for Slipped {
    fn name(&self) -> String {
        format!("model with the slip {:?}", self.slip)
    }

    fn ask(&mut self, batch: &[u8]) -> Result<Vec<u8>, String> {
        set_slip(self.slip);
        let answer = self.model.ask(batch);
        set_slip(Slip::None);
        answer
    }
}
