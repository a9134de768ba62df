//! The requests: each as its bytes, with what it is in words.

use super::bytes::Out;
use crate::layout::*;
use lifted::calls::*;

/// One request: its bytes, and what it is in words.
#[derive(Clone, Debug)]
pub struct Request {
    pub bytes: Vec<u8>,
    pub text: String,
}

fn request(op: u8, text: String, with: impl FnOnce(&mut Out)) -> Request {
    let mut out = Out::default();
    out.u8(op);
    with(&mut out);
    Request { bytes: out.0, text }
}

pub fn fill(pattern: u8) -> Request {
    request(0x01, format!("fill {pattern:#04x}"), |o| {
        o.u8(pattern);
    })
}

pub fn poke(stretch: u8, offset: u32, bytes: &[u8]) -> Request {
    request(0x02, format!("poke {} at {offset}: {bytes:02x?}", ["session", "ring", "results", "array"][usize::from(stretch)]), |o| {
        o.u8(stretch).u32(offset).u32(bytes.len() as u32).all(bytes);
    })
}

pub fn state(state: u8) -> Request {
    request(0x04, format!("state {state}"), |o| {
        o.u8(state);
    })
}

/// speed, direction and mode as numbers, so that wrong ones can be handed in
#[derive(Clone, Copy, Debug)]
pub struct RawOpen {
    pub session_len: u32,
    pub ring_words: u32,
    pub speed: u8,
    pub direction: u8,
    pub mode: u8,
    pub interval: u16,
    pub max_packet_size: u16,
    pub endpoint: u8,
    pub device: u8,
    pub mult: u8,
}

impl RawOpen {
    pub fn of(cfg: &Config, session_len: u32, ring_words: u32) -> RawOpen {
        RawOpen {
            session_len,
            ring_words,
            speed: speed_number(cfg.speed),
            direction: direction_number(cfg.direction),
            mode: mode_number(cfg.mode),
            interval: cfg.interval,
            max_packet_size: cfg.max_packet_size,
            endpoint: cfg.endpoint,
            device: cfg.device,
            mult: cfg.mult,
        }
    }
}

pub fn open(r: &RawOpen) -> Request {
    request(0x10, format!("{r:?}"), |o| {
        o.u32(r.session_len).u32(r.ring_words).u8(r.speed).u8(r.direction).u8(r.mode).u16(r.interval).u16(r.max_packet_size);
        o.u8(r.endpoint).u8(r.device).u8(r.mult);
    })
}

/// A call as a request. `kind` stands for `isochronous` where it is given; "all" of the ring is `ring_words`.
pub fn call(call: &Call, session_len: u32, ring_words: u32, kind: Option<u8>, yes: u8) -> Request {
    let words = |len: u32| len.min(ring_words);
    let flag = |b: bool| if b { yes } else { 0 };
    let event = |o: &mut Out, e: &Event| {
        o.u32(flag(e.reported).into()).u32(flag(e.unplugged).into()).u32(e.hcint);
    };
    let text = format!("{call:?} session_len {session_len} kind {kind:?} yes {yes}");
    match call {
        Call::Submit { transfer: t, lengths, ring_len } => request(0x11, text, |o| {
            o.u32(session_len).u32(words(*ring_len)).u32(lengths.len() as u32);
            o.u64(t.base).u32(t.buffer_len).u32(t.start_reading).u32(t.frame_reading).u32(t.words);
            o.u8(kind.unwrap_or(if t.isochronous { 1 } else { 2 })).u8(flag(t.has_buffer));
            o.u8(flag(t.channel_free)).u8(flag(t.gate_program)).u8(flag(t.gate_enable));
            for l in lengths {
                o.u32(*l);
            }
        }),
        Call::Poll { event: e, ring_len } => request(0x12, text, |o| {
            o.u32(session_len).u32(words(*ring_len));
            event(o, e);
        }),
        Call::Reclaim { id, event: e, ring_len, results_len } => request(0x13, text, |o| {
            o.u32(session_len).u32(words(*ring_len)).u32(*results_len).u64(*id);
            event(o, e);
        }),
        Call::Cancel { id } => request(0x14, text, |o| {
            o.u32(session_len).u64(*id);
        }),
        Call::Reset => request(0x15, text, |o| {
            o.u32(session_len);
        }),
        Call::Recover { ring_len } => request(0x16, text, |o| {
            o.u32(session_len).u32(words(*ring_len));
        }),
        Call::Controller { slot, word } => poke(1, 8 * u32::from(*slot), &word.to_le_bytes()),
        Call::Number { next } => poke(0, 16, &next.to_le_bytes()),
    }
}

pub fn check(session_len: u32) -> Request {
    request(0x17, format!("check, session_len {session_len}"), |o| {
        o.u32(session_len);
    })
}

pub fn sum(which: u8, a: u32, b: u32, c: u32, d: u32) -> Request {
    request(0x20, format!("sum {which} of {a}, {b}, {c}, {d}"), |o| {
        o.u8(which).u32(a).u32(b).u32(c).u32(d);
    })
}

pub fn frames(start: u32, interval: u16, speed: u8) -> Request {
    request(0x22, format!("frames of {start}, {interval}, speed {speed}"), |o| {
        o.u32(start).u16(interval).u8(speed);
    })
}

pub fn next(number: u64) -> Request {
    request(0x23, format!("next of {number}"), |o| {
        o.u64(number);
    })
}

pub fn data(r: &DataRequest, array_words: u32, numbers: Option<(u8, u8, u8)>) -> Request {
    let kind = if r.kind == DataKind::Bulk { 2 } else { 3 };
    let (kind, direction, speed) = numbers.unwrap_or((kind, direction_number(r.direction), speed_number(r.speed)));
    request(0x30, format!("{r:?} array_words {array_words} numbers {numbers:?}"), |o| {
        o.u32(array_words).u64(r.base).u64(r.len).u16(r.max_packet_size).u8(kind).u8(direction).u8(speed);
        o.u8(r.device).u8(r.endpoint).u8(r.odd_frame.into()).u8(r.toggle.into());
    })
}

pub fn control(r: &ControlRequest, array_words: u32, direction: Option<u8>) -> Request {
    request(0x31, format!("{r:?} array_words {array_words} direction {direction:?}"), |o| {
        o.u32(array_words).u64(r.len).u64(r.setup_dma).u64(r.data_dma).u64(r.status_dma).u16(r.max_packet_size);
        o.u8(direction.unwrap_or(direction_number(r.direction))).u8(r.device);
    })
}

pub(super) fn stage_out(o: &mut Out, s: &[u32; 7]) {
    for n in s {
        o.u32(*n);
    }
}

fn role_number(role: Role) -> u32 {
    match role {
        Role::Data => 0,
        Role::ControlSetup => 1,
        Role::ControlData => 2,
        Role::ControlStatus => 3,
    }
}

pub fn stage_numbers(s: &Stage) -> [u32; 7] {
    [role_number(s.role), s.hcchar, s.hctsiz, s.dma_addr, s.desc_base, s.descs, s.len]
}

pub fn moved(stage: &[u32; 7], array_words: u32) -> Request {
    request(0x32, format!("moved {stage:x?} array_words {array_words}"), |o| {
        o.u32(array_words);
        stage_out(o, stage);
    })
}

pub fn setup(f: &SetupFields, direction: u8, len: u64) -> Request {
    request(0x33, format!("setup {f:?} direction {direction} len {len}"), |o| {
        o.u8(f.kind).u8(f.recipient).u8(direction).u8(f.request).u16(f.value).u16(f.index).u64(len);
    })
}

pub fn split(len: u64, packet: u16) -> Request {
    request(0x34, format!("split {len} by {packet}"), |o| {
        o.u64(len).u16(packet);
    })
}
