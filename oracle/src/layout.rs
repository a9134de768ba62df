//! The bytes of a session, from the port's docs/LAYOUT.md, and the numbers of include/dwc2_port.h.

use crate::model::{Behind, Entry, MAX_PACKETS, MAX_REQUESTS, Packet, Request, Session, Unused};
use crate::slips::{Slip, slip};
use lifted::calls::*;

pub const SESSION_BYTES: usize = 8_488;
const REQUESTS_AT: usize = 40;
const PLANS_AT: usize = 1_320;

pub fn speed_number(speed: Speed) -> u8 {
    match speed {
        Speed::High => 0,
        Speed::Full => 1,
        Speed::Low => 2,
    }
}

pub fn speed_named(number: u8) -> Option<Speed> {
    [Speed::High, Speed::Full, Speed::Low].into_iter().find(|s| speed_number(*s) == number)
}

pub fn direction_number(direction: Direction) -> u8 {
    u8::from(direction == Direction::In)
}

pub fn direction_named(number: u8) -> Option<Direction> {
    match number {
        0 => Some(Direction::Out),
        1 => Some(Direction::In),
        _ => None,
    }
}

pub fn mode_number(mode: Mode) -> u8 {
    u8::from(mode == Mode::Guarded)
}

pub fn mode_named(number: u8) -> Option<Mode> {
    match number {
        0 => Some(Mode::Compatible),
        1 => Some(Mode::Guarded),
        _ => None,
    }
}

pub fn fault_number(fault: Fault) -> u8 {
    match fault {
        Fault::Ahb => 2,
        Fault::Stall => 3,
        Fault::Transaction => 7,
        Fault::Babble => 8,
        Fault::Overrun => 9,
        Fault::Toggle => 10,
    }
}

fn fault_named(number: u8) -> Option<Fault> {
    [Fault::Ahb, Fault::Stall, Fault::Transaction, Fault::Babble, Fault::Overrun, Fault::Toggle]
        .into_iter()
        .find(|f| fault_number(*f) == number)
}

/// tag, fault, word
pub fn failure_numbers(failure: Option<Failure>) -> (u8, u8, u32) {
    match failure {
        None => (0, 0, 0),
        Some(Failure::Disconnected) => (1, 0, 0),
        Some(Failure::Cancelled) => (2, 0, 0),
        Some(Failure::Fault(fault, word)) => (3, fault_number(fault), word),
        Some(Failure::UnexpectedHalt(word)) => (4, 0, word),
    }
}

fn failure_named(tag: u8, fault: u8, word: u32) -> Option<Option<Failure>> {
    match (tag, fault, word) {
        (0, 0, 0) => Some(None),
        (1, 0, 0) => Some(Some(Failure::Disconnected)),
        (2, 0, 0) => Some(Some(Failure::Cancelled)),
        (3, fault, word) => Some(Some(Failure::Fault(fault_named(fault)?, word))),
        (4, 0, word) => Some(Some(Failure::UnexpectedHalt(word))),
        _ => None,
    }
}

fn reason_numbers(reason: Option<Reason>) -> (u8, u8, u32) {
    match reason {
        None => (0, 0, 0),
        Some(Reason::Cancelled) => (1, 0, 0),
        Some(Reason::Fault(fault, word)) => (2, fault_number(fault), word),
    }
}

fn reason_named(tag: u8, fault: u8, word: u32) -> Option<Option<Reason>> {
    match (tag, fault, word) {
        (0, 0, 0) => Some(None),
        (1, 0, 0) => Some(Some(Reason::Cancelled)),
        (2, fault, word) => Some(Some(Reason::Fault(fault_named(fault)?, word))),
        _ => None,
    }
}

pub struct Bytes<'a>(pub &'a [u8]);

impl Bytes<'_> {
    pub fn u8(&self, at: usize) -> u8 {
        self.0[at]
    }
    pub fn u16(&self, at: usize) -> u16 {
        u16::from_le_bytes(self.0[at..at + 2].try_into().unwrap())
    }
    pub fn u32(&self, at: usize) -> u32 {
        u32::from_le_bytes(self.0[at..at + 4].try_into().unwrap())
    }
    pub fn u64(&self, at: usize) -> u64 {
        u64::from_le_bytes(self.0[at..at + 8].try_into().unwrap())
    }
}

/// What bytes hold.
pub enum Loaded {
    Session(Session),
    /// a record of the layout whose counts lie beyond their limits: each call refuses it
    Beyond(Config),
}

/// Err: 17 or 18 of the bytes.
pub fn load(bytes: &[u8]) -> Result<Loaded, u16> {
    if bytes.len() < SESSION_BYTES {
        return Err(17);
    }
    loaded(&Bytes(bytes)).ok_or(18)
}

fn flag_named(n: u8) -> Option<bool> {
    match n {
        0 => Some(false),
        1 => Some(true),
        _ => None,
    }
}

fn config_of(b: &Bytes) -> Option<Config> {
    Some(Config {
        speed: speed_named(b.u8(5))?,
        direction: direction_named(b.u8(6))?,
        mode: mode_named(b.u8(7))?,
        interval: b.u16(8),
        max_packet_size: b.u16(10),
        endpoint: b.u8(12),
        device: b.u8(13),
        mult: b.u8(14),
        tiny: 0,
    })
}

fn entry_of(b: &Bytes, at: usize) -> Option<Entry> {
    let failure = failure_named(b.u8(at + 14), b.u8(at + 15), b.u32(at + 16))?;
    Some(Entry { id: b.u64(at), total: b.u32(at + 8), packets: b.u16(at + 12), failure })
}

fn packet_of(b: &Bytes, at: usize) -> Option<Packet> {
    Some(Packet { planned: b.u16(at), slot: b.u16(at + 2), actual: b.u16(at + 4), error: flag_named(b.u8(at + 6))? })
}

fn unused<T: Default>(b: &Bytes, at: usize, width: usize, read: impl Fn(&Bytes, usize) -> Option<T>) -> Unused<T> {
    match read(b, at) {
        Some(entry) => Unused::Entry(entry),
        None if slip(Slip::BehindBlank) => Unused::Entry(T::default()),
        None => Unused::Bytes(b.0[at..at + width].to_vec()),
    }
}

/// The entries in use are named, or the bytes are refused; what stands behind them is not looked at.
fn loaded(b: &Bytes) -> Option<Loaded> {
    if b.0[..3] != *b"DWS" || b.u16(3) != 1 {
        return None;
    }
    let cfg = config_of(b)?;
    let live = flag_named(b.u8(15))?;
    let reason = reason_named(b.u8(34), b.u8(35), b.u32(36))?;
    let (done, count) = (usize::from(b.u16(30)), usize::from(b.u16(32)));
    let (request_at, packet_at) = (|i| REQUESTS_AT + 20 * i, |i| PLANS_AT + 7 * i);
    let entries = (0..count.min(MAX_REQUESTS)).map(|i| entry_of(b, request_at(i))).collect::<Option<Vec<Entry>>>()?;
    let used: usize = entries.iter().map(|e| usize::from(e.packets)).sum();
    let packets = (0..used.min(MAX_PACKETS)).map(|i| packet_of(b, packet_at(i))).collect::<Option<Vec<Packet>>>()?;
    if done > count || count > MAX_REQUESTS || used > MAX_PACKETS {
        return Some(Loaded::Beyond(cfg));
    }
    let mut at = 0;
    let mut request = |e: &Entry| {
        let own = packets[at..at + usize::from(e.packets)].to_vec();
        at += own.len();
        Request { id: e.id, total: e.total, failure: e.failure, packets: own }
    };
    let completed = entries[..done].iter().map(&mut request).collect();
    let pending = entries[done..count].iter().map(&mut request).collect();
    let behind = Behind {
        requests: (count..MAX_REQUESTS).map(|i| unused(b, request_at(i), 20, entry_of)).collect(),
        packets: (used..MAX_PACKETS).map(|i| unused(b, packet_at(i), 7, packet_of)).collect(),
    };
    if slip(Slip::BehindTested) && behind.has_bytes() {
        return None;
    }
    Some(Loaded::Session(Session {
        cfg,
        next: b.u64(16),
        live,
        cursor: b.u16(28),
        start: b.u32(24),
        reason,
        completed,
        pending,
        behind: Some(behind),
    }))
}

/// Bytes that numbers are put into, one behind the other.
struct Put<'a> {
    bytes: &'a mut [u8],
    at: usize,
}

impl Put<'_> {
    fn number(&mut self, value: impl Into<u64>, width: usize) {
        self.bytes[self.at..self.at + width].copy_from_slice(&value.into().to_le_bytes()[..width]);
        self.at += width;
    }

    /// a reason or an outcome
    fn cause(&mut self, (tag, fault, word): (u8, u8, u32)) {
        self.number(tag, 1);
        self.number(fault, 1);
        self.number(word, 4);
    }

    fn as_they_are(&mut self, bytes: &[u8]) {
        self.bytes[self.at..self.at + bytes.len()].copy_from_slice(bytes);
        self.at += bytes.len();
    }

    fn request(&mut self, entry: &Unused<Entry>) {
        match entry {
            Unused::Bytes(bytes) => self.as_they_are(bytes),
            Unused::Entry(e) => {
                self.number(e.id, 8);
                self.number(e.total, 4);
                self.number(e.packets, 2);
                self.cause(failure_numbers(e.failure));
            }
        }
    }

    fn packet(&mut self, entry: &Unused<Packet>) {
        match entry {
            Unused::Bytes(bytes) => self.as_they_are(bytes),
            Unused::Entry(p) => {
                self.number(p.planned, 2);
                self.number(p.slot, 2);
                self.number(p.actual, 2);
                self.number(p.error, 1);
            }
        }
    }

    fn head(&mut self, s: &Session) {
        let cfg = &s.cfg;
        for byte in b"DWS" {
            self.number(*byte, 1);
        }
        self.number(1u8, 2);
        self.number(speed_number(cfg.speed), 1);
        self.number(direction_number(cfg.direction), 1);
        self.number(mode_number(cfg.mode), 1);
        self.number(cfg.interval, 2);
        self.number(cfg.max_packet_size, 2);
        self.number(cfg.endpoint, 1);
        self.number(cfg.device, 1);
        self.number(cfg.mult, 1);
        self.number(s.live, 1);
        self.number(s.next, 8);
        self.number(s.start, 4);
        self.number(s.cursor, 2);
        self.number(s.completed.len() as u64, 2);
        self.number((s.completed.len() + s.pending.len()) as u64, 2);
        self.cause(reason_numbers(s.reason));
    }
}

/// The session's bytes. What stands behind the entries in use is blank where the session does not know it.
pub fn save(s: &Session, bytes: &mut [u8]) {
    let mut put = Put { bytes, at: 0 };
    put.head(s);
    let blank = Behind::default();
    let behind = s.behind.as_ref().unwrap_or(&blank);
    let all = || s.completed.iter().chain(&s.pending);
    let used = all().map(|r| Entry { id: r.id, total: r.total, packets: r.packets.len() as u16, failure: r.failure });
    let rest = std::iter::repeat_with(|| Unused::Entry(Entry::default()));
    for e in used.map(Unused::Entry).chain(behind.requests.iter().cloned()).chain(rest).take(MAX_REQUESTS) {
        put.request(&e);
    }
    let used = all().flat_map(|r| r.packets.iter().copied());
    let rest = std::iter::repeat_with(|| Unused::Entry(Packet::default()));
    for p in used.map(Unused::Entry).chain(behind.packets.iter().cloned()).chain(rest).take(MAX_PACKETS) {
        put.packet(&p);
    }
}
