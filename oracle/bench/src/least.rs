//! What a poll and a cancel cost at the least on the port's own bytes (docs/LAYOUT.md): the tests of refusal 18 and the call, as one would
//! write them with no promise to keep and no bound to test. They know high-speed sessions alone of which nothing is completed, and hand any other
//! to the port. Beside them a call that does nothing, and a setup packet asked for by the port's seven numbers.

use crate::other_rows;
use crate::port::{self, RING_WORDS, Reply, SESSION_BYTES, SetupPacket, dwc2_setup_packet_bytes};
use crate::probe::Probe;
use crate::rows::{Once, Row};
use crate::session_rows::{Curve, pending};
use crate::sides::{PortSession, port_after};
use std::hint::black_box;

const PACKETS: usize = 52;
const PLANS: usize = 1_320;
const SLOTS: u64 = 256;
const LIMIT: u64 = 3_072;
/// entries that are tested one by one; more are looked at eight a turn
const FEW: usize = 8;

/// the number at an offset
#[inline(always)]
fn at<T: Copy>(bytes: *const u8, offset: usize) -> T {
    // SAFETY: every offset here is that of an entry of a session, which the bytes hold whole
    unsafe { bytes.add(offset).cast::<T>().read_unaligned() }
}

/// mark, version and names, high speed; limits; a cursor in the ring and nothing completed
#[inline(always)]
fn is_good_front(bytes: *const u8) -> bool {
    let names = at::<u64>(bytes, 0) & 0xfefe_ffff_ffff_ffff ^ 0x0153_5744;
    let limits = at::<u64>(bytes, 8) & 0xfefc_80f0_f800_0000;
    names | limits | u64::from(at::<u32>(bytes, 28) & !0xff) == 0
}

/// the count of packets of a request and the six bytes behind it
#[inline(always)]
fn request(bytes: *const u8, i: usize) -> u64 {
    at(bytes, PACKETS + 20 * i)
}

/// a plan and the byte before it
#[inline(always)]
fn plan(bytes: *const u8, i: usize) -> u64 {
    at(bytes, PLANS - 1 + 7 * i)
}

/// eight entries a turn, the last turn over some that were looked at already
#[inline(always)]
fn by_eights(n: usize, good: impl Fn(usize) -> bool) -> bool {
    let mut i = 0;
    while i + 8 < n {
        if !good(i) {
            return false;
        }
        i += 8;
    }
    good(n - 8)
}

/// the packets of all requests, where each has some and no outcome
#[inline(always)]
fn packets_of(bytes: *const u8, count: usize) -> Option<u64> {
    if count < FEW {
        return (0..count).try_fold(0, |sum, i| (request(bytes, i).wrapping_sub(1) < 255).then(|| sum + request(bytes, i)));
    }
    let first = request(bytes, 0);
    if first.wrapping_sub(1) < 255 && by_eights(count, |i| (i..i + 8).fold(0, |apart, i| apart | request(bytes, i) ^ first) == 0) {
        return Some(count as u64 * first);
    }
    let (bits, sum) = (0..count).map(|i| request(bytes, i)).fold((0, 0), |(bits, sum), w| (bits | w.wrapping_sub(1), sum + (w & 0xffff)));
    (bits < 255).then_some(sum)
}

/// each plan within the limit, in the ring and not settled
#[inline(always)]
fn are_good_plans(bytes: *const u8, packets: usize) -> bool {
    let in_ring = |bits: u64| bits >> 24 < SLOTS;
    let within = |bits: u64| bits >> 8 & 0xffff <= LIMIT;
    if packets < FEW {
        let bits = (0..packets).try_fold(0, |bits, i| Some(bits | plan(bytes, i)).filter(|bits| in_ring(*bits)));
        return bits.is_some_and(within);
    }
    by_eights(packets, |i| {
        let bits = (i..i + 8).fold(0, |bits, i| bits | plan(bytes, i));
        in_ring(bits) && within(bits)
    })
}

/// the tests of 17 and 18; the count of requests and the reason to end are one number up to 64 where there is no reason
#[inline(always)]
fn is_good(bytes: *const u8, len: usize) -> bool {
    if len < SESSION_BYTES || !is_good_front(bytes) {
        return false;
    }
    let count = at::<u64>(bytes, 32);
    if count == 0 {
        return true;
    }
    if count > 64 || at::<u8>(bytes, 15) != 1 {
        return false;
    }
    let interval = u64::from(at::<u16>(bytes, 8)).max(1);
    packets_of(bytes, count as usize).is_some_and(|packets| (packets + 1) * interval <= SLOTS && are_good_plans(bytes, packets as usize))
}

/// the oldest request's last slot is still the controller's, or there is no request
#[inline(always)]
fn waits(bytes: *const u8, ring: *const u32) -> bool {
    if at::<u16>(bytes, 32) == 0 {
        return true;
    }
    let slot: u16 = at(bytes, PLANS + 2 + 7 * (usize::from(at::<u16>(bytes, PACKETS)) - 1));
    // SAFETY: the record was found good, so that the slot is one of the ring
    unsafe { ring.add(2 * usize::from(slot)).read() >> 31 == 1 }
}

#[inline(never)]
extern "C" fn poll(bytes: *mut u8, len: usize, ring: *mut u32, words: usize, reported: u32, unplugged: u32, hcint: u32) -> Reply {
    if words >= RING_WORDS && is_good(bytes, len) {
        let taken = reported != 0 && at::<u8>(bytes, 15) == 1;
        if !taken || (unplugged | hcint & 0x78f == 0 && waits(bytes, ring)) {
            return Reply { refusal: 0, taken: taken.into(), halt: 0 };
        }
    }
    // SAFETY: as the caller's
    unsafe { port::dwc2_iso_poll(bytes, len, ring, words, reported, unplugged, hcint) }
}

#[inline(never)]
extern "C" fn cancel(bytes: *mut u8, len: usize, id: u64) -> Reply {
    if is_good(bytes, len) {
        let count = usize::from(at::<u16>(bytes, 32));
        let number = |i: usize| at::<u64>(bytes, 40 + 20 * i);
        // numbers are drawn in turn
        let guess = id.wrapping_sub(number(0)) as usize;
        if guess < count && number(guess) == id || (0..count).any(|i| number(i) == id) {
            // SAFETY: the six bytes of the reason lie in the session
            unsafe {
                bytes.add(34).cast::<u16>().write_unaligned(1);
                bytes.add(36).cast::<u32>().write_unaligned(0);
            }
            return Reply { refusal: 0, taken: 0, halt: 1 };
        }
    }
    // SAFETY: as the caller's
    unsafe { port::dwc2_iso_cancel(bytes, len, id) }
}

#[inline(never)]
extern "C" fn nothing(_: *mut u8, _: usize, _: *mut u32, _: usize, _: u32, _: u32, _: u32) -> Reply {
    Reply::default()
}

type Poll = extern "C" fn(*mut u8, usize, *mut u32, usize, u32, u32, u32) -> Reply;
type Cancel = extern "C" fn(*mut u8, usize, u64) -> Reply;

/// what the compiler is not told of, as it is not of what lies in the port's archive: else it would fit a call to its one caller
#[inline(always)]
fn call_poll(call: Poll, s: &mut PortSession, event: Option<u32>) -> Reply {
    let (bytes, ring) = (s.bytes.as_mut_ptr(), s.ring.as_mut_ptr());
    call(bytes, SESSION_BYTES, ring, RING_WORDS, event.is_some().into(), 0, event.unwrap_or(0))
}

/// the least call answers and leaves what the port's does, with each bit in use damaged in turn
fn compare(start: &PortSession, least: impl Fn(&mut PortSession) -> Reply, port: impl Fn(&mut PortSession) -> Reply) {
    let number = |offset: usize| usize::from(u16::from_le_bytes([start.bytes[offset], start.bytes[offset + 1]]));
    let count = number(32);
    let packets: usize = (0..count).map(|i| number(PACKETS + 20 * i)).sum();
    for byte in (0..40).chain(40..40 + 20 * count).chain(PLANS..PLANS + 7 * packets) {
        for bit in 0..8 {
            let mut damaged = start.clone();
            damaged.bytes[byte] ^= 1 << bit;
            let (mut one, mut other) = (damaged.clone(), damaged);
            let told = |r: Reply| (r.refusal, r.taken, r.halt);
            let replies = (told(least(&mut one)), told(port(&mut other)));
            assert!(replies.0 == replies.1 && one.bytes == other.bytes, "bit {bit} of byte {byte}: the least call is another");
        }
    }
}

fn side(start: &PortSession, act: impl Fn(&mut PortSession) -> Reply + 'static) -> Once {
    let (start, mut work) = (start.clone(), start.clone());
    Box::new(move |probe: &mut Probe| {
        work.restore(&start);
        let reply = probe.call(|| act(&mut work));
        if probe.compares() { u64::from(reply.refusal) << 32 | u64::from(reply.halt) } else { 0 }
    })
}

/// the Rust's side is the least call
fn row(
    name: String,
    count: usize,
    least: impl Fn(&mut PortSession) -> Reply + Copy + 'static,
    port: impl Fn(&mut PortSession) -> Reply + Copy + 'static,
) -> Row {
    let start = port_after(&pending(count));
    compare(&start, least, port);
    Row { name, rust: Some(side(&start, least)), port: side(&start, port) }
}

fn poll_row(name: &str, count: usize, event: Option<u32>) -> Row {
    let name = format!("{LEAST}poll, {name}, {count} pending");
    let least = black_box(poll as Poll);
    row(name, count, move |s| call_poll(least, s, black_box(event)), move |s| s.poll(black_box(event)))
}

fn cancel_row(others: usize) -> Row {
    let id = others as u64 + 1;
    let name = format!("{LEAST}cancel, {others} others pending");
    let least = black_box(cancel as Cancel);
    row(name, others + 1, move |s| least(s.bytes.as_mut_ptr(), SESSION_BYTES, black_box(id)), move |s| s.cancel(black_box(id)))
}

/// as C is handed it back: the refusal and the first four bytes in one register, the other four in the next
#[repr(C)]
pub struct Packet {
    first: u64,
    last: u32,
}

#[inline(never)]
pub extern "C" fn setup_packet(kind: u8, recipient: u8, direction: u8, request: u8, value: u16, index: u16, len: u64) -> Packet {
    if (kind | recipient > 3) | (direction > 1) {
        return Packet { first: 18, last: 0 };
    }
    if len > 65_535 {
        return Packet { first: 19, last: 0 };
    }
    let front = u64::from(direction << 7 | kind << 5 | recipient) | u64::from(request) << 8 | u64::from(value) << 16;
    Packet { first: front << 32, last: u32::from(index) | (len as u32) << 16 }
}

/// both setup packets on every name and one beyond, and on lengths about the last that fits
fn compare_packets() {
    for names in 0..5 * 5 * 3 {
        let (kind, recipient, direction) = (names % 5, names / 5 % 5, names / 25);
        for len in [0, 1, 0x1234, 65_535, 65_536, u64::MAX] {
            let least = setup_packet(kind, recipient, direction, 6, 0x1_02, 0x3_04, len);
            let SetupPacket { refusal, bytes } = dwc2_setup_packet_bytes(kind, recipient, direction, 6, 0x1_02, 0x3_04, len);
            let told = u128::from(refusal) | u128::from(u64::from_le_bytes(bytes)) << 32;
            assert_eq!(u128::from(least.first) | u128::from(least.last) << 64, told, "the least setup packet is another");
        }
    }
}

pub const PLOT: &str = "least";
/// stands before the name of the Rust's row
pub const LEAST: &str = "least ";
const NOTHING: &str = "least a call that does nothing";

/// each curve has one point
pub fn curves() -> Vec<Curve> {
    let idle = port_after(&pending(0));
    let empty = black_box(nothing as Poll);
    let act = move |s: &mut PortSession| call_poll(empty, s, black_box(None));
    let mut rows = vec![Row { name: NOTHING.into(), rust: Some(side(&idle, act)), port: side(&idle, act) }];
    for count in [0, 3, 31] {
        rows.extend([poll_row("no event", count, None), poll_row("none served", count, Some(0))]);
    }
    rows.extend([0, 3, 31].map(cancel_row));
    compare_packets();
    rows.push(other_rows::least_setup_packets());
    rows.into_iter().map(|row| Curve { plot: PLOT, name: "least", points: vec![(0, row)] }).collect()
}
