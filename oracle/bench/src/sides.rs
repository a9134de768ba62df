//! One camera session on both sides, brought to the same state by the same steps.

use crate::port::{self, RING_WORDS, SESSION_BYTES};
use lifted::rust_session::{self, RustSession};

/// the raw frame number of every reading; a channel that starts at it has its first packet in `FIRST_SLOT`
const FRAME: u32 = 0x100;
const FIRST_SLOT: usize = 8;
const RING: usize = 256;
const BASE: u64 = 0x2000_0000;
const LENGTH: u32 = 1_024;
const ENDPOINT: u8 = 1;
const DEVICE: u8 = 5;
const MAX_PACKET_SIZE: u16 = 1_024;
pub const LENGTHS: [u32; 255] = [LENGTH; 255];
pub const COMPLETE: Option<u32> = Some(1);
/// what the controller leaves of a packet that came in whole
const SERVED: u32 = 0;

#[derive(Clone, Copy)]
pub enum Step {
    /// of so many packets
    Submit(usize),
    /// the controller serves so many packets, from this one on, counted from the first ever laid down
    Serve(usize, usize),
    Poll(Option<u32>),
    Reclaim(u64, Option<u32>),
}

/// puts the frame number and the event where the Rust reads them; the port is handed both
pub fn board(event: Option<u32>) {
    rust_session::set_board(FRAME, BASE, event);
}

pub fn rust_after(steps: &[Step]) -> RustSession {
    let mut s = RustSession::open(ENDPOINT, DEVICE, MAX_PACKET_SIZE);
    for step in steps {
        match *step {
            Step::Submit(n) => {
                board(None);
                s.submit(rust_session::request(&LENGTHS[..n])).expect("accepted");
            }
            Step::Serve(from, count) => (from..from + count).for_each(|i| s.touch((FIRST_SLOT + i) % RING, SERVED)),
            Step::Poll(event) => {
                board(event);
                s.poll();
            }
            Step::Reclaim(id, event) => {
                board(event);
                s.reclaim(id).expect("completed").expect("done");
            }
        }
    }
    s
}

#[derive(Clone)]
pub struct PortSession {
    pub bytes: Box<[u8; SESSION_BYTES]>,
    pub ring: Box<[u32; RING_WORDS]>,
    pub results: Box<[u64; 255]>,
}

pub fn transfer(packets: usize) -> port::Transfer {
    port::Transfer {
        base: BASE,
        buffer_len: LENGTH * packets as u32,
        start_reading: FRAME,
        frame_reading: FRAME,
        words: u32::MAX,
        kind: 1,
        has_buffer: 1,
        channel_free: 1,
        gate_program: 1,
        gate_enable: 1,
    }
}

impl PortSession {
    pub fn blank() -> PortSession {
        PortSession { bytes: Box::new([0; SESSION_BYTES]), ring: Box::new([0; RING_WORDS]), results: Box::new([0; 255]) }
    }

    pub fn restore(&mut self, from: &PortSession) {
        self.bytes.copy_from_slice(&from.bytes[..]);
        self.ring.copy_from_slice(&from.ring[..]);
    }

    // SAFETY of these: a session, a ring and results of the full size, each its own memory
    #[inline(always)]
    pub fn open(&mut self) -> u32 {
        let (bytes, ring) = (self.bytes.as_mut_ptr(), self.ring.as_mut_ptr());
        unsafe { port::dwc2_iso_open(bytes, SESSION_BYTES, ring, RING_WORDS, 0, 1, 0, 1, MAX_PACKET_SIZE, ENDPOINT, DEVICE, 1) }
    }

    #[inline(always)]
    pub fn submit(&mut self, lengths: &[u32], transfer: port::Transfer) -> port::Submitted {
        let (bytes, ring) = (self.bytes.as_mut_ptr(), self.ring.as_mut_ptr());
        unsafe { port::dwc2_iso_submit(bytes, SESSION_BYTES, ring, RING_WORDS, lengths.as_ptr(), lengths.len(), transfer) }
    }

    #[inline(always)]
    pub fn poll(&mut self, event: Option<u32>) -> port::Reply {
        let (bytes, ring) = (self.bytes.as_mut_ptr(), self.ring.as_mut_ptr());
        unsafe { port::dwc2_iso_poll(bytes, SESSION_BYTES, ring, RING_WORDS, event.is_some().into(), 0, event.unwrap_or(0)) }
    }

    #[inline(always)]
    pub fn reclaim(&mut self, id: u64, event: Option<u32>) -> port::Reclaimed {
        let (bytes, ring, results) = (self.bytes.as_mut_ptr(), self.ring.as_mut_ptr(), self.results.as_mut_ptr());
        let (reported, hcint) = (event.is_some().into(), event.unwrap_or(0));
        unsafe { port::dwc2_iso_reclaim(bytes, SESSION_BYTES, ring, RING_WORDS, results, 255, id, reported, 0, hcint) }
    }

    #[inline(always)]
    pub fn cancel(&mut self, id: u64) -> port::Reply {
        unsafe { port::dwc2_iso_cancel(self.bytes.as_mut_ptr(), SESSION_BYTES, id) }
    }

    #[inline(always)]
    pub fn reset(&mut self) -> port::Reply {
        unsafe { port::dwc2_iso_reset(self.bytes.as_mut_ptr(), SESSION_BYTES) }
    }

    #[inline(always)]
    pub fn recover(&mut self) -> port::Reply {
        unsafe { port::dwc2_iso_recover(self.bytes.as_mut_ptr(), SESSION_BYTES, self.ring.as_mut_ptr(), RING_WORDS) }
    }

    #[inline(always)]
    pub fn check(&self) -> u32 {
        unsafe { port::dwc2_iso_check(self.bytes.as_ptr(), SESSION_BYTES) }
    }

    fn number(&self, at: usize) -> usize {
        u16::from_le_bytes([self.bytes[at], self.bytes[at + 1]]).into()
    }

    /// completed, pending, cursor (docs/LAYOUT.md)
    pub fn counts(&self) -> (usize, usize, usize) {
        let done = self.number(30);
        (done, self.number(32) - done, self.number(28))
    }
}

pub fn port_after(steps: &[Step]) -> PortSession {
    let mut s = PortSession::blank();
    assert_eq!(s.open(), 0);
    for step in steps {
        match *step {
            Step::Submit(n) => {
                let submitted = s.submit(&LENGTHS[..n], transfer(n));
                assert_eq!((submitted.refusal, submitted.cut), (0, 0));
            }
            Step::Serve(from, count) => (from..from + count).for_each(|i| s.ring[2 * ((FIRST_SLOT + i) % RING)] = SERVED),
            Step::Poll(event) => assert_eq!(s.poll(event).refusal, 0),
            Step::Reclaim(id, event) => assert_eq!(s.reclaim(id, event).completed, 1),
        }
    }
    s
}
