//! One lifted camera session: sets the board, makes the Rust's call, and reads what came of it.

use crate::backend::kmod::{
    Kernel,
    dwc2::channel::iso::{IsoChannelState, access},
};
use crate::board::{Board, set_board, with_board};
use crate::calls::*;
use crate::endpoint::{IsoPacket, RequestId, TransferBuffer, TransferRequest};
use crate::err::TransferError;
use crate::shim_channel::{ChannelConfig, Dwc2Stats, EndpointAddress, EndpointInfo, HostChannelPool};
use crate::shim_regs::Dwc2Registers;
use crate::shim_words::Dwc2TransferFault;
use crate::source::ISO_ERRORS;

pub(crate) fn speed_of(speed: Speed) -> crate::host::hub::Speed {
    match speed {
        Speed::High => crate::host::hub::Speed::High,
        Speed::Full => crate::host::hub::Speed::Full,
        Speed::Low => crate::host::hub::Speed::Low,
    }
}

pub(crate) fn direction_of(direction: Direction) -> crate::transfer::Direction {
    match direction {
        Direction::Out => crate::transfer::Direction::Out,
        Direction::In => crate::transfer::Direction::In,
    }
}

pub(crate) fn fault_of(fault: Dwc2TransferFault) -> Fault {
    match fault {
        Dwc2TransferFault::Ahb => Fault::Ahb,
        Dwc2TransferFault::Stall => Fault::Stall,
        Dwc2TransferFault::Babble => Fault::Babble,
        Dwc2TransferFault::Transaction => Fault::Transaction,
        Dwc2TransferFault::FrameOverrun => Fault::Overrun,
        Dwc2TransferFault::DataToggle => Fault::Toggle,
    }
}

// the errors with a text, in the order in which iso.rs makes them
const TEXT_TOO_LONG: usize = 1;
const TEXT_SUM: usize = 2;
const TEXT_HALTED: usize = 3;
const TEXT_NO_PACKETS: usize = 4;
const TEXT_NO_BUFFER: usize = 5;
const TEXT_CAPACITY: usize = 6;
const TEXTS: usize = 7;
const _: () = assert!(ISO_ERRORS.len() == TEXTS, "iso.rs is another: its errors with a text were counted");

fn text_rank(line: u32) -> usize {
    ISO_ERRORS.iter().position(|l| *l == line).expect("an error of iso.rs")
}

/// the first whole number that stands alone in a text
fn number_in(text: &str) -> u32 {
    text.split_whitespace().find_map(|part| part.parse().ok()).expect("a number in the text")
}

fn hex_in(text: &str) -> u32 {
    let at = text.rfind("0x").expect("a word in the text");
    u32::from_str_radix(&text[at + 2..], 16).expect("a word in the text")
}

/// why a pending request failed
pub(crate) fn failure_of(error: &TransferError) -> Failure {
    match error {
        TransferError::Disconnected => Failure::Disconnected,
        TransferError::Cancelled => Failure::Cancelled,
        TransferError::Fault(fault, word) => Failure::Fault(fault_of(*fault), *word),
        TransferError::Other(text) if text_rank(text.line) == TEXT_HALTED => Failure::UnexpectedHalt(hex_in(&text.text)),
        other => panic!("no failure of a request: {other:?}"),
    }
}

/// 01's number for an error of `submit`: its column "Rust", with the state of the session where one error has two numbers
fn refusal_of(error: &TransferError, ending: bool) -> Answer {
    match error {
        TransferError::QueueFull => Answer::Refused(if ending { 1 } else { 7 }),
        TransferError::NotSupported => Answer::Refused(2),
        TransferError::InvalidEndpoint => Answer::Refused(3),
        TransferError::Address => Answer::Refused(11),
        TransferError::NoChannel => Answer::Refused(12),
        TransferError::Disconnected => Answer::Refused(14),
        TransferError::Other(text) => match text_rank(text.line) {
            TEXT_NO_PACKETS => Answer::Refused(4),
            TEXT_NO_BUFFER => Answer::Refused(5),
            TEXT_CAPACITY => Answer::Refused(6),
            TEXT_TOO_LONG => Answer::TooLong(number_in(&text.text)),
            TEXT_SUM => Answer::Refused(10),
            rank => panic!("error {rank} of iso.rs from a submission"),
        },
        other => panic!("no refusal of a submission: {other:?}"),
    }
}

pub struct Camera {
    state: IsoChannelState,
    cfg: ChannelConfig,
    direction: Direction,
    ring_words: usize,
}

impl Drop for Camera {
    fn drop(&mut self) {
        access::quiet(&mut self.state);
    }
}

/// what a first submission left in the registers
fn started() -> Start {
    with_board(|b| {
        assert_eq!(b.hcsplt, Some(0));
        Start {
            hcchar: b.hcchar.expect("an enabled channel"),
            hctsiz: b.hctsiz.expect("a programmed channel"),
            hcintmsk: b.hcintmsk.expect("a programmed channel"),
            frames: b.frames.as_ref().expect("a frame list").iter().map(|f| *f as u8).collect(),
        }
    })
}

impl Camera {
    pub fn open(cfg: &Config) -> Camera {
        let info = EndpointInfo {
            address: EndpointAddress(cfg.endpoint | u8::from(cfg.direction == Direction::In) << 7),
            max_packet_size: cfg.max_packet_size,
            interval: cfg.interval,
            packets_per_microframe: usize::from(cfg.mult),
            transfer_type: crate::descriptor::EndpointType::Isochronous,
        };
        let speed = speed_of(cfg.speed);
        Camera {
            state: IsoChannelState::new(Dwc2Registers, Kernel, Dwc2Stats, HostChannelPool::new()),
            cfg: ChannelConfig { info, device_address: cfg.device, port_speed: speed },
            direction: cfg.direction,
            ring_words: 2 * access::ring_size(speed),
        }
    }

    pub fn set_next(&mut self, next: u64) {
        access::set_next(&mut self.state, next);
    }

    /// the Rust takes the interval of each submission
    pub fn set_interval(&mut self, interval: u16) {
        self.cfg.info.interval = interval;
    }

    /// `connected` is the port's state outside the two gates: no answer depends on it
    pub fn call(&mut self, call: &Call, results: &mut [u64], connected: bool) -> Reply {
        match call {
            Call::Submit { transfer, lengths, .. } => self.submit(transfer, lengths, connected),
            Call::Poll { event, .. } => self.poll(event, connected),
            Call::Reclaim { id, event, .. } => self.reclaim(*id, event, results, connected),
            Call::Cancel { id } => self.cancel(*id, connected),
            Call::Reset => self.reset(),
            Call::Controller { slot, word } => {
                access::touch(&self.state, usize::from(*slot), *word);
                done()
            }
            Call::Number { next } => {
                self.set_next(*next);
                done()
            }
            Call::Recover { .. } => panic!("the Rust has no recovery"),
        }
    }

    fn submit(&mut self, t: &Transfer, lengths: &[u32], connected: bool) -> Reply {
        let first = !access::is_live(&self.state);
        let mut board = Board { connected, channel_free: t.channel_free, base: t.base, ..Board::default() };
        if first {
            board.readings.extend([t.start_reading, t.frame_reading]);
            board.gates.extend([t.gate_program, t.gate_enable]);
        } else {
            board.readings.push_back(t.frame_reading);
        }
        set_board(board);
        let direction = direction_of(self.direction);
        let buffer = t.has_buffer.then_some(TransferBuffer { len: t.buffer_len as usize });
        let request = if t.isochronous {
            let packets = lengths.iter().map(|l| IsoPacket { length: *l as usize }).collect();
            TransferRequest::Isochronous { direction, buffer, packets }
        } else {
            TransferRequest::Bulk { direction, buffer }
        };
        let ending = access::view(&self.state).reason.is_some();
        let answer = match self.state.submit(&self.cfg, request) {
            Ok(id) => Answer::Accepted(id.raw()),
            Err(error) => refusal_of(&error, ending),
        };
        let accepted = matches!(answer, Answer::Accepted(_));
        let start = (first && accepted).then(started);
        if accepted {
            with_board(|b| assert!(b.readings.is_empty() && b.gates.is_empty(), "all readings and gates are used"));
        }
        with_board(|b| assert!(!b.dropped_dirty, "a ring that was let go is zero"));
        Reply { answer, taken: false, halt: false, start }
    }

    fn event_board(&self, event: &Event, connected: bool) {
        set_board(Board { connected, event: event.reported.then_some(event.hcint), unplugged: event.unplugged, ..Board::default() });
    }

    /// whether the event was taken and whether a halt was asked for (written or not)
    fn event_outcome(&self, event: &Event, answer: Answer) -> Reply {
        with_board(|b| {
            assert!(!b.dropped_dirty, "a ring that was let go is zero");
            Reply { answer, taken: event.reported && b.event.is_none(), halt: b.asked > 0, start: None }
        })
    }

    fn poll(&mut self, event: &Event, connected: bool) -> Reply {
        self.event_board(event, connected);
        access::poll(&mut self.state);
        self.event_outcome(event, Answer::Done)
    }

    fn reclaim(&mut self, id: u64, event: &Event, results: &mut [u64], connected: bool) -> Reply {
        self.event_board(event, connected);
        let answer = match self.state.reclaim(RequestId::new(id)) {
            None => Answer::NotYet,
            Some(Ok(completion)) => {
                assert_eq!(completion.request_id.raw(), id);
                for (word, packet) in results.iter_mut().zip(completion.iso_packets.iter().map(access::result_view)) {
                    *word = u64::from(packet.actual) | u64::from(packet.planned) << 12 | u64::from(packet.error) << 24;
                }
                Answer::Completed { failure: None, total: completion.actual_length as u32, packets: completion.iso_packets.len() as u16 }
            }
            Some(Err(TransferError::InvalidEndpoint)) => Answer::Refused(15),
            // a failed completion no longer knows how many packets it had
            Some(Err(error)) => Answer::Completed { failure: Some(failure_of(&error)), total: 0, packets: 0 },
        };
        self.event_outcome(event, answer)
    }

    fn cancel(&mut self, id: u64, connected: bool) -> Reply {
        set_board(Board { connected, ..Board::default() });
        let answer = match self.state.cancel(RequestId::new(id)) {
            Ok(()) => Answer::Done,
            Err(TransferError::InvalidEndpoint) => Answer::Refused(15),
            Err(other) => panic!("no answer of a cancel: {other:?}"),
        };
        with_board(|b| Reply { answer, taken: false, halt: b.asked > 0, start: None })
    }

    fn reset(&mut self) -> Reply {
        let answer = match self.state.reset() {
            Ok(()) => Answer::Done,
            Err(TransferError::QueueFull) => Answer::Refused(16),
            Err(other) => panic!("no answer of a reset: {other:?}"),
        };
        Reply { answer, taken: false, halt: false, start: None }
    }

    pub fn view(&self) -> View {
        access::view(&self.state)
    }

    pub fn ring(&self, words: &mut [u32]) {
        access::ring_words(&self.state, &mut words[..self.ring_words]);
    }
}

fn done() -> Reply {
    Reply { answer: Answer::Done, taken: false, halt: false, start: None }
}

/// the halts that the last first submission tried behind its two gates
pub fn halts_tried() -> u32 {
    with_board(|b| b.asked.saturating_sub(2))
}

/// the numbers that the Rust draws from `next` on
pub fn drawn(next: u64) -> (u64, u64) {
    let mut state = IsoChannelState::new(Dwc2Registers, Kernel, Dwc2Stats, HostChannelPool::new());
    access::set_next(&mut state, next);
    (access::draw(&mut state), access::view(&state).next)
}
