//! What goes into a call and what comes out, for every party: the lifted Rust, the model, and the port behind its pipe.

#[derive(Clone, Copy, PartialEq, Eq, Debug, Hash)]
pub enum Speed {
    High,
    Full,
    Low,
}

#[derive(Clone, Copy, PartialEq, Eq, Debug, Hash)]
pub enum Direction {
    Out,
    In,
}

#[derive(Clone, Copy, PartialEq, Eq, Debug, Hash)]
pub enum Pid {
    Data0,
    Data1,
    Data2,
    MData,
    Setup,
}

#[derive(Clone, Copy, PartialEq, Eq, Debug, Hash)]
pub enum Fault {
    Ahb,
    Stall,
    Babble,
    Transaction,
    Overrun,
    Toggle,
}

#[derive(Clone, Copy, PartialEq, Eq, Debug, Hash)]
pub enum Mode {
    Compatible,
    Guarded,
}

/// One endpoint, fixed at opening. `tiny` is a ring size for the brute-force runs over small rings, 0 for the real ones.
#[derive(Clone, Copy, PartialEq, Eq, Debug, Hash)]
pub struct Config {
    pub speed: Speed,
    pub direction: Direction,
    pub interval: u16,
    pub endpoint: u8,
    pub device: u8,
    pub max_packet_size: u16,
    pub mult: u8,
    pub mode: Mode,
    pub tiny: u16,
}

#[derive(Clone, Copy, PartialEq, Eq, Debug, Hash)]
pub struct Transfer {
    pub isochronous: bool,
    pub has_buffer: bool,
    pub buffer_len: u32,
    pub base: u64,
    pub start_reading: u32,
    pub frame_reading: u32,
    pub channel_free: bool,
    pub gate_program: bool,
    pub gate_enable: bool,
    pub words: u32,
}

impl Transfer {
    /// open gates, readings 0, and a buffer at 0 for these lengths
    pub fn plain(lengths: &[u32]) -> Transfer {
        Transfer {
            isochronous: true,
            has_buffer: true,
            buffer_len: lengths.iter().sum(),
            base: 0,
            start_reading: 0,
            frame_reading: 0,
            channel_free: true,
            gate_program: true,
            gate_enable: true,
            words: u32::MAX,
        }
    }
}

#[derive(Clone, Copy, PartialEq, Eq, Debug, Hash)]
pub struct Event {
    pub reported: bool,
    pub unplugged: bool,
    pub hcint: u32,
}

/// Why a request has no result.
#[derive(Clone, Copy, PartialEq, Eq, Debug, Hash)]
pub enum Failure {
    Disconnected,
    Cancelled,
    Fault(Fault, u32),
    UnexpectedHalt(u32),
}

/// Why a session is ending.
#[derive(Clone, Copy, PartialEq, Eq, Debug, Hash)]
pub enum Reason {
    Cancelled,
    Fault(Fault, u32),
}

/// The answer of a session call. 9 comes with the index of the packet.
#[derive(Clone, Copy, PartialEq, Eq, Debug, Hash)]
pub enum Answer {
    Done,
    Accepted(u64),
    Cut,
    NotYet,
    Completed { failure: Option<Failure>, total: u32, packets: u16 },
    TooLong(u32),
    Refused(u16),
}

/// What a first submission hands out.
#[derive(Clone, PartialEq, Eq, Debug)]
pub struct Start {
    pub hcchar: u32,
    pub hctsiz: u32,
    pub hcintmsk: u32,
    pub frames: Vec<u8>,
}

/// One call on a session, or what the controller does between calls.
#[derive(Clone, PartialEq, Eq, Debug, Hash)]
pub enum Call {
    Submit {
        transfer: Transfer,
        lengths: Vec<u32>,
        ring_len: u32,
    },
    Poll {
        event: Event,
        ring_len: u32,
    },
    Reclaim {
        id: u64,
        event: Event,
        ring_len: u32,
        results_len: u32,
    },
    Cancel {
        id: u64,
    },
    Reset,
    Recover {
        ring_len: u32,
    },
    /// a word for the status of a slot; stored only where that slot is active and the channel live
    Controller {
        slot: u16,
        word: u32,
    },
    /// no call: the next number becomes this, so that numbers come twice (off the domain)
    Number {
        next: u64,
    },
}

/// What a call answered: the answer, whether the event was taken, whether a halt is asked for, and what was handed out.
#[derive(Clone, PartialEq, Eq, Debug)]
pub struct Reply {
    pub answer: Answer,
    pub taken: bool,
    pub halt: bool,
    pub start: Option<Start>,
}

#[derive(Clone, Copy, PartialEq, Eq, Debug, Hash)]
pub struct PacketView {
    pub planned: u32,
    pub slot: u32,
    pub actual: u32,
    pub error: bool,
}

#[derive(Clone, Copy, PartialEq, Eq, Debug, Hash)]
pub struct ResultView {
    pub planned: u32,
    pub actual: u32,
    pub error: bool,
}

/// All of a session that both the Rust and the model hold. A completed request that failed has no lengths in the Rust.
#[derive(Clone, PartialEq, Eq, Debug)]
pub struct View {
    pub next: u64,
    pub live: bool,
    pub cursor: u32,
    pub start: u32,
    pub reason: Option<Reason>,
    pub completed: Vec<(u64, Result<(u32, Vec<ResultView>), Failure>)>,
    pub pending: Vec<(u64, Vec<PacketView>)>,
}

// ---- planning

#[derive(Clone, Copy, PartialEq, Eq, Debug, Hash)]
pub enum DataKind {
    Bulk,
    Interrupt,
}

#[derive(Clone, Copy, PartialEq, Eq, Debug, Hash)]
pub struct DataRequest {
    pub kind: DataKind,
    pub direction: Direction,
    pub speed: Speed,
    pub device: u8,
    pub endpoint: u8,
    pub max_packet_size: u16,
    pub odd_frame: bool,
    pub toggle: bool,
    pub base: u64,
    pub len: u64,
}

/// `kind` and `recipient` are USB 2.0's numbers of table 9-2, 0 to 3.
#[derive(Clone, Copy, PartialEq, Eq, Debug, Hash)]
pub struct SetupFields {
    pub kind: u8,
    pub recipient: u8,
    pub request: u8,
    pub value: u16,
    pub index: u16,
}

#[derive(Clone, Copy, PartialEq, Eq, Debug, Hash)]
pub struct ControlRequest {
    pub direction: Direction,
    pub device: u8,
    pub max_packet_size: u16,
    pub len: u64,
    pub setup_dma: u64,
    pub data_dma: u64,
    pub status_dma: u64,
}

#[derive(Clone, Copy, PartialEq, Eq, Debug, Hash)]
pub enum Role {
    Data,
    ControlSetup,
    ControlData,
    ControlStatus,
}

#[derive(Clone, Copy, PartialEq, Eq, Debug, Hash)]
pub struct Stage {
    pub role: Role,
    pub hcchar: u32,
    pub hctsiz: u32,
    pub dma_addr: u32,
    pub desc_base: u32,
    pub descs: u32,
    pub len: u32,
}

#[derive(Clone, PartialEq, Eq, Debug)]
pub struct Plan {
    /// 0, or the refusal's number
    pub number: u16,
    pub toggle: bool,
    pub stages: Vec<Stage>,
}
