//! The differences of the session's calls.

use super::List;
use crate::model::{Endpoint, Session};
use lifted::Camera;
use lifted::calls::*;

const FULL: Config = Config {
    speed: Speed::Full,
    direction: Direction::In,
    interval: 1,
    endpoint: 1,
    device: 1,
    max_packet_size: 64,
    mult: 1,
    mode: Mode::Compatible,
    tiny: 0,
};

fn submit(transfer: Transfer, lengths: &[u32]) -> Call {
    Call::Submit { transfer, lengths: lengths.to_vec(), ring_len: u32::MAX }
}

pub(super) struct Both {
    pub(super) cfg: Config,
    pub(super) calls: Vec<Call>,
    model: Session,
    ring: Vec<u32>,
    rust: Camera,
}

impl Both {
    fn open(cfg: Config) -> Both {
        let mut ring = vec![0; cfg.words()];
        let (_, model) = Session::open(&cfg, &mut ring);
        Both { cfg, calls: Vec::new(), model, ring, rust: Camera::open(&cfg) }
    }

    fn call(&mut self, call: &Call) -> (Reply, Reply) {
        let mut results = [0; 255];
        self.calls.push(call.clone());
        (self.model.call(call, &mut self.ring, &mut results), self.rust.call(call, &mut results, true))
    }

    fn answers(&mut self, call: &Call) -> (String, String) {
        let (ours, rust) = self.call(call);
        (format!("{:?}", ours.answer), format!("{:?}", rust.answer))
    }

    /// the slots of the pending requests
    fn slots(&self) -> (String, String) {
        let ours: Vec<u16> = self.model.pending.iter().flat_map(|r| r.packets.iter().map(|p| p.slot)).collect();
        let rust: Vec<u32> = self.rust.view().pending.iter().flat_map(|(_, packets)| packets.iter().map(|p| p.slot)).collect();
        (format!("{ours:?}"), format!("{rust:?}"))
    }
}

/// one packet of one byte, and two
const ONE: [u32; 1] = [1];
const TWO: [u32; 2] = [1, 1];

pub(super) fn session(list: &mut List) {
    limits(list);
    overrun(list);
    second_gate(list);
    two_intervals(list);
    failed_request(list);
}

fn limits(list: &mut List) {
    let mut both = Both::open(FULL);
    let (ours, rust) = both.answers(&submit(Transfer { base: 4_294_967_295, ..Transfer::plain(&ONE) }, &ONE));
    list.entry("S4", "camera: one packet of 1 byte at 4,294,967,295", (ours, "Refused(11)"), (rust, "Accepted(1)"));
    list.ask_session(&both);

    let mut both = Both::open(FULL);
    for _ in 0..64 {
        both.call(&submit(Transfer::plain(&ONE), &ONE));
        both.call(&Call::Poll { event: Event { reported: true, unplugged: false, hcint: 1 }, ring_len: u32::MAX });
    }
    let (ours, rust) = both.answers(&submit(Transfer::plain(&ONE), &ONE));
    list.entry("S3", "camera: the 65th request that is not reclaimed", (ours, "Refused(8)"), (rust, "Accepted(65)"));
    list.ask_session(&both);
}

/// P6: slots 10 and 11 pending and served, cursor 12, raw 71
fn overrun(list: &mut List) {
    let mut both = Both::open(Config { mode: Mode::Guarded, ..FULL });
    both.call(&submit(Transfer { start_reading: 8, frame_reading: 8, ..Transfer::plain(&TWO) }, &TWO));
    for slot in [10, 11] {
        both.call(&Call::Controller { slot, word: 0 });
    }
    let (ours, rust) = both.answers(&submit(Transfer { frame_reading: 71, ..Transfer::plain(&TWO) }, &TWO));
    list.entry("S5", "camera, guarded: P6", (ours, "Refused(13)"), (rust, "Accepted(2)"));
    let (ours, rust) = both.slots();
    list.entry("S5", "camera: P6, the slots of the pending requests", (ours, "[10, 11]"), (rust, "[10, 11, 9, 10]"));
    list.ask_session(&both);
}

fn second_gate(list: &mut List) {
    let mut both = Both::open(FULL);
    let (ours, rust) = both.call(&submit(Transfer { gate_enable: false, ..Transfer::plain(&ONE) }, &ONE));
    let halts = lifted::halts_tried();
    list.entry(
        "S7",
        "camera: a first submission with gate 2 shut",
        (format!("{:?}, halt {}", ours.answer, ours.halt), "Refused(14), halt false"),
        (format!("{:?}, halts tried {halts}", rust.answer), "Refused(14), halts tried 1"),
    );
    list.ask_session(&both);
}

fn two_intervals(list: &mut List) {
    let mut both = Both::open(FULL);
    both.call(&submit(Transfer::plain(&TWO), &TWO));
    both.rust.set_interval(2);
    both.call(&submit(Transfer::plain(&TWO), &TWO));
    let (ours, rust) = both.slots();
    list.entry("S1", "camera: two submissions of one session, intervals 1 and 2", (ours, "[2, 3, 4, 5]"), (rust, "[2, 3, 4, 6]"));
    list.ask_session(&both);
}

fn failed_request(list: &mut List) {
    let mut both = Both::open(FULL);
    both.call(&submit(Transfer::plain(&TWO), &TWO));
    both.call(&Call::Poll { event: Event { reported: true, unplugged: true, hcint: 0 }, ring_len: u32::MAX });
    let (ours, rust) = both.answers(&Call::Reclaim {
        id: 1,
        event: Event { reported: false, unplugged: false, hcint: 0 },
        ring_len: u32::MAX,
        results_len: 255,
    });
    list.entry(
        "S14",
        "camera: a failed request of two packets, handed out",
        (ours, "Completed { failure: Some(Disconnected), total: 0, packets: 2 }"),
        (rust, "Completed { failure: Some(Disconnected), total: 0, packets: 0 }"),
    );
    list.ask_session(&both);
}
