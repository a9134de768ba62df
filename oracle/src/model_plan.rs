//! Document 01, "Planning transfers", once more, in Rust.

use crate::model::{Hcchar, chain_status, hctsiz, is_beyond};
use crate::slips::{Slip, slip};
use lifted::calls::*;

const MIN_WORDS: usize = 2_048;
const STAGE_DESCS: usize = 256;
const MAX_DESCS: u64 = 1_024;

/// "The chunk is the largest multiple of m not above 131,071 − (m − 1)."
pub fn chunk(m: u64) -> u64 {
    if slip(Slip::ChunkWhole) {
        return 131_071;
    }
    let most = 131_071 - (m - 1);
    most - most % m
}

/// "Full chunks come first and the last is never empty; length 0 is one chunk of 0." As a count, a chunk and the last length.
pub fn split(len: u64, packet: u16) -> (u64, u64, u64) {
    let chunk = chunk(u64::from(packet).max(1));
    if len == 0 {
        return (1, chunk, 0);
    }
    let full = (len - 1) / chunk;
    (full + 1, chunk, len - full * chunk)
}

/// "A stage of b bytes is max(1, ceil(b/m)) packets"
pub fn packets(bytes: u64, packet: u16) -> u64 {
    let m = u64::from(packet).max(1);
    let whole = bytes / m + u64::from(bytes % m > 0);
    if slip(Slip::ZeroNoPacket) { whole } else { whole.max(1) }
}

/// "IN counts are rounded up to whole packets, zero to one packet."
pub fn rounded(len: u64, m: u64, direction: Direction) -> u64 {
    if direction == Direction::Out || slip(Slip::InUnrounded) {
        return len;
    }
    let whole = if len % m == 0 { len } else { len.saturating_add(m - len % m) };
    whole.max(m)
}

fn is_bad(endpoint: u8, device: u8, packet: u16) -> bool {
    endpoint > 15 || device > 127 || packet > 2_047
}

fn data_pid(toggle: bool) -> Pid {
    if toggle { Pid::Data1 } else { Pid::Data0 }
}

/// writes the chain of a stage from descriptor `stage.desc_base` on
fn write_stage(stage: &Stage, lengths: &[u64], m: u64, direction: Direction, array: &mut [u32]) {
    let mut address = stage.dma_addr;
    let place = if slip(Slip::StagePlace) { 0 } else { 2 * stage.desc_base as usize };
    for (i, length) in lengths.iter().enumerate() {
        let status = if stage.role == Role::ControlSetup {
            0x8700_0008
        } else {
            chain_status((rounded(*length, m, direction) as u32) & 0x1_ffff, i + 1 == lengths.len())
        };
        array[place + 2 * i] = status;
        array[place + 2 * i + 1] = address;
        address = address.wrapping_add(*length as u32);
    }
}

fn blank(number: u16, toggle: bool) -> Plan {
    Plan { number, toggle, stages: Vec::new() }
}

fn data_hcchar(r: &DataRequest, packet: u16) -> u32 {
    let hcchar = Hcchar {
        packet,
        endpoint: r.endpoint,
        direction: r.direction,
        low: r.speed == Speed::Low,
        kind: if r.kind == DataKind::Bulk { 2 } else { 3 },
        mult: 1,
        device: r.device,
        // "The odd-frame bit of an interrupt stage is an input."
        odd: r.kind == DataKind::Interrupt && r.odd_frame,
    };
    hcchar.word()
}

pub fn data_plan(r: &DataRequest, array: &mut [u32]) -> Plan {
    let m = u64::from(r.max_packet_size).max(1);
    let (count, chunk, last) = split(r.len, r.max_packet_size);
    // "Planning checks 17, 18, 19, 20, 11."
    let tests = [
        (17, array.len() < MIN_WORDS),
        (18, is_bad(r.endpoint, r.device, r.max_packet_size)),
        (20, count > MAX_DESCS),
        (11, is_beyond(r.base, rounded(r.len, m, r.direction)) && !slip(Slip::AddressNone)),
    ];
    if let Some((number, _)) = tests.iter().find(|(_, holds)| *holds) {
        return blank(*number, r.toggle);
    }
    let mut lengths = vec![chunk; count as usize - 1];
    lengths.push(last);
    let mut plan = blank(0, r.toggle);
    let mut address = r.base;
    for (i, group) in lengths.chunks(STAGE_DESCS).enumerate() {
        let bytes: u64 = group.iter().sum();
        let stage = Stage {
            role: Role::Data,
            hcchar: data_hcchar(r, m as u16),
            hctsiz: hctsiz(data_pid(plan.toggle), group.len() as u32, 0),
            dma_addr: if slip(Slip::StageOffset) { r.base as u32 } else { address as u32 },
            desc_base: (i * STAGE_DESCS) as u32,
            descs: group.len() as u32,
            len: bytes as u32,
        };
        write_stage(&stage, group, m, r.direction, array);
        plan.stages.push(stage);
        address = address.wrapping_add(bytes);
        // "the toggle flips when that is odd"
        if packets(bytes, m as u16) % 2 == 1 && !slip(Slip::ToggleStuck) {
            plan.toggle = !plan.toggle;
        }
    }
    plan
}

fn opposite(direction: Direction) -> Direction {
    if direction == Direction::In { Direction::Out } else { Direction::In }
}

/// "status is DATA1 and opposite to the data, IN when there is none"
fn status_direction(r: &ControlRequest) -> Direction {
    match (r.len > 0, slip(Slip::StatusSame)) {
        (false, _) => Direction::In,
        (true, false) => opposite(r.direction),
        (true, true) => r.direction,
    }
}

fn control_refusal(r: &ControlRequest, m: u64, status: Direction, words: usize) -> Option<u16> {
    // "and likewise for the setup address plus 8 and a used status address plus m; control without data tests no base"
    let beyond = is_beyond(r.setup_dma, 8)
        || r.len > 0 && is_beyond(r.data_dma, rounded(r.len, m, r.direction))
        || status == Direction::In && is_beyond(r.status_dma, m);
    let tests = [
        (17, words < MIN_WORDS),
        (18, is_bad(0, r.device, r.max_packet_size)),
        (19, r.len > 65_535 && !slip(Slip::ControlUnchecked)),
        (11, beyond && !slip(Slip::AddressNone)),
    ];
    tests.iter().find(|(_, holds)| *holds).map(|(number, _)| *number)
}

/// The stages of a control transfer, in the order in which they run; the toggle is not used.
pub fn control_plan(r: &ControlRequest, array: &mut [u32]) -> Plan {
    // "raised to 1 (control: 8 ..)"
    let m = u64::from(r.max_packet_size).max(8);
    let status = status_direction(r);
    if let Some(number) = control_refusal(r, m, status, array.len()) {
        return blank(number, false);
    }
    let hcchar = |direction| {
        let low = slip(Slip::LowControl) && r.device == 1;
        Hcchar { packet: m as u16, endpoint: 0, direction, low, kind: 0, mult: 1, device: r.device, odd: false }.word()
    };
    let mut plan = blank(0, false);
    let mut add = |role, direction, pid, address: u64, len: u64| {
        let stage = Stage {
            role,
            hcchar: hcchar(direction),
            hctsiz: hctsiz(pid, 1, 0),
            dma_addr: address as u32,
            desc_base: plan.stages.len() as u32,
            descs: 1,
            len: len as u32,
        };
        write_stage(&stage, &[len], m, direction, array);
        plan.stages.push(stage);
    };
    add(Role::ControlSetup, Direction::Out, Pid::Setup, r.setup_dma, 8);
    if r.len > 0 {
        // "Control data starts at DATA1"
        add(Role::ControlData, r.direction, if slip(Slip::ControlData0) { Pid::Data0 } else { Pid::Data1 }, r.data_dma, r.len);
    }
    // "a status OUT uses the setup address"
    let address = if status == Direction::Out && !slip(Slip::StatusAddress) { r.setup_dma } else { r.status_dma };
    add(Role::ControlStatus, status, Pid::Data1, address, 0);
    plan
}

/// The bytes that a stage moved: OUT what was planned, IN for each descriptor what was asked for less what remains, within 0 and
/// its length. A stage that no planner makes is refused with 18 (DECISIONS 22).
pub fn moved(stage: &Stage, array: &[u32]) -> Result<u32, u16> {
    let m = u64::from(stage.hcchar & 0x7ff);
    if array.len() < MIN_WORDS {
        return Err(17);
    }
    if m == 0 || stage.descs > 256 {
        return Err(18);
    }
    let (count, chunk, last) = split(stage.len.into(), m as u16);
    let end = u64::from(stage.desc_base) + u64::from(stage.descs);
    if end > MAX_DESCS || u64::from(stage.descs) != count {
        return Err(18);
    }
    if stage.hcchar & 1 << 15 == 0 {
        return Ok(stage.len);
    }
    let total: u64 = (0..count)
        .map(|i| {
            let asked = if i + 1 == count { last } else { chunk };
            let remaining = u64::from(array[2 * (u64::from(stage.desc_base) + i) as usize] & 0x1_ffff);
            let came = rounded(asked, m, Direction::In).saturating_sub(remaining);
            if slip(Slip::MovedOver) { came } else { came.min(asked) }
        })
        .sum();
    Ok(total as u32)
}

/// USB 2.0, table 9-2; 19 for a length over 65,535
pub fn setup_packet(fields: &SetupFields, direction: Direction, len: u64) -> Result<[u8; 8], u16> {
    if len > 65_535 && !slip(Slip::ControlUnchecked) {
        return Err(19);
    }
    let kind = fields.recipient + 32 * fields.kind + if direction == Direction::In { 128 } else { 0 };
    let low = |word: u64| (word % 256) as u8;
    let high = |word: u64| (word / 256 % 256) as u8;
    let (value, index) = (fields.value.into(), fields.index.into());
    Ok([kind, fields.request, low(value), high(value), low(index), high(index), low(len), high(len)])
}
