//! The rows of planning and of the ring sums.

use crate::least;
use crate::port::{self, ARRAY_WORDS};
use crate::probe::Probe;
use crate::rows::{Once, Row};
use lifted::descriptor::EndpointType;
use lifted::endpoint::TransferRequest;
use lifted::host::hub::Speed;
use lifted::rust_plan::{self, Planner, SMALL_ARRAY};
use lifted::transfer::Direction;
use lifted::{rust_session, rust_sums};
use std::arch::asm;
use std::hint::black_box;

const BASE: u64 = 0x1000_0000;
/// bytes of one descriptor at packets of 512
const CHUNK: u64 = 130_560;
const MAX_PACKET_SIZE: u16 = 512;
const DEVICE: u8 = 5;
const ENDPOINT: u8 = 2;

fn sum_of(words: impl Iterator<Item = u32>) -> u64 {
    words.fold(0xcbf2_9ce4_8422_2325, |sum, word| (sum ^ u64::from(word)).wrapping_mul(0x100_0000_01b3))
}

fn rust_plan_once(probe: &mut Probe, planner: &mut Planner, request: TransferRequest) -> u64 {
    rust_session::set_board(0, BASE, None);
    let lease = planner.lease();
    // what was planned is dropped behind the timed stretch: the Rust frees it when the transfer ends
    let planned = probe.call(|| planner.plan(lease, black_box(request)));
    if !probe.compares() {
        return 0;
    }
    sum_of(planned.words().into_iter().chain(planned.programs().into_iter().flatten()))
}

fn data_request(direction: Direction, len: u64) -> port::DataRequest {
    let direction = u8::from(direction == Direction::In);
    let (max_packet_size, device, endpoint) = (MAX_PACKET_SIZE, DEVICE, ENDPOINT);
    port::DataRequest { base: BASE, len, max_packet_size, kind: 2, direction, port_speed: 0, device, endpoint, odd_frame: 0, toggle: 0 }
}

fn data_stages(request: port::DataRequest, array: &mut [u32]) -> port::DataPlan {
    // SAFETY: the array is lent with its count
    unsafe { port::dwc2_data_stages(request, array.as_mut_ptr(), array.len()) }
}

fn named(direction: Direction) -> &'static str {
    if direction == Direction::In { "IN" } else { "OUT" }
}

fn plan_row(descriptors: u64, direction: Direction) -> Row {
    let len = descriptors * CHUNK;
    let address = ENDPOINT | u8::from(direction == Direction::In) << 7;
    let mut planner = Planner::new(EndpointType::Bulk, address, DEVICE, MAX_PACKET_SIZE);
    let rust: Once = Box::new(move |probe| rust_plan_once(probe, &mut planner, rust_plan::bulk(direction, len)));
    let mut array = vec![0; ARRAY_WORDS];
    let port: Once = Box::new(move |probe| {
        let plan = probe.call(|| data_stages(black_box(data_request(direction, len)), &mut array));
        if !probe.compares() {
            return 0;
        }
        let programs = plan.stages[..plan.count as usize].iter().flat_map(|s| [s.hcchar, s.hctsiz, s.dma_addr]);
        sum_of(array[..2 * descriptors as usize].iter().copied().chain(programs))
    });
    Row { name: format!("plan {descriptors} {}", named(direction)), rust: Some(rust), port }
}

/// the setup packet too, which the Rust makes with the plan
fn control_row(direction: Direction) -> Row {
    let (len, packet) = (4_096, 64);
    let mut planner = Planner::new(EndpointType::Control, 0, DEVICE, packet);
    let rust: Once = Box::new(move |probe| rust_plan_once(probe, &mut planner, rust_plan::control(direction, len)));
    let mut array = vec![0; ARRAY_WORDS];
    let port: Once = Box::new(move |probe| {
        let way = u8::from(direction == Direction::In);
        let (setup_dma, status_dma) = (SMALL_ARRAY, SMALL_ARRAY);
        let request =
            port::ControlRequest { len, setup_dma, data_dma: BASE, status_dma, max_packet_size: packet, direction: way, device: DEVICE };
        let plan = probe.call(|| {
            black_box(port::dwc2_setup_packet_bytes(0, 0, way, 6, 0x100, 0, len));
            // SAFETY: the array is lent with its count
            unsafe { port::dwc2_build_control_plan(black_box(request), array.as_mut_ptr(), array.len()) }
        });
        let programs = [plan.setup, plan.data, plan.status].into_iter().flat_map(|s| [s.hcchar, s.hctsiz, s.dma_addr]);
        if probe.compares() { sum_of(array[..6].iter().copied().chain(programs)) } else { 0 }
    });
    Row { name: format!("plan control of 4,096 bytes {}", named(direction)), rust: Some(rust), port }
}

/// the bytes that a stage of 256 descriptors moved
fn moved_row(direction: Direction) -> Row {
    let len = 256 * CHUNK;
    let address = ENDPOINT | u8::from(direction == Direction::In) << 7;
    let mut planner = Planner::new(EndpointType::Bulk, address, DEVICE, MAX_PACKET_SIZE);
    rust_session::set_board(0, BASE, None);
    let planned = planner.plan(planner.lease(), rust_plan::bulk(direction, len));
    let rust: Once = Box::new(move |probe| probe.call(|| planned.moved(black_box(0))) as u64);
    let mut array = vec![0; ARRAY_WORDS];
    let stage = data_stages(data_request(direction, len), &mut array).stages[0];
    let port: Once = Box::new(move |probe| {
        // SAFETY: the array is lent with its count
        probe.call(|| unsafe { port::dwc2_stage_actual_length(black_box(stage), array.as_ptr(), array.len()) }).value.into()
    });
    Row { name: format!("bytes moved by 256 {}", named(direction)), rust: Some(rust), port }
}

/// Numbers for a ring sum, on both sides.
#[derive(Clone, Copy)]
struct Input {
    speed: Speed,
    number: u8,
    direction: Direction,
    to_host: u8,
    mult: u8,
    interval: u16,
    a: u16,
    b: u16,
    frame: u32,
}

const INPUTS: usize = 256;
const CALLS: usize = 1_024;

fn inputs() -> Vec<Input> {
    let mut state = 1u64;
    let mut draw = |below: u64| {
        state = state.wrapping_mul(0x5851_f42d_4c95_7f2d).wrapping_add(0x1405_7b7e_f767_814f);
        (state >> 33) % below
    };
    let input = |_| {
        let (speed, number) = [(Speed::High, 0), (Speed::Full, 1)][draw(2) as usize];
        let (direction, to_host) = [(Direction::Out, 0), (Direction::In, 1)][draw(2) as usize];
        let (mult, interval) = (1 + draw(3) as u8, 1 + draw(256) as u16);
        Input { speed, number, direction, to_host, mult, interval, a: draw(256) as u16, b: draw(256) as u16, frame: draw(1 << 14) as u32 }
    };
    (0..INPUTS).map(input).collect()
}

/// moves the code behind it by so many bytes or, where an instruction has four, by four times as many
#[inline(always)]
fn shift<const BY: usize>() {
    // SAFETY: instructions that do nothing
    unsafe { asm!(".rept {by}", "nop", ".endr", by = const BY, options(nomem, nostack, preserves_flags)) }
}

/// a thousand calls in one timed stretch, over the same inputs; each answer is looked at as it is handed back: what a caller picks out of it
/// is its own
#[inline(never)]
fn stretch<const BY: usize, T>(probe: &mut Probe, inputs: &[Input], mut call: impl FnMut(&Input) -> T) {
    probe.calls_of(CALLS as u64, || {
        shift::<BY>();
        for i in 0..CALLS {
            black_box(call(&inputs[i % INPUTS]));
        }
    });
}

/// the loop stands at four places of a cache line in turn: where it stands is a cycle of the five or six that a sum takes
fn many<T>(mut call: impl FnMut(&Input) -> T + 'static, number: impl Fn(T) -> u64 + 'static) -> Once {
    let (inputs, mut turn) = (inputs(), 0);
    Box::new(move |probe| {
        turn += 1;
        if probe.compares() {
            return (0..CALLS).fold(0, |sum: u64, i| sum.wrapping_mul(31).wrapping_add(number(call(&inputs[i % INPUTS]))));
        }
        match turn % 4 {
            0 => stretch::<0, T>(probe, &inputs, &mut call),
            1 => stretch::<16, T>(probe, &inputs, &mut call),
            2 => stretch::<32, T>(probe, &inputs, &mut call),
            _ => stretch::<48, T>(probe, &inputs, &mut call),
        }
        0
    })
}

/// the call on both sides, with the number that each's answer is compared by
fn sum<R: 'static, P: 'static>(
    name: &str,
    rust: (impl FnMut(&Input) -> R + 'static, impl Fn(R) -> u64 + 'static),
    port: (impl FnMut(&Input) -> P + 'static, impl Fn(P) -> u64 + 'static),
) -> Row {
    Row { name: name.into(), rust: Some(many(rust.0, rust.1)), port: many(port.0, port.1) }
}

fn value(n: port::Number) -> u64 {
    n.value.into()
}

fn sums() -> Vec<Row> {
    vec![
        sum("iso_ring_size", (|i| rust_sums::ring_size(i.speed), |n| n as u64), (|i| port::dwc2_iso_ring_size(i.number), value)),
        sum(
            "iso_max_xfer_size",
            (|i| rust_sums::max_xfer_size(i.speed), |n| n as u64),
            (|i| port::dwc2_iso_max_xfer_size(i.number), value),
        ),
        sum("gcd", (|i| rust_sums::gcd(i.a.into(), i.b.into()), |n| n as u64), (|i| port::dwc2_gcd(i.a, i.b), u64::from)),
        sum(
            "iso_max_packets",
            (|i| rust_sums::max_packets(i.interval.into(), i.speed), |n| n as u64),
            (|i| port::dwc2_iso_max_packets(i.interval, i.number), value),
        ),
        sum(
            "iso_starting_frame",
            (|i| rust_sums::starting_frame(i.frame, i.speed), u64::from),
            (|i| port::dwc2_iso_starting_frame(i.frame, i.number), value),
        ),
        sum(
            "frame_to_desc_idx",
            (|i| rust_sums::desc_idx(i.speed, i.frame), |n| n as u64),
            (|i| port::dwc2_frame_to_desc_idx(i.number, i.frame), value),
        ),
    ]
}

fn sums_of_rings() -> Vec<Row> {
    vec![
        sum(
            "advance_along_grid",
            (|i| rust_sums::along_grid(i.a.into(), i.b.into(), i.interval.into(), 256), |n| n as u64),
            (|i| port::dwc2_advance_along_grid(i.a, i.b, i.interval, 256), u64::from),
        ),
        sum(
            "iso_schinfo",
            (|i| rust_sums::schinfo(i.speed, i.interval.into()), u64::from),
            (|i| port::dwc2_iso_schinfo(i.number, i.interval), value),
        ),
        sum(
            "iso_pid",
            (|i| rust_sums::pid(i.speed, i.direction, i.mult), |pid| pid.number().into()),
            (|i| port::dwc2_iso_pid(i.number, i.to_host, i.mult), value),
        ),
        sum(
            "iso_service_frames",
            (|i| rust_sums::service_frames(i.frame, i.interval.into(), i.speed), |frames| frames.len() as u64),
            (|i| port::dwc2_iso_service_frames(i.frame, i.interval, i.number), |frames| frames.count.into()),
        ),
        request_numbers(),
    ]
}

/// each side draws on from 1
fn request_numbers() -> Row {
    let mut session = rust_session::RustSession::open(ENDPOINT, DEVICE, MAX_PACKET_SIZE);
    let mut next = 1;
    let drawn = move |_: &Input| {
        let id = next;
        next = port::dwc2_next_request_id(id);
        id
    };
    sum("next request number", (move |_: &Input| session.draw(), |id| id), (drawn, |id| id))
}

fn port_setup(i: &Input) -> port::SetupPacket {
    port::dwc2_setup_packet_bytes(0, 0, i.to_host, 6, 0x100, 0, i.a.into())
}

fn setup_packets() -> Row {
    let setup = rust_plan::SETUP;
    let rust = move |i: &Input| rust_plan::setup_bytes(black_box(&setup), i.direction, i.a.into());
    sum("setup_packet_bytes", (rust, u64::from_le_bytes), (port_setup, |packet: port::SetupPacket| u64::from_le_bytes(packet.bytes)))
}

/// in the place of the Rust's the least by the port's numbers
pub fn least_setup_packets() -> Row {
    let least = |i: &Input| least::setup_packet(0, 0, i.to_host, 6, 0x100, 0, i.a.into());
    sum("least setup_packet_bytes", (least, |_| 0), (port_setup, |_| 0))
}

fn splits() -> Vec<Row> {
    let len = |i: &Input| u64::from(i.frame) << 8;
    vec![
        sum(
            "packet_count",
            (move |i: &Input| rust_plan::packets(len(i) as usize, i.a), |n| n.into()),
            (move |i: &Input| port::dwc2_packet_count(len(i), i.a), |n| n),
        ),
        sum(
            "split_dma_lengths",
            (move |i: &Input| rust_plan::split(len(i) as usize, i.a), |parts| parts.len() as u64),
            (move |i: &Input| port::dwc2_split_dma_lengths(len(i), i.a), |parts| parts.count),
        ),
        setup_packets(),
    ]
}

pub fn rows() -> Vec<Row> {
    let mut rows = Vec::new();
    for descriptors in [1, 256, 1_024] {
        rows.extend([plan_row(descriptors, Direction::In), plan_row(descriptors, Direction::Out)]);
    }
    rows.extend([control_row(Direction::In), control_row(Direction::Out), moved_row(Direction::In), moved_row(Direction::Out)]);
    rows.extend(splits());
    rows.extend(sums());
    rows.extend(sums_of_rings());
    rows
}
