//! The port's C interface, from include/dwc2_port.h, and one session of it.

pub const SESSION_BYTES: usize = 8_488;
pub const RING_WORDS: usize = 512;
pub const ARRAY_WORDS: usize = 2_048;

#[repr(C)]
#[derive(Clone, Copy, Default)]
pub struct Reply {
    pub refusal: u32,
    pub taken: u32,
    pub halt: u32,
}

#[repr(C)]
#[derive(Clone, Copy)]
pub struct Transfer {
    pub base: u64,
    pub buffer_len: u32,
    pub start_reading: u32,
    pub frame_reading: u32,
    pub words: u32,
    pub kind: u8,
    pub has_buffer: u8,
    pub channel_free: u8,
    pub gate_program: u8,
    pub gate_enable: u8,
}

#[repr(C)]
#[derive(Clone, Copy)]
pub struct Submitted {
    pub value: u64,
    pub refusal: u32,
    pub cut: u32,
    pub first: u32,
    pub hcchar: u32,
    pub hctsiz: u32,
    pub hcintmsk: u32,
    pub frame_count: u32,
    pub frames: [u8; 64],
}

#[repr(C)]
#[derive(Clone, Copy)]
pub struct Reclaimed {
    pub refusal: u32,
    pub completed: u32,
    pub outcome: u32,
    pub fault: u32,
    pub word: u32,
    pub length: u32,
    pub packets: u32,
    pub taken: u32,
    pub halt: u32,
}

#[repr(C)]
#[derive(Clone, Copy)]
pub struct Number {
    pub refusal: u32,
    pub value: u32,
}

#[repr(C)]
#[derive(Clone, Copy)]
pub struct ServiceFrames {
    pub refusal: u32,
    pub count: u32,
    pub frames: [u8; 64],
}

#[repr(C)]
#[derive(Clone, Copy)]
pub struct Split {
    pub count: u64,
    pub chunk: u32,
    pub last: u32,
}

#[repr(C)]
#[derive(Clone, Copy)]
pub struct Stage {
    pub role: u32,
    pub hcchar: u32,
    pub hctsiz: u32,
    pub dma_addr: u32,
    pub desc_base: u32,
    pub descs: u32,
    pub len: u32,
}

#[repr(C)]
#[derive(Clone, Copy)]
pub struct DataRequest {
    pub base: u64,
    pub len: u64,
    pub max_packet_size: u16,
    pub kind: u8,
    pub direction: u8,
    pub port_speed: u8,
    pub device: u8,
    pub endpoint: u8,
    pub odd_frame: u8,
    pub toggle: u8,
}

#[repr(C)]
#[derive(Clone, Copy)]
pub struct DataPlan {
    pub refusal: u32,
    pub toggle: u32,
    pub count: u32,
    pub stages: [Stage; 4],
}

#[repr(C)]
#[derive(Clone, Copy)]
pub struct ControlRequest {
    pub len: u64,
    pub setup_dma: u64,
    pub data_dma: u64,
    pub status_dma: u64,
    pub max_packet_size: u16,
    pub direction: u8,
    pub device: u8,
}

#[repr(C)]
#[derive(Clone, Copy)]
pub struct ControlPlan {
    pub refusal: u32,
    pub has_data: u32,
    pub setup: Stage,
    pub data: Stage,
    pub status: Stage,
}

#[repr(C)]
#[derive(Clone, Copy)]
pub struct SetupPacket {
    pub refusal: u32,
    pub bytes: [u8; 8],
}

// SAFETY of every call: the arrays are lent with their true counts, aligned, apart from one another
unsafe extern "C" {
    pub fn dwc2_iso_open(
        session: *mut u8,
        session_len: usize,
        ring: *mut u32,
        ring_words: usize,
        speed: u8,
        direction: u8,
        mode: u8,
        interval: u16,
        max_packet_size: u16,
        endpoint: u8,
        device: u8,
        mult: u8,
    ) -> u32;
    pub fn dwc2_iso_poll(
        session: *mut u8,
        session_len: usize,
        ring: *mut u32,
        ring_words: usize,
        reported: u32,
        unplugged: u32,
        hcint: u32,
    ) -> Reply;
    pub fn dwc2_iso_reclaim(
        session: *mut u8,
        session_len: usize,
        ring: *mut u32,
        ring_words: usize,
        results: *mut u64,
        results_len: usize,
        id: u64,
        reported: u32,
        unplugged: u32,
        hcint: u32,
    ) -> Reclaimed;
    pub fn dwc2_iso_cancel(session: *mut u8, session_len: usize, id: u64) -> Reply;
    pub fn dwc2_iso_reset(session: *mut u8, session_len: usize) -> Reply;
    pub fn dwc2_iso_recover(session: *mut u8, session_len: usize, ring: *mut u32, ring_words: usize) -> Reply;
    pub fn dwc2_iso_check(session: *const u8, session_len: usize) -> u32;
    pub safe fn dwc2_setup_packet_bytes(
        kind: u8,
        recipient: u8,
        direction: u8,
        request: u8,
        value: u16,
        index: u16,
        len: u64,
    ) -> SetupPacket;
    pub safe fn dwc2_split_dma_lengths(len: u64, max_packet_size: u16) -> Split;
    pub safe fn dwc2_packet_count(len: u64, max_packet_size: u16) -> u64;
    pub safe fn dwc2_iso_ring_size(speed: u8) -> Number;
    pub safe fn dwc2_iso_max_xfer_size(speed: u8) -> Number;
    pub safe fn dwc2_gcd(a: u16, b: u16) -> u16;
    pub safe fn dwc2_iso_max_packets(interval: u16, speed: u8) -> Number;
    pub safe fn dwc2_iso_starting_frame(raw_frame: u32, speed: u8) -> Number;
    pub safe fn dwc2_frame_to_desc_idx(speed: u8, full_frame: u32) -> Number;
    pub safe fn dwc2_advance_along_grid(td_last: u16, target: u16, interval: u16, ring: u16) -> u16;
    pub safe fn dwc2_iso_schinfo(speed: u8, interval: u16) -> Number;
    pub safe fn dwc2_iso_pid(speed: u8, direction: u8, mult: u8) -> Number;
    pub safe fn dwc2_next_request_id(id: u64) -> u64;
    pub safe fn dwc2_iso_service_frames(start_full_frame: u32, interval: u16, speed: u8) -> ServiceFrames;
}

#[cfg(not(target_arch = "aarch64"))]
pub use by_value::*;

#[cfg(not(target_arch = "aarch64"))]
mod by_value {
    use super::*;

    unsafe extern "C" {
        pub fn dwc2_iso_submit(
            session: *mut u8,
            session_len: usize,
            ring: *mut u32,
            ring_words: usize,
            lengths: *const u32,
            packets: usize,
            transfer: Transfer,
        ) -> Submitted;
        pub fn dwc2_data_stages(request: DataRequest, array: *mut u32, array_words: usize) -> DataPlan;
        pub fn dwc2_build_control_plan(request: ControlRequest, array: *mut u32, array_words: usize) -> ControlPlan;
        pub fn dwc2_stage_actual_length(stage: Stage, array: *const u32, array_words: usize) -> Number;
    }
}

#[cfg(target_arch = "aarch64")]
pub use crate::port_arm::*;
