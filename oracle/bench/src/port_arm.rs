//! On Arm: the four calls that take a struct of more than 16 bytes, through oracle/bench/by_pointer.c.
#![cfg(target_arch = "aarch64")]

use crate::port::{ControlPlan, ControlRequest, DataPlan, DataRequest, Number, Stage, Submitted, Transfer};

unsafe extern "C" {
    fn bench_iso_submit(
        session: *mut u8,
        session_len: usize,
        ring: *mut u32,
        ring_words: usize,
        lengths: *const u32,
        packets: usize,
        transfer: *const Transfer,
    ) -> Submitted;
    fn bench_data_stages(request: *const DataRequest, array: *mut u32, array_words: usize) -> DataPlan;
    fn bench_build_control_plan(request: *const ControlRequest, array: *mut u32, array_words: usize) -> ControlPlan;
    fn bench_stage_actual_length(stage: *const Stage, array: *const u32, array_words: usize) -> Number;
}

/// # Safety
/// as `port::dwc2_iso_poll` and its like: arrays with their true counts
#[inline(always)]
pub unsafe fn dwc2_iso_submit(
    session: *mut u8,
    session_len: usize,
    ring: *mut u32,
    ring_words: usize,
    lengths: *const u32,
    packets: usize,
    transfer: Transfer,
) -> Submitted {
    unsafe { bench_iso_submit(session, session_len, ring, ring_words, lengths, packets, &transfer) }
}

/// # Safety
/// as above
#[inline(always)]
pub unsafe fn dwc2_data_stages(request: DataRequest, array: *mut u32, array_words: usize) -> DataPlan {
    unsafe { bench_data_stages(&request, array, array_words) }
}

/// # Safety
/// as above
#[inline(always)]
pub unsafe fn dwc2_build_control_plan(request: ControlRequest, array: *mut u32, array_words: usize) -> ControlPlan {
    unsafe { bench_build_control_plan(&request, array, array_words) }
}

/// # Safety
/// as above
#[inline(always)]
pub unsafe fn dwc2_stage_actual_length(stage: Stage, array: *const u32, array_words: usize) -> Number {
    unsafe { bench_stage_actual_length(&stage, array, array_words) }
}
