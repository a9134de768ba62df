//! Counts what the port copies. In a copy of the archive the names memcpy and memset are these two (`./bench --docs` makes it); with
//! the archive as it is, nothing calls them.

use std::sync::atomic::{AtomicU64, Ordering::Relaxed};

static CALLS: AtomicU64 = AtomicU64::new(0);
static BYTES: AtomicU64 = AtomicU64::new(0);

fn note(count: usize) {
    CALLS.fetch_add(1, Relaxed);
    BYTES.fetch_add(count as u64, Relaxed);
}

/// # Safety
/// as memcpy
#[unsafe(no_mangle)]
pub unsafe extern "C" fn counted_memcpy(to: *mut u8, from: *const u8, count: usize) -> *mut u8 {
    note(count);
    unsafe { std::ptr::copy_nonoverlapping(from, to, count) };
    to
}

/// # Safety
/// as memset
#[unsafe(no_mangle)]
pub unsafe extern "C" fn counted_memset(to: *mut u8, byte: i32, count: usize) -> *mut u8 {
    note(count);
    unsafe { std::ptr::write_bytes(to, byte as u8, count) };
    to
}

/// calls and bytes so far
pub fn so_far() -> (u64, u64) {
    (CALLS.load(Relaxed), BYTES.load(Relaxed))
}
