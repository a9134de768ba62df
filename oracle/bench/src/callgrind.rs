//! Callgrind's requests, as its manual gives them for x86-64: outside callgrind they do nothing.

const TOGGLE_COLLECT: u64 = 0x4354_0002;
const DUMP_STATS_AT: u64 = 0x4354_0003;

#[inline(always)]
fn request(code: u64, argument: u64) {
    let words = [code, argument, 0, 0, 0, 0];
    #[cfg(target_arch = "x86_64")]
    // SAFETY: four rotations by 128 in all and an exchange of a register with itself: nothing is changed
    unsafe {
        core::arch::asm!(
            "rol rdi, 3", "rol rdi, 13", "rol rdi, 61", "rol rdi, 51", "xchg rbx, rbx",
            in("rax") &words, inout("rdx") 0u64 => _,
        );
    }
    #[cfg(not(target_arch = "x86_64"))]
    let _ = words;
}

#[inline(always)]
pub fn toggle() {
    request(TOGGLE_COLLECT, 0);
}

/// writes what was collected since the last time, under a name
pub fn dump(name: &str) {
    let name = std::ffi::CString::new(name).expect("a name without zeros");
    request(DUMP_STATS_AT, name.as_ptr() as u64);
}
