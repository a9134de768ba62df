//! The Rust's iso.rs and non_iso.rs, compiled as they stand over modelled registers. What they lean on and is not in the
//! text given stands in shim_*.rs, written from document 01: docs/DIFFERENCES.md, "Not compared", lists it.

pub mod calls;

#[cfg(lifted)]
pub const PRESENT: bool = true;
#[cfg(not(lifted))]
pub const PRESENT: bool = false;

#[cfg(lifted)]
extern crate alloc;
// the crates that the two files name are modules of this one
#[cfg(lifted)]
extern crate self as dma_api;
#[cfg(lifted)]
extern crate self as log;
#[cfg(lifted)]
extern crate self as mbarrier;
#[cfg(lifted)]
extern crate self as usb_if;

#[cfg(lifted)]
#[macro_use]
mod shim_macros;
#[cfg(lifted)]
mod backend;
#[cfg(lifted)]
mod board;
#[cfg(lifted)]
mod shim_channel;
#[cfg(lifted)]
mod shim_dma;
#[cfg(lifted)]
mod shim_regs;
#[cfg(lifted)]
mod shim_usb;
#[cfg(lifted)]
mod shim_words;

#[cfg(lifted)]
pub use shim_dma::{CoherentArray, mb};
#[cfg(lifted)]
pub use shim_macros::Level;
#[cfg(lifted)]
pub use shim_usb::{descriptor, endpoint, err, host, transfer};

#[cfg(lifted)]
mod source {
    include!(concat!(env!("OUT_DIR"), "/source_consts.rs"));
}
#[cfg(lifted)]
pub use source::{ISO_SOURCE, NON_ISO_SOURCE};
#[cfg(not(lifted))]
pub const ISO_SOURCE: &str = "iso.rs: not at hand";
#[cfg(not(lifted))]
pub const NON_ISO_SOURCE: &str = "non_iso.rs: not at hand";

#[cfg(lifted)]
mod camera;
#[cfg(lifted)]
pub use camera::{Camera, halts_tried};
#[cfg(lifted)]
pub mod sums;
#[cfg(lifted)]
pub mod transfers;
