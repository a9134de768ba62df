//! The Rust's iso.rs and non_iso.rs as they stand, over the oracle's shims and a board of the benchmark's own, as cheap as can be.

#[cfg(not(lifted))]
compile_error!("the benchmark needs the Rust sources: see oracle/README.md");

extern crate alloc;
// the crates that the two files name are modules of this one
extern crate self as dma_api;
extern crate self as log;
extern crate self as mbarrier;
extern crate self as usb_if;

#[macro_use]
#[path = "../../src/shim_macros.rs"]
mod shim_macros;
#[path = "../../src/backend.rs"]
mod backend;
mod board;
#[path = "../../src/shim_channel.rs"]
mod shim_channel;
#[path = "../../src/shim_dma.rs"]
mod shim_dma;
#[path = "../../src/shim_regs.rs"]
mod shim_regs;
#[path = "../../src/shim_usb.rs"]
mod shim_usb;
#[path = "../../src/shim_words.rs"]
mod shim_words;

pub use shim_dma::{CoherentArray, mb};
pub use shim_macros::Level;
pub use shim_usb::{descriptor, endpoint, err, host, transfer};

pub mod rust_plan;
pub mod rust_session;
pub mod rust_sums;
