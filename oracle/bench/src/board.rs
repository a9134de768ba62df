//! The board of the benchmark: one static record of plain words in the place of the registers and of the event that the interrupt
//! handler leaves. One thread reads and writes it, so an access costs a load or a store; what no row asks for is a constant.

use crate::shim_words::DmaDescriptor;
use core::cell::UnsafeCell;

pub struct Board {
    /// reads the same each time
    pub frame: u32,
    pub event: Option<u32>,
    pub unplugged: bool,
    pub base: u64,
    pub odd: bool,
    pub disabled: u32,
    pub hcsplt: Option<u32>,
    pub hcintmsk: Option<u32>,
    pub hctsiz: Option<u32>,
    pub hcdma: Option<u32>,
    pub hcchar: Option<u32>,
    pub frames: usize,
}

struct Place(UnsafeCell<Board>);

// SAFETY: the benchmark has one thread
unsafe impl Sync for Place {}

static BOARD: Place = Place(UnsafeCell::new(Board {
    frame: 0,
    event: None,
    unplugged: false,
    base: 0,
    odd: false,
    disabled: 0,
    hcsplt: None,
    hcintmsk: None,
    hctsiz: None,
    hcdma: None,
    hcchar: None,
    frames: 0,
}));

#[inline(always)]
pub fn with_board<T>(act: impl FnOnce(&mut Board) -> T) -> T {
    // SAFETY: one thread, and no closure calls back into the board
    act(unsafe { &mut *BOARD.0.get() })
}

impl Board {
    #[inline(always)]
    pub fn reading(&self) -> u32 {
        self.frame
    }

    /// the port is connected in every row
    #[inline(always)]
    pub fn gate(&self) -> bool {
        true
    }

    #[inline(always)]
    pub fn lends_channel(&self) -> bool {
        true
    }

    #[inline(always)]
    pub fn set_frames(&mut self, frames: Option<&[usize]>) {
        self.frames = frames.map_or(0, <[usize]>::len);
    }

    #[inline(always)]
    pub fn array(&self) -> DmaAddr {
        DmaAddr
    }

    #[inline(always)]
    pub fn note_buffer(&self, _len: usize) {}

    #[inline(always)]
    pub fn note_dropped(&self, _descs: &[DmaDescriptor]) {}
}

/// the bus address of every small array
pub const SMALL_ARRAY: u64 = 0x3000;

#[derive(Clone, Copy)]
pub struct DmaAddr;

impl DmaAddr {
    #[inline(always)]
    pub fn as_u64(self) -> u64 {
        SMALL_ARRAY
    }
}
