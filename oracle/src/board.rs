//! The board on which the lifted Rust runs: what it reads (frame numbers, gates, events, addresses) and what it wrote. One for
//! each thread, set before each call; a session keeps nothing here. The shims over it serve the benchmark too, whose board is
//! bench/src/board.rs.

use crate::shim_words::DmaDescriptor;
use core::cell::RefCell;
use std::collections::VecDeque;

#[derive(Default)]
pub struct Board {
    // read
    pub readings: VecDeque<u32>,
    pub gates: VecDeque<bool>,
    /// whether the port is connected where no gate is asked for
    pub connected: bool,
    pub channel_free: bool,
    pub event: Option<u32>,
    pub unplugged: bool,
    pub base: u64,
    pub arrays: VecDeque<u64>,
    pub odd: bool,
    // written
    pub asked: u32,
    pub disabled: u32,
    pub hcsplt: Option<u32>,
    pub hcintmsk: Option<u32>,
    pub hctsiz: Option<u32>,
    pub hcdma: Option<u32>,
    pub hcchar: Option<u32>,
    pub frames: Option<Vec<usize>>,
    pub alloc_len: usize,
    pub dropped_dirty: bool,
}

thread_local! {
    static BOARD: RefCell<Board> = RefCell::new(Board::default());
}

pub fn with_board<T>(act: impl FnOnce(&mut Board) -> T) -> T {
    BOARD.with(|b| act(&mut b.borrow_mut()))
}

pub fn set_board(board: Board) {
    with_board(|b| *b = board);
}

impl Board {
    pub fn reading(&mut self) -> u32 {
        self.readings.pop_front().expect("a reading for each look at the frame number")
    }

    /// whether the port is connected
    pub fn gate(&mut self) -> bool {
        self.asked += 1;
        self.gates.pop_front().unwrap_or(self.connected)
    }

    pub fn lends_channel(&self) -> bool {
        self.channel_free
    }

    pub fn set_frames(&mut self, frames: Option<&[usize]>) {
        self.frames = frames.map(<[usize]>::to_vec);
    }

    pub fn array(&mut self) -> DmaAddr {
        DmaAddr(self.arrays.pop_front().expect("an address for each small array"))
    }

    pub fn note_buffer(&mut self, len: usize) {
        self.alloc_len = len;
    }

    pub fn note_dropped(&mut self, descs: &[DmaDescriptor]) {
        self.dropped_dirty = descs.iter().any(|d| d.status.get() != 0 || d.paddr != 0);
    }
}

/// The bus address of a small array.
#[derive(Clone, Copy)]
pub struct DmaAddr(u64);

impl DmaAddr {
    pub fn as_u64(self) -> u64 {
        self.0
    }
}
