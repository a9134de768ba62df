//! Modelled registers: a write is noted on the board, a reading comes from it.

use crate::board::with_board;
use core::ops::BitAnd;

pub const HCINT_XFERCOMPL: u32 = 1 << 0;
pub const HCINT_CHHLTD: u32 = 1 << 1;
pub const HCINT_AHBERR: u32 = 1 << 2;
pub const HCINT_XACTERR: u32 = 1 << 7;
pub const HCINT_BBLERR: u32 = 1 << 8;
pub const HCINT_FRMOVRN: u32 = 1 << 9;
pub const HCCHAR_EPDIR: u32 = 1 << 15;
pub const DWC2_DMA_ALIGN: usize = 512;
pub const DWC2_MAX_DMA_DESCS: usize = 256;
pub const DWC2_STATUS_BUF_SIZE: usize = 64;

/// 01: "Unplugging is a yes/no beside the word." The Rust has it as a bit of the word, whose place is not in the text
/// given; here the test of that bit reads the yes/no, so that all 32 bits of the word can be anything.
pub struct Unplugged;
pub const DWC2_COMPLETION_DISCONNECTED: Unplugged = Unplugged;

impl BitAnd<Unplugged> for u32 {
    type Output = u32;

    fn bitand(self, _: Unplugged) -> u32 {
        u32::from(with_board(|b| b.unplugged))
    }
}

#[derive(Clone, Copy)]
pub struct Dwc2Registers;

pub struct ChannelRegisters;

impl Dwc2Registers {
    pub fn frame_number(&self) -> u32 {
        with_board(|b| b.reading())
    }

    pub fn periodic_odd_frame_bit(&self) -> u32 {
        with_board(|b| u32::from(b.odd) << 29)
    }

    pub fn channel(&self, _channel: u8) -> ChannelRegisters {
        ChannelRegisters
    }
}

impl ChannelRegisters {
    pub fn set_hcsplt(&self, word: u32) {
        with_board(|b| b.hcsplt = Some(word));
    }

    pub fn clear_all_irqs(&self) {}

    pub fn enable_irqs(&self) {}

    pub fn set_hcintmsk(&self, word: u32) {
        with_board(|b| b.hcintmsk = Some(word));
    }

    pub fn set_hctsiz(&self, word: u32) {
        with_board(|b| b.hctsiz = Some(word));
    }

    pub fn set_hcdma(&self, word: u32) {
        with_board(|b| b.hcdma = Some(word));
    }

    pub fn enable(&self, hcchar: u32) {
        with_board(|b| b.hcchar = Some(hcchar));
    }

    pub fn disable(&self) {
        with_board(|b| b.disabled += 1);
    }

    pub fn is_enabled(&self) -> bool {
        false
    }
}
