//! Memory for DMA. The descriptors and the small arrays are allocated, as the Rust does; the data is not. Addresses are handed in.

use crate::{
    board::{DmaAddr, with_board},
    endpoint::TransferBuffer,
    err::TransferError,
    shim_words::DmaDescriptor,
    transfer::Direction,
};
use core::cell::UnsafeCell;

#[derive(Clone)]
pub struct Kernel;

pub struct CoherentArray<T> {
    pub content: Vec<T>,
    address: DmaAddr,
}

impl<T> CoherentArray<T> {
    pub fn write_with_cpu(&mut self, len: usize, write: impl FnOnce(&mut [T])) {
        write(&mut self.content[..len]);
    }

    pub fn dma_addr(&self) -> DmaAddr {
        self.address
    }
}

impl Kernel {
    pub fn coherent_array_zero_with_align<T: Clone + Default>(&self, len: usize, _align: usize) -> Result<CoherentArray<T>, String> {
        Ok(CoherentArray { content: vec![T::default(); len], address: with_board(|b| b.array()) })
    }
}

pub fn mb() {}

/// The descriptors that the controller shares. Each session has at most one ring, so the cell is never lent twice.
pub struct DmaDescriptors {
    cells: UnsafeCell<Vec<DmaDescriptor>>,
}

impl DmaDescriptors {
    pub fn new(_kernel: &Kernel, count: usize, _align: usize) -> Result<DmaDescriptors, String> {
        Ok(DmaDescriptors { cells: UnsafeCell::new(vec![DmaDescriptor { status: 0.into(), paddr: 0 }; count]) })
    }

    pub fn dma_addr(&self) -> u32 {
        0x1000
    }

    #[inline(always)]
    pub fn write_descs(&self, index: usize, descs: &[DmaDescriptor]) {
        // SAFETY: one thread, and no slice handed out by `read_descs` lives across a write
        let cells = unsafe { &mut *self.cells.get() };
        cells[index..index + descs.len()].clone_from_slice(descs);
    }

    #[inline(always)]
    pub fn read_descs(&self, index: usize, count: usize) -> &[DmaDescriptor] {
        // SAFETY: as above
        let cells = unsafe { &*self.cells.get() };
        &cells[index..index + count]
    }

    #[inline(always)]
    pub fn clear(&self, index: usize) {
        self.write_descs(index, &[DmaDescriptor { status: 0.into(), paddr: 0 }]);
    }

    pub fn clear_all(&self) {
        // SAFETY: as above
        unsafe { &mut *self.cells.get() }.fill(DmaDescriptor { status: 0.into(), paddr: 0 });
    }

    pub fn read_all(&self) -> &[DmaDescriptor] {
        // SAFETY: as above
        unsafe { &*self.cells.get() }
    }
}

impl Drop for DmaDescriptors {
    fn drop(&mut self) {
        with_board(|b| b.note_dropped(self.cells.get_mut()));
    }
}

#[derive(Default)]
pub struct Dwc2DmaBufferPool;

impl Dwc2DmaBufferPool {
    pub fn reclaim(&mut self, _buffer: Dwc2DmaBuffer) {}
}

pub struct Dwc2DmaBuffer {
    address: u64,
    len: usize,
}

impl Dwc2DmaBuffer {
    pub fn new(
        _kernel: &Kernel,
        _pool: &mut Dwc2DmaBufferPool,
        _stats: &crate::shim_channel::Dwc2Stats,
        buffer: Option<TransferBuffer>,
        _direction: Direction,
        alloc_len: usize,
    ) -> Result<Dwc2DmaBuffer, TransferError> {
        with_board(|b| b.note_buffer(alloc_len));
        Ok(Dwc2DmaBuffer { address: with_board(|b| b.base), len: buffer.map_or(0, |b| b.len) })
    }

    pub fn dma_addr(&self) -> u64 {
        self.address
    }

    pub fn buffer_len(&self) -> usize {
        self.len
    }

    pub fn copy_in_to_request(&self, _len: usize) -> Result<(), TransferError> {
        Ok(())
    }
}
