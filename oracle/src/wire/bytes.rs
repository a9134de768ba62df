//! The numbers of a request and of an answer, little-endian, one behind the other.

use crate::layout::Bytes;
use lifted::calls::Event;

/// Bytes to which numbers are added.
#[derive(Default, Clone, Debug, PartialEq, Eq)]
pub struct Out(pub Vec<u8>);

impl Out {
    pub fn u8(&mut self, n: u8) -> &mut Out {
        self.0.push(n);
        self
    }
    pub fn u16(&mut self, n: u16) -> &mut Out {
        self.0.extend(n.to_le_bytes());
        self
    }
    pub fn u32(&mut self, n: u32) -> &mut Out {
        self.0.extend(n.to_le_bytes());
        self
    }
    pub fn u64(&mut self, n: u64) -> &mut Out {
        self.0.extend(n.to_le_bytes());
        self
    }
    pub fn all(&mut self, bytes: &[u8]) -> &mut Out {
        self.0.extend(bytes);
        self
    }
}

/// Bytes from which numbers are taken.
pub(super) struct In<'a> {
    pub(super) bytes: &'a [u8],
    pub(super) at: usize,
}

impl In<'_> {
    pub(super) fn u8(&mut self) -> u8 {
        self.at += 1;
        self.bytes[self.at - 1]
    }
    pub(super) fn u16(&mut self) -> u16 {
        self.at += 2;
        Bytes(self.bytes).u16(self.at - 2)
    }
    pub(super) fn u32(&mut self) -> u32 {
        self.at += 4;
        Bytes(self.bytes).u32(self.at - 4)
    }
    pub(super) fn u64(&mut self) -> u64 {
        self.at += 8;
        Bytes(self.bytes).u64(self.at - 8)
    }
    pub(super) fn size(&mut self) -> usize {
        self.u32() as usize
    }
    pub(super) fn event(&mut self) -> Event {
        Event { reported: self.u32() != 0, unplugged: self.u32() != 0, hcint: self.u32() }
    }
}
