//! What loads and stores go to: a single warp's data memory, or a group's two memories.

use crate::isa::{LoadKind, StoreKind};
use crate::state::Fixed;
use crate::Refusal;

/// A place is good for the memory that gave it, and for the access's size.
pub trait Memory {
    /// Where an access begins, if it lies wholly in one memory.
    fn place(&self, f: &Fixed, address: u32, size: usize) -> Result<usize, Refusal>;
    fn load(&self, kind: LoadKind, at: usize) -> u32;
    fn store(&mut self, kind: StoreKind, at: usize, value: u32);
}

/// A single warp's data memory.
impl Memory for [u8] {
    #[inline]
    fn place(&self, f: &Fixed, address: u32, size: usize) -> Result<usize, Refusal> {
        place(self, f.data_base, address, size)
    }

    // In place: as a function of its own it makes a step of loads slower by a fifth.
    #[inline(always)]
    fn load(&self, kind: LoadKind, at: usize) -> u32 {
        match kind {
            LoadKind::B => self[at] as i8 as u32,
            LoadKind::Bu => self[at].into(),
            LoadKind::H => i16::from_le_bytes([self[at], self[at + 1]]) as u32,
            LoadKind::Hu => u16::from_le_bytes([self[at], self[at + 1]]).into(),
            LoadKind::W => {
                let bytes = &self[at..at + 4];
                u32::from_le_bytes([bytes[0], bytes[1], bytes[2], bytes[3]])
            }
        }
    }

    #[inline]
    fn store(&mut self, kind: StoreKind, at: usize, value: u32) {
        match kind {
            StoreKind::B => self[at] = value as u8,
            StoreKind::H => self[at..at + 2].copy_from_slice(&(value as u16).to_le_bytes()),
            StoreKind::W => self[at..at + 4].copy_from_slice(&value.to_le_bytes()),
        }
    }
}

/// A group's memories. A place counts through both, data first.
pub struct Memories<'a> {
    pub data: &'a mut [u8],
    pub local: &'a mut [u8],
}

impl Memory for Memories<'_> {
    /// The two don't overlap, so that at most one has the whole access.
    #[inline]
    fn place(&self, f: &Fixed, address: u32, size: usize) -> Result<usize, Refusal> {
        place(self.data, f.data_base, address, size)
            .or_else(|_| place(self.local, f.lds, address, size).map(|at| self.data.len() + at))
    }

    #[inline]
    fn load(&self, kind: LoadKind, at: usize) -> u32 {
        match at.checked_sub(self.data.len()) {
            None => self.data.load(kind, at),
            Some(at) => self.local.load(kind, at),
        }
    }

    #[inline]
    fn store(&mut self, kind: StoreKind, at: usize, value: u32) {
        match at.checked_sub(self.data.len()) {
            None => self.data.store(kind, at, value),
            Some(at) => self.local.store(kind, at, value),
        }
    }
}

#[inline]
pub fn load_size(kind: LoadKind) -> usize {
    match kind {
        LoadKind::B | LoadKind::Bu => 1,
        LoadKind::H | LoadKind::Hu => 2,
        LoadKind::W => 4,
    }
}

#[inline]
pub fn store_size(kind: StoreKind) -> usize {
    match kind {
        StoreKind::B => 1,
        StoreKind::H => 2,
        StoreKind::W => 4,
    }
}

/// Where in a lent run an access begins, if it lies wholly inside.
#[inline]
pub fn place(bytes: &[u8], base: u32, address: u32, size: usize) -> Result<usize, Refusal> {
    let at = address.checked_sub(base).ok_or(Refusal::Access)? as usize;
    match bytes.len().checked_sub(size) {
        Some(last) if at <= last => Ok(at),
        _ => Err(Refusal::Access),
    }
}
