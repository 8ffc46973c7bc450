//! The proved library and the reference behind one interface, to compare and to time them.
#![deny(unsafe_code)]

mod arguments;
pub mod kernels;
#[allow(unsafe_code)]
mod library;
mod plain;
mod warps;

pub use arguments::{number_or, usage_error};
pub use library::Linked;
pub use plain::Reference;
pub use warps::stands_for_warps;

/// All that a call may change.
#[derive(Clone, Debug, PartialEq, Eq)]
pub struct Lent {
    pub state: Vec<u32>,
    pub vector: Vec<u32>,
    pub data: Vec<u8>,
    /// A group's second memory.
    pub local: Vec<u8>,
    /// Where a run puts its count, a written sheet its size and a group's step the WID that stops
    /// it, one word, and a mark its result and a group's run its count and that WID, two words;
    /// another length is refused.
    pub words: Vec<u32>,
    /// Where a sheet is written.
    pub target: Vec<u8>,
}

/// The eleven calls, as docs/FILES.md has them.
pub trait Machine {
    fn launch(card: &[u8], kernel: &[u32], lent: &mut Lent) -> u32;
    fn step(kernel: &[u32], lent: &mut Lent) -> u32;
    fn run(kernel: &[u32], budget: u32, lent: &mut Lent) -> u32;
    fn release(state: &mut [u32]) -> u32;
    fn decode(word: u32) -> u32;
    fn mark(card: &[u8], kernel: &[u32], sheet: &[u8], lent: &mut Lent) -> u32;
    fn write_sheet(card: &[u8], kernel: &[u32], lent: &mut Lent) -> u32;
    fn group_launch(cards: &[u8], kernel: &[u32], lent: &mut Lent) -> u32;
    fn group_step(kernel: &[u32], lent: &mut Lent) -> u32;
    fn group_run(kernel: &[u32], budget: u32, lent: &mut Lent) -> u32;
    /// Of the warps that the state stands for, with one word for the WID.
    fn step_warps(kernel: &[u32], lent: &mut Lent) -> u32;
}
