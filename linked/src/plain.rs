//! The reference behind the eleven calls.

use crate::{Lent, Machine};
use reference::{group, isa, saved, sheet, Refusal};

/// The interpreter of `reference/`.
pub struct Reference;

impl Machine for Reference {
    fn launch(card: &[u8], kernel: &[u32], lent: &mut Lent) -> u32 {
        saved::launch(card, kernel, &mut lent.vector, &lent.data, &mut lent.state)
    }

    fn step(kernel: &[u32], lent: &mut Lent) -> u32 {
        saved::step(&mut lent.state, kernel, &mut lent.vector, &mut lent.data)
    }

    fn run(kernel: &[u32], budget: u32, lent: &mut Lent) -> u32 {
        let Lent { state, vector, data, words, .. } = lent;
        if words.len() != 1 {
            return Refusal::Size.number();
        }
        let (code, taken) = saved::run(state, kernel, vector, data, budget);
        words[0] = taken;
        code
    }

    fn release(state: &mut [u32]) -> u32 {
        saved::release(state)
    }

    fn decode(word: u32) -> u32 {
        isa::decode(word).map_or(Refusal::NoInstruction.number(), |_| 0)
    }

    fn mark(card: &[u8], kernel: &[u32], sheet: &[u8], lent: &mut Lent) -> u32 {
        let Lent { vector, data, words, .. } = lent;
        sheet::bench_mark(card, kernel, vector, data, sheet, words)
    }

    fn write_sheet(card: &[u8], kernel: &[u32], lent: &mut Lent) -> u32 {
        let Lent { vector, data, words, target, .. } = lent;
        sheet::bench_sheet(card, kernel, vector, data, target, words)
    }

    fn group_launch(cards: &[u8], kernel: &[u32], lent: &mut Lent) -> u32 {
        let Lent { state, vector, data, local, .. } = lent;
        group::launch(cards, kernel, vector, data, local, state)
    }

    fn group_step(kernel: &[u32], lent: &mut Lent) -> u32 {
        let Lent { state, vector, data, local, words, .. } = lent;
        group::step(state, kernel, vector, data, local, words)
    }

    fn group_run(kernel: &[u32], budget: u32, lent: &mut Lent) -> u32 {
        let Lent { state, vector, data, local, words, .. } = lent;
        group::run(state, kernel, vector, data, local, budget, words)
    }

    fn step_warps(kernel: &[u32], lent: &mut Lent) -> u32 {
        Self::group_step(kernel, lent)
    }
}
