//! Warps as `bench_step_warps` has them, and a saved group's words. Nothing checks these structs
//! against src/lib.rt of crates warp, isa and group_row.

use reference::isa::SCALARS;
use reference::saved::{FIXED_AT, OPEN_AT, SPLITS_AT, WORDS};
use reference::state::SPLITS;

const SPLIT_WORDS: usize = (OPEN_AT - SPLITS_AT) / SPLITS;

#[derive(Clone, Copy, Default)]
#[repr(C)]
struct Split {
    rpc: u32,
    full: u32,
    else_mask: u32,
    else_pc: u32,
    phase_two: bool,
}

/// A struct of words alone is laid out as their array.
#[repr(C)]
pub struct Warp {
    x: [u32; SCALARS],
    splits: [Split; SPLITS],
    depth: usize,
    pc: u32,
    mask: u32,
    rpc: u32,
    print: u32,
    ended: bool,
    waiting: bool,
    prefix: [u32; 2],
    fixed: [u32; WORDS - FIXED_AT],
}

/// How a step ended.
#[repr(C)]
pub struct Stepped {
    pub code: u32,
    pub stopped: u32,
    pub turn: u32,
}

/// Whether the words are a turn and warps.
pub fn stands_for_warps(state: &[u32]) -> bool {
    state.get(1..).and_then(warps_of).is_some()
}

/// None for another length, or where one has no struct.
pub fn warps_of(words: &[u32]) -> Option<Vec<Warp>> {
    let each = words.chunks_exact(WORDS);
    if !each.remainder().is_empty() {
        return None;
    }
    each.map(Warp::of).collect()
}

pub fn save(warps: &[Warp], words: &mut [u32]) {
    words.chunks_exact_mut(WORDS).zip(warps).for_each(|(words, warp)| warp.save(words));
}

/// No struct has a flag or a phase that is neither 0 nor 1.
fn flag(word: u32) -> Option<bool> {
    [false, true].get(word as usize).copied()
}

impl Warp {
    fn of(words: &[u32]) -> Option<Warp> {
        let moving: [u32; FIXED_AT - OPEN_AT] = words[OPEN_AT..FIXED_AT].try_into().ok()?;
        let [depth, pc, mask, rpc, print, ended, waiting, kind, bits] = moving;
        let mut splits = [Split::default(); SPLITS];
        for (s, w) in splits.iter_mut().zip(words[SPLITS_AT..OPEN_AT].chunks_exact(SPLIT_WORDS)) {
            let phase_two = flag(w[4])?;
            *s = Split { rpc: w[0], full: w[1], else_mask: w[2], else_pc: w[3], phase_two };
        }
        Some(Warp {
            x: words[..SPLITS_AT].try_into().ok()?,
            splits,
            depth: depth as usize,
            pc,
            mask,
            rpc,
            print,
            ended: flag(ended)?,
            waiting: flag(waiting)?,
            prefix: [kind, bits],
            fixed: words[FIXED_AT..].try_into().ok()?,
        })
    }

    fn save(&self, words: &mut [u32]) {
        words[..SPLITS_AT].copy_from_slice(&self.x);
        let places = words[SPLITS_AT..OPEN_AT].chunks_exact_mut(SPLIT_WORDS);
        for (place, s) in places.zip(&self.splits) {
            place.copy_from_slice(&[s.rpc, s.full, s.else_mask, s.else_pc, s.phase_two.into()]);
        }
        words[OPEN_AT..FIXED_AT].copy_from_slice(&[
            self.depth.try_into().expect("a depth that came from a word"),
            self.pc,
            self.mask,
            self.rpc,
            self.print,
            self.ended.into(),
            self.waiting.into(),
            self.prefix[0],
            self.prefix[1],
        ]);
        words[FIXED_AT..].copy_from_slice(&self.fixed);
    }
}
