//! A warp as 241 words (the layout is in CASES-FORMAT.md), and the calls over them.

use crate::isa::{Prefix, SCALARS};
use crate::state::{Fixed, Split, Warp, SPLITS};
use crate::{card, code, run, Refusal};

pub const WORDS: usize = 241;

const SPLIT_WORDS: usize = 5;
pub const SPLITS_AT: usize = SCALARS;
pub const OPEN_AT: usize = SPLITS_AT + SPLIT_WORDS * SPLITS;
pub const PC_AT: usize = OPEN_AT + 1;
pub const MASK_AT: usize = OPEN_AT + 2;
const RPC_AT: usize = OPEN_AT + 3;
const PRINT_AT: usize = OPEN_AT + 4;
pub const ENDED_AT: usize = OPEN_AT + 5;
pub const WAITING_AT: usize = OPEN_AT + 6;
/// The kind of the pending prefix, and then its bits.
pub const PREFIX_AT: usize = OPEN_AT + 7;
pub const FIXED_AT: usize = OPEN_AT + 9;
/// The values that the warps of a group share, and the one that tells them apart.
pub const NUMT_AT: usize = FIXED_AT;
pub const NUMW_AT: usize = FIXED_AT + 1;
pub const WID_AT: usize = FIXED_AT + 2;
pub const CODE_BASE_AT: usize = FIXED_AT + 4;
pub const DATA_BASE_AT: usize = FIXED_AT + 5;
pub const LDS_AT: usize = FIXED_AT + 8;

pub fn to_words(warp: &Warp) -> [u32; WORDS] {
    let mut words = [0; WORDS];
    words[..SPLITS_AT].copy_from_slice(&warp.x);
    for (place, s) in words[SPLITS_AT..OPEN_AT].chunks_exact_mut(SPLIT_WORDS).zip(&warp.splits) {
        place.copy_from_slice(&[s.rpc, s.full, s.else_mask, s.else_pc, s.phase_two.into()]);
    }
    let f = &warp.fixed;
    let prefix_kind = match warp.prefix {
        Prefix::None => 0,
        Prefix::RegExt(_) => 1,
        Prefix::RegExtI(_) => 2,
    };
    words[OPEN_AT..].copy_from_slice(&[
        warp.depth,
        warp.pc,
        warp.mask,
        warp.rpc,
        warp.print,
        warp.ended.into(),
        warp.waiting.into(),
        prefix_kind,
        warp.prefix.bits(),
        f.numt,
        f.numw,
        f.wid,
        f.mask,
        f.code_base,
        f.data_base,
        f.knl,
        f.wgid,
        f.lds,
        f.pds,
        f.gidx,
        f.gidy,
        f.gidz,
    ]);
    words
}

/// Read 241 words: another length is 1; a flag or phase that is neither 0
/// nor 1, more than 31 open, or a prefix of no kind, is 2. Nothing else is
/// tested here.
pub fn from_words(words: &[u32]) -> Result<Warp, Refusal> {
    let words: &[u32; WORDS] = words.try_into().map_err(|_| Refusal::Size)?;
    if words[OPEN_AT] as usize > SPLITS {
        return Err(Refusal::IllFormed);
    }
    let mut x = [0; SCALARS];
    x.copy_from_slice(&words[..SPLITS_AT]);
    Ok(Warp {
        x,
        splits: splits_of(words)?,
        depth: words[OPEN_AT],
        pc: words[PC_AT],
        mask: words[MASK_AT],
        rpc: words[RPC_AT],
        print: words[PRINT_AT],
        ended: flag(words[ENDED_AT])?,
        waiting: flag(words[WAITING_AT])?,
        prefix: prefix_of(words[PREFIX_AT], words[PREFIX_AT + 1])?,
        fixed: fixed_of(words),
    })
}

fn flag(word: u32) -> Result<bool, Refusal> {
    match word {
        0 => Ok(false),
        1 => Ok(true),
        _ => Err(Refusal::IllFormed),
    }
}

/// No prefix has no bits.
fn prefix_of(kind: u32, bits: u32) -> Result<Prefix, Refusal> {
    match (kind, bits) {
        (0, 0) => Ok(Prefix::None),
        (1, _) => Ok(Prefix::RegExt(bits)),
        (2, _) => Ok(Prefix::RegExtI(bits)),
        _ => Err(Refusal::IllFormed),
    }
}

fn splits_of(words: &[u32; WORDS]) -> Result<[Split; SPLITS], Refusal> {
    let mut splits = [Split::default(); SPLITS];
    for (split, w) in splits.iter_mut().zip(words[SPLITS_AT..OPEN_AT].chunks_exact(SPLIT_WORDS)) {
        *split =
            Split { rpc: w[0], full: w[1], else_mask: w[2], else_pc: w[3], phase_two: flag(w[4])? };
    }
    Ok(splits)
}

/// The launch values among a warp's 241 words.
pub(crate) fn fixed_of(words: &[u32]) -> Fixed {
    Fixed {
        numt: words[FIXED_AT],
        numw: words[FIXED_AT + 1],
        wid: words[FIXED_AT + 2],
        mask: words[FIXED_AT + 3],
        code_base: words[CODE_BASE_AT],
        data_base: words[DATA_BASE_AT],
        knl: words[FIXED_AT + 6],
        wgid: words[FIXED_AT + 7],
        lds: words[FIXED_AT + 8],
        pds: words[FIXED_AT + 9],
        gidx: words[FIXED_AT + 10],
        gidy: words[FIXED_AT + 11],
        gidz: words[FIXED_AT + 12],
    }
}

/// Launch from a card into the place of a state: 13 or 1 for the card, then 1
/// for any lent run (the state's own first, which is then left as it was).
pub fn launch(
    card: &[u8],
    kernel: &[u32],
    vector: &mut [u32],
    data: &[u8],
    state: &mut [u32],
) -> u32 {
    let whole = state.len() == WORDS;
    let (code, warp) = match card::read(card) {
        Err(refusal) => (refusal.number(), Warp::default()),
        Ok(_) if !whole => (Refusal::Size.number(), Warp::default()),
        Ok(launch) => run::launch(&launch, kernel, vector, data),
    };
    if whole {
        state.copy_from_slice(&to_words(&warp));
    }
    code
}

/// Run a saved state in place: 1 for any lent run (the state's own among
/// them), then 2, then the steps.
pub fn run(
    state: &mut [u32],
    kernel: &[u32],
    vector: &mut [u32],
    data: &mut [u8],
    budget: u32,
) -> (u32, u32) {
    let mut warp = match opened(state, kernel, vector, data) {
        Ok(warp) => warp,
        Err(refusal) => return (refusal.number(), 0),
    };
    let answer = run::run(&mut warp, kernel, vector, data, budget);
    state.copy_from_slice(&to_words(&warp));
    answer
}

/// Take one step of a saved state in place.
pub fn step(state: &mut [u32], kernel: &[u32], vector: &mut [u32], data: &mut [u8]) -> u32 {
    run(state, kernel, vector, data, 1).0
}

/// Release a saved state in place.
pub fn release(state: &mut [u32]) -> u32 {
    let mut warp = match from_words(state) {
        Ok(warp) => warp,
        Err(refusal) => return refusal.number(),
    };
    let answer = run::release(&mut warp);
    state.copy_from_slice(&to_words(&warp));
    code(answer)
}

fn opened(state: &[u32], kernel: &[u32], vector: &[u32], data: &[u8]) -> Result<Warp, Refusal> {
    if state.len() != WORDS {
        return Err(Refusal::Size);
    }
    run::test_runs(state[CODE_BASE_AT], state[DATA_BASE_AT], kernel, vector, data)?;
    from_words(state)
}
