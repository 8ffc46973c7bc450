//! A group: 1 to 32 warps over one kernel, one data memory and one local memory, which take their
//! steps in turn. Last the three calls, over the words of a group's state.

use crate::exec::{self, VectorFile};
use crate::memory::Memories;
use crate::state::{Fixed, Launch, Warp};
use crate::{card, code, run, saved, Refusal};

/// The most warps of a group.
pub const WARPS: usize = 32;
pub const LOCAL_BYTES: usize = run::DATA_BYTES;

/// The words of a saved group: the turn, then each warp's.
pub fn state_words(warps: usize) -> usize {
    1 + saved::WORDS * warps
}

#[derive(Clone, Debug, PartialEq, Eq)]
pub struct Group {
    /// The number of the warp from which on the next one to step is looked for.
    pub turn: u32,
    pub warps: Vec<Warp>,
}

/// How a run ended.
#[derive(Clone, Copy, Debug, PartialEq, Eq)]
pub struct Ran {
    /// 0, or the first refusal's number.
    pub code: u32,
    pub steps: u32,
    /// The WID of the warp that stopped the group.
    pub stopped: Option<u32>,
}

impl Ran {
    fn refused_at_once(refusal: Refusal) -> Ran {
        Ran { code: refusal.number(), steps: 0, stopped: None }
    }
}

/// Refusal 1: the vector files' length, and each warp's own bases with the lent lengths.
fn test_runs(
    each: &[Fixed],
    kernel: &[u32],
    vector: &[u32],
    data: &[u8],
    local: &[u8],
) -> Result<(), Refusal> {
    let files = vector.chunks_exact(run::VECTOR_WORDS);
    let sized = (1..=WARPS).contains(&each.len())
        && files.remainder().is_empty()
        && files.len() == each.len()
        && local.len() <= LOCAL_BYTES;
    if !sized {
        return Err(Refusal::Size);
    }
    for (f, file) in each.iter().zip(files) {
        run::test_runs(f.code_base, f.data_base, kernel, file, data)?;
        test_local(f, data, local)?;
    }
    Ok(())
}

/// Refusal 1: local memory ends above 2^32, or has an address in common with data memory.
fn test_local(f: &Fixed, data: &[u8], local: &[u8]) -> Result<(), Refusal> {
    let end = |base: u32, bytes: &[u8]| u64::from(base) + bytes.len() as u64;
    let (data_end, local_end) = (end(f.data_base, data), end(f.lds, local));
    let both = !data.is_empty() && !local.is_empty();
    let overlap = both && u64::from(f.data_base) < local_end && u64::from(f.lds) < data_end;
    if local_end <= run::SPACE && !overlap {
        Ok(())
    } else {
        Err(Refusal::Size)
    }
}

/// Whether warp i has WID i, NUMW is the number of warps, and the shared values are the same.
fn is_one_group(each: &[Fixed]) -> bool {
    let shared = |f: &Fixed| (f.numt, f.code_base, f.data_base, f.lds);
    let belongs = |wid: u32, f: &Fixed| {
        f.wid == wid && f.numw as usize == each.len() && shared(f) == shared(&each[0])
    };
    (0..).zip(each).all(|(wid, f)| belongs(wid, f))
}

/// Read a group's cards: 13 for the length or any card, and only then 1 for a value.
pub fn read_cards(cards: &[u8]) -> Result<Vec<Launch>, Refusal> {
    let each = cards.chunks_exact(card::CARD);
    let whole = each.remainder().is_empty();
    let read: Vec<Result<Launch, Refusal>> = each.map(card::read).collect();
    if !whole || read.contains(&Err(Refusal::Card)) {
        return Err(Refusal::Card);
    }
    read.into_iter().collect()
}

impl Group {
    /// Launch a group: a refusal, which is 1, clears no vector file.
    pub fn launch(
        launches: &[Launch],
        kernel: &[u32],
        vector: &mut [u32],
        data: &[u8],
        local: &[u8],
    ) -> Result<Group, Refusal> {
        let each: Vec<Fixed> = launches.iter().map(|launch| launch.fixed).collect();
        if !launches.iter().all(Launch::in_range) || !is_one_group(&each) {
            return Err(Refusal::Size);
        }
        test_runs(&each, kernel, vector, data, local)?;
        vector.fill(0);
        Ok(Group { turn: 0, warps: launches.iter().map(Warp::launched).collect() })
    }

    pub fn well_formed(&self) -> bool {
        let each: Vec<Fixed> = self.warps.iter().map(|warp| warp.fixed).collect();
        let turned = (self.turn as usize) < self.warps.len() && self.warps.iter().any(runs);
        self.warps.iter().all(Warp::well_formed)
            && is_one_group(&each)
            && (turned || self.warps.iter().all(|warp| warp.ended))
    }

    /// The first warp from the turn on that can run; none if all have ended.
    #[inline]
    fn next(&self) -> Option<usize> {
        let count = self.warps.len();
        let turn = count.min(self.turn as usize); // only a group all ended has a wild one
        (turn..count).chain(0..turn).find(|at| runs(&self.warps[*at]))
    }

    /// Take one step of a well-formed group over lent runs of the right sizes. A refusal, with the
    /// WID of the warp that is refused, changes nothing.
    #[inline]
    fn step(
        &mut self,
        kernel: &[u32],
        vector: &mut [u32],
        memories: &mut Memories,
    ) -> Result<(), (Refusal, Option<u32>)> {
        let at = self.next().ok_or((Refusal::Ended, None))?;
        let warp = &mut self.warps[at];
        exec::step(warp, kernel, file_of(vector, at), memories)
            .map_err(|refusal| (refusal, Some(warp.fixed.wid)))?;
        let stays = runs(warp);
        let after = at + 1;
        self.turn = if after == self.warps.len() { 0 } else { after as u32 };
        if !stays {
            self.release_if_none_runs();
        }
        Ok(())
    }

    /// Every warp that has not ended waits: none does any more.
    fn release_if_none_runs(&mut self) {
        if !self.warps.iter().any(runs) {
            self.warps.iter_mut().for_each(|warp| warp.waiting = false);
        }
    }

    /// Take up to `budget` steps: 1, then 2, then the steps to the first refusal.
    pub fn run(
        &mut self,
        kernel: &[u32],
        vector: &mut [u32],
        data: &mut [u8],
        local: &mut [u8],
        budget: u32,
    ) -> Ran {
        let each: Vec<Fixed> = self.warps.iter().map(|warp| warp.fixed).collect();
        if let Err(refusal) = test_runs(&each, kernel, vector, data, local) {
            return Ran::refused_at_once(refusal);
        }
        if !self.well_formed() {
            return Ran::refused_at_once(Refusal::IllFormed);
        }
        // A step keeps the group well formed and the runs their size, so the tests above hold for
        // every step of the run.
        let mut memories = Memories { data, local };
        for steps in 0..budget {
            if let Err((refusal, stopped)) = self.step(kernel, vector, &mut memories) {
                return Ran { code: refusal.number(), steps, stopped };
            }
        }
        Ran { code: 0, steps: budget, stopped: None }
    }

    pub fn to_words(&self) -> Vec<u32> {
        let mut state = vec![0; state_words(self.warps.len())];
        self.save(&mut state);
        state
    }

    fn save(&self, state: &mut [u32]) {
        state[0] = self.turn;
        for (words, warp) in state[1..].chunks_exact_mut(saved::WORDS).zip(&self.warps) {
            words.copy_from_slice(&saved::to_words(warp));
        }
    }
}

/// Neither waits nor has ended.
#[inline]
pub fn runs(warp: &Warp) -> bool {
    !warp.waiting && !warp.ended
}

#[inline]
fn file_of(vector: &mut [u32], warp: usize) -> &mut VectorFile {
    let words = &mut vector[run::VECTOR_WORDS * warp..][..run::VECTOR_WORDS];
    words.try_into().expect("as many as a vector file has")
}

/// A saved group: 1 for its length or any lent run, then 2 for words that are no warp's.
fn opened(
    state: &[u32],
    kernel: &[u32],
    vector: &[u32],
    data: &[u8],
    local: &[u8],
) -> Result<Group, Refusal> {
    let (turn, words) = state.split_first().ok_or(Refusal::Size)?;
    let each = words.chunks_exact(saved::WORDS);
    if !each.remainder().is_empty() {
        return Err(Refusal::Size);
    }
    let fixed: Vec<Fixed> = each.clone().map(saved::fixed_of).collect();
    test_runs(&fixed, kernel, vector, data, local)?;
    let warps = each.map(saved::from_words).collect::<Result<_, _>>()?;
    Ok(Group { turn: *turn, warps })
}

/// Launch from the cards into the place of a state: 13 or 1 for the cards, then 1 for any rule of
/// a group or lent run (the state's own among them). A refusal makes a state of that many cards 0.
pub fn launch(
    cards: &[u8],
    kernel: &[u32],
    vector: &mut [u32],
    data: &[u8],
    local: &[u8],
    state: &mut [u32],
) -> u32 {
    let whole = state.len() == state_words(cards.len() / card::CARD);
    let launched = read_cards(cards).and_then(|launches| match whole {
        true => Group::launch(&launches, kernel, vector, data, local),
        false => Err(Refusal::Size),
    });
    match &launched {
        Ok(group) => group.save(state),
        Err(_) if whole => state.fill(0),
        Err(_) => {}
    }
    code(launched.map(|_| ()))
}

/// Run a saved group in place, with the steps taken and the stopping warp's WID or 0 in `out`: 1
/// if that has not two words, which then stay.
pub fn run(
    state: &mut [u32],
    kernel: &[u32],
    vector: &mut [u32],
    data: &mut [u8],
    local: &mut [u8],
    budget: u32,
    out: &mut [u32],
) -> u32 {
    if out.len() != 2 {
        return Refusal::Size.number();
    }
    let ran = match opened(state, kernel, vector, data, local) {
        Ok(mut group) => {
            let ran = group.run(kernel, vector, data, local, budget);
            group.save(state);
            ran
        }
        Err(refusal) => Ran::refused_at_once(refusal),
    };
    out.copy_from_slice(&[ran.steps, ran.stopped.unwrap_or(0)]);
    ran.code
}

/// Take one step of a saved group in place, with the stopping warp's WID or 0 in `stopped`: 1 if
/// that has not one word, which then stays.
pub fn step(
    state: &mut [u32],
    kernel: &[u32],
    vector: &mut [u32],
    data: &mut [u8],
    local: &mut [u8],
    stopped: &mut [u32],
) -> u32 {
    if stopped.len() != 1 {
        return Refusal::Size.number();
    }
    let mut out = [0; 2];
    let code = run(state, kernel, vector, data, local, 1, &mut out);
    stopped[0] = out[1];
    code
}
