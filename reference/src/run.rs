//! The public calls: launch, step, run and release.

use crate::exec::{self, VectorFile};
use crate::state::{Launch, Warp};
use crate::Refusal;

pub const KERNEL_WORDS: usize = 16_384;
pub const VECTOR_WORDS: usize = 8_192;
pub const DATA_BYTES: usize = 65_536;

pub(crate) const SPACE: u64 = 1 << 32;

/// Refusal 1: the sizes of the lent runs and the bases plus lengths.
pub fn test_runs(
    code_base: u32,
    data_base: u32,
    kernel: &[u32],
    vector: &[u32],
    data: &[u8],
) -> Result<(), Refusal> {
    let fits = (1..=KERNEL_WORDS).contains(&kernel.len())
        && u64::from(code_base) + 4 * kernel.len() as u64 <= SPACE
        && vector.len() == VECTOR_WORDS
        && data.len() <= DATA_BYTES
        && u64::from(data_base) + data.len() as u64 <= SPACE;
    if fits {
        Ok(())
    } else {
        Err(Refusal::Size)
    }
}

/// Refusal 1 of a launch: its values, and the lent runs.
pub fn test_launch(
    launch: &Launch,
    kernel: &[u32],
    vector: &[u32],
    data: &[u8],
) -> Result<(), Refusal> {
    if !launch.in_range() {
        return Err(Refusal::Size);
    }
    test_runs(launch.fixed.code_base, launch.fixed.data_base, kernel, vector, data)
}

/// Launch a warp: a refusal gives the state of all zeros and clears nothing.
pub fn launch(launch: &Launch, kernel: &[u32], vector: &mut [u32], data: &[u8]) -> (u32, Warp) {
    if let Err(refusal) = test_launch(launch, kernel, vector, data) {
        return (refusal.number(), Warp::default());
    }
    vector.fill(0);
    (0, Warp::launched(launch))
}

/// Take one step.
pub fn step(warp: &mut Warp, kernel: &[u32], vector: &mut [u32], data: &mut [u8]) -> u32 {
    run(warp, kernel, vector, data, 1).0
}

/// Take up to `budget` steps: the first refusal (or 0) and the steps taken.
pub fn run(
    warp: &mut Warp,
    kernel: &[u32],
    vector: &mut [u32],
    data: &mut [u8],
    budget: u32,
) -> (u32, u32) {
    let f = &warp.fixed;
    if let Err(refusal) = test_runs(f.code_base, f.data_base, kernel, vector, data) {
        return (refusal.number(), 0);
    }
    let file: &mut VectorFile = match vector.try_into() {
        Ok(file) => file,
        Err(_) => return (Refusal::Size.number(), 0),
    };
    if !warp.well_formed() {
        return (Refusal::IllFormed.number(), 0);
    }
    // A step keeps the state well formed and the runs their size, so the
    // tests above hold for every step of the run.
    for taken in 0..budget {
        if let Err(refusal) = exec::step(warp, kernel, file, data) {
            return (refusal.number(), taken);
        }
    }
    (0, budget)
}

/// Let a waiting warp run on.
pub fn release(warp: &mut Warp) -> Result<(), Refusal> {
    if !warp.well_formed() {
        return Err(Refusal::IllFormed);
    }
    if !warp.waiting {
        return Err(Refusal::NotWaiting);
    }
    warp.waiting = false;
    Ok(())
}
