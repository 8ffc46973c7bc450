//! Sheets: what a run did, step by step. A run's own sheet is written, and a sheet that was
//! handed in is marked against it.

use crate::exec::{self, VectorFile};
use crate::state::Launch;
use crate::{card, code, run, Refusal};

/// The most steps that a sheet has, and a marked run takes.
pub const STEPS: usize = 4_096;
/// What a step takes on a sheet: PC, word and mask, 4 bytes each, and the open splits.
pub const STEP_BYTES: usize = 13;
/// The length, which counts what follows it, and the version.
pub const HEAD_BYTES: usize = LENGTH_BYTES + 1;
/// The longest sheet.
pub const SHEET_BYTES: usize = HEAD_BYTES + STEP_BYTES * STEPS;

const LENGTH_BYTES: usize = 4;
const VERSION: u8 = 1;

/// What a mark says of a sheet.
#[derive(Clone, Copy, Debug, PartialEq, Eq)]
pub enum Mark {
    /// It is the run's own sheet.
    Full,
    /// The first step, counted from 1, that both have and that is not the same.
    Differs(u32),
    /// No step differs, but the sheet has fewer steps than the run.
    Short { on_sheet: u32, in_run: u32 },
    /// No step differs, but the sheet has more.
    Long { on_sheet: u32, in_run: u32 },
}

impl Mark {
    /// The two words of a mark: its number, and the step that differs or 0.
    pub fn words(self) -> [u32; 2] {
        match self {
            Mark::Full => [1, 0],
            Mark::Differs(step) => [2, step],
            Mark::Short { .. } => [3, 0],
            Mark::Long { .. } => [4, 0],
        }
    }
}

/// The sheet of steps of 13 bytes each.
pub fn sheet_of(steps: &[u8]) -> Vec<u8> {
    let length = (steps.len() + HEAD_BYTES - LENGTH_BYTES) as u32;
    [&length.to_be_bytes(), &[VERSION][..], steps].concat()
}

/// The steps of a sheet, 13 bytes each; 16 if it is malformed.
pub fn steps_of(sheet: &[u8]) -> Result<&[u8], Refusal> {
    if sheet.len() < HEAD_BYTES {
        return Err(Refusal::Sheet);
    }
    let (head, steps) = sheet.split_at(HEAD_BYTES);
    let length = u32::from_be_bytes([head[0], head[1], head[2], head[3]]);
    let sound = head[LENGTH_BYTES] == VERSION
        && length as usize == sheet.len() - LENGTH_BYTES
        && steps.len() % STEP_BYTES == 0
        && steps.len() / STEP_BYTES <= STEPS;
    if sound {
        Ok(steps)
    } else {
        Err(Refusal::Sheet)
    }
}

/// Launch and run to the first refusal or 4,096 steps: the steps as a sheet has them; 1 if the
/// launch is refused, and 17 for no steps, which leaves the vector file cleared.
pub fn run_steps(
    launch: &Launch,
    kernel: &[u32],
    vector: &mut [u32],
    data: &mut [u8],
) -> Result<Vec<u8>, Refusal> {
    let (code, mut warp) = run::launch(launch, kernel, vector, data);
    if code != 0 {
        return Err(Refusal::Size);
    }
    let file: &mut VectorFile = vector.try_into().map_err(|_| Refusal::Size)?;
    let mut steps = Vec::with_capacity(STEP_BYTES * STEPS);
    for _ in 0..STEPS {
        let (pc, word) = (warp.pc, exec::fetch(&warp, kernel));
        let word = match (word, exec::step(&mut warp, kernel, file, data)) {
            (Some(word), Ok(())) => word,
            _ => break,
        };
        for field in [pc, word, warp.mask] {
            steps.extend_from_slice(&field.to_be_bytes());
        }
        steps.push(warp.depth as u8); // at most 31
    }
    if steps.is_empty() {
        return Err(Refusal::NoSteps);
    }
    Ok(steps)
}

/// Mark a sheet: 1 for the launch, then 16, then 17. Refused with 1 or 16, nothing changes.
pub fn mark(
    launch: &Launch,
    kernel: &[u32],
    vector: &mut [u32],
    data: &mut [u8],
    sheet: &[u8],
) -> Result<Mark, Refusal> {
    run::test_launch(launch, kernel, vector, data)?;
    let written = steps_of(sheet)?;
    let taken = run_steps(launch, kernel, vector, data)?;
    Ok(compare(written, &taken))
}

/// The mark of the steps on a sheet against those of the run.
fn compare(written: &[u8], taken: &[u8]) -> Mark {
    let both = written.chunks_exact(STEP_BYTES).zip(taken.chunks_exact(STEP_BYTES));
    for (step, (ours, theirs)) in (1..).zip(both) {
        if ours != theirs {
            return Mark::Differs(step);
        }
    }
    let count = |steps: &[u8]| (steps.len() / STEP_BYTES) as u32;
    let (on_sheet, in_run) = (count(written), count(taken));
    if on_sheet < in_run {
        Mark::Short { on_sheet, in_run }
    } else if on_sheet > in_run {
        Mark::Long { on_sheet, in_run }
    } else {
        Mark::Full
    }
}

/// Write the run's own sheet at the target's start: its size in bytes; 1 for the launch or a
/// target without room for the longest sheet, then 17. A refusal leaves the target as it was.
pub fn write(
    launch: &Launch,
    kernel: &[u32],
    vector: &mut [u32],
    data: &mut [u8],
    target: &mut [u8],
) -> Result<usize, Refusal> {
    if target.len() < SHEET_BYTES {
        return Err(Refusal::Size);
    }
    let sheet = sheet_of(&run_steps(launch, kernel, vector, data)?);
    target[..sheet.len()].copy_from_slice(&sheet);
    Ok(sheet.len())
}

/// Mark from a card's bytes, with the mark's words in `result`: 13 or 1 for the card, 1 for a
/// result that has not two words, then as `mark`. A refusal makes two words 0.
pub fn bench_mark(
    card: &[u8],
    kernel: &[u32],
    vector: &mut [u32],
    data: &mut [u8],
    sheet: &[u8],
    result: &mut [u32],
) -> u32 {
    let marked = |launch: &Launch| mark(launch, kernel, vector, data, sheet).map(Mark::words);
    answered(card, result, marked)
}

/// Write the sheet of a card's bytes, with its size in `written`: 13 or 1 for the card, 1 for a
/// `written` that has not one word, then as `write`. A refusal makes one word 0.
pub fn bench_sheet(
    card: &[u8],
    kernel: &[u32],
    vector: &mut [u32],
    data: &mut [u8],
    target: &mut [u8],
    written: &mut [u32],
) -> u32 {
    // A sheet's size is at most 53,253.
    let sized =
        |launch: &Launch| write(launch, kernel, vector, data, target).map(|size| [size as u32]);
    answered(card, written, sized)
}

/// A call on a card whose answer goes into exactly N words; words of another number stay.
fn answered<const N: usize>(
    card: &[u8],
    words: &mut [u32],
    call: impl FnOnce(&Launch) -> Result<[u32; N], Refusal>,
) -> u32 {
    let words: Result<&mut [u32; N], _> = words.try_into();
    let answer = match (card::read(card), &words) {
        (Err(refusal), _) => Err(refusal),
        (Ok(_), Err(_)) => Err(Refusal::Size),
        (Ok(launch), Ok(_)) => call(&launch),
    };
    if let Ok(words) = words {
        *words = answer.unwrap_or([0; N]);
    }
    code(answer.map(|_| ()))
}
