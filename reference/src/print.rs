//! The printout of a run, of a warp's or a group's, and what is printed of a mark.

use crate::group::{Group, Ran};
use crate::sheet::Mark;
use crate::state::Warp;
use crate::Refusal;

/// The five lines after a launched run.
pub fn five_lines(code: u32, steps: u32, warp: &Warp) -> String {
    format!(
        "code {code}\nsteps {steps}\npc {:08x}\nmask {:08x}\nsplits {}\n",
        warp.pc, warp.mask, warp.depth
    )
}

/// Four lines after a launched group's run, and one a warp.
pub fn group(ran: &Ran, group: &Group) -> String {
    let stopped = ran.stopped.map_or("none".into(), |wid| wid.to_string());
    let head =
        format!("code {}\nstopped {stopped}\nsteps {}\nturn {}\n", ran.code, ran.steps, group.turn);
    group.warps.iter().enumerate().fold(head, |lines, (n, warp)| lines + &warp_line(n, warp))
}

fn warp_line(number: usize, warp: &Warp) -> String {
    let doing = match (warp.ended, warp.waiting) {
        (true, _) => "ended",
        (_, true) => "waiting",
        _ => "running",
    };
    format!(
        "warp {number} pc {:08x} mask {:08x} splits {} {doing}\n",
        warp.pc, warp.mask, warp.depth
    )
}

/// The one line after a refused card or launch.
pub fn code_line(code: u32) -> String {
    format!("code {code}\n")
}

/// What is said of a mark.
pub fn mark(mark: Mark) -> String {
    match mark {
        Mark::Full => "full marks".into(),
        Mark::Differs(step) => format!("differs at step {step}"),
        Mark::Short { on_sheet, in_run } => format!("short: {on_sheet} of {in_run} steps"),
        Mark::Long { on_sheet, in_run } => format!("long: {on_sheet} of {in_run} steps"),
    }
}

/// What is said where a sheet is not marked.
pub fn refused(refusal: Refusal) -> String {
    let words = match refusal {
        Refusal::Size => "a size, a base plus a length or a launch value is out of range",
        Refusal::Card => "the card is missing, or its total, length or version is wrong",
        Refusal::Sheet => {
            "the sheet is missing, or its length, version or number of steps is wrong"
        }
        Refusal::NoSteps => "the run has no steps",
        _ => unreachable!("no mark is refused with {}", refusal.number()),
    };
    format!("refused {}: {words}", refusal.number())
}
