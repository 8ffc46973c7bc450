//! Reference interpreter of the warp bench machine, written from the rules
//! alone and held against their own text, section by section (README.md). It
//! shares no code with the machine it checks.
#![forbid(unsafe_code)]

pub mod card;
pub mod case;
pub mod exec;
pub mod generate;
pub mod generate_groups;
pub mod generate_marks;
mod generate_masked;
mod generate_prefixes;
mod generate_stores;
pub mod group;
mod group_kernels;
pub mod isa;
pub mod memory;
pub mod print;
pub mod run;
pub mod saved;
pub mod sheet;
pub mod state;
pub mod table;

/// The refusal numbers.
#[derive(Clone, Copy, Debug, PartialEq, Eq)]
#[repr(u32)]
pub enum Refusal {
    /// 1: a lent run's size, a base plus length, or a launch value.
    Size = 1,
    /// 2: the state handed in is not well formed.
    IllFormed = 2,
    /// 3: the warp has ended.
    Ended = 3,
    /// 4: the warp waits at a barrier.
    Waiting = 4,
    /// 5: the PC lies on no kernel word.
    NoWord = 5,
    /// 6: the word is not in the instruction tables.
    NoInstruction = 6,
    /// 7: a CSR that does not exist, or a write to one that is fixed.
    Csr = 7,
    /// 8: a taken jump or branch to a PC that is no multiple of 4.
    Target = 8,
    /// 9: an access not wholly inside data memory, or in a group not wholly in one of its two.
    Access = 9,
    /// 10: vmv.x.s over lanes that differ.
    Differ = 10,
    /// 11: ENDPRG or BARRIER with a split open.
    SplitOpen = 11,
    /// 12: release of a warp that does not wait.
    NotWaiting = 12,
    /// 13: malformed launch card.
    Card = 13,
    /// 14: a private access that crosses a word boundary of its lane.
    Crossing = 14,
    /// 15: active lanes that store different values to one byte by one instruction.
    Clashing = 15,
    /// 16: malformed sheet.
    Sheet = 16,
    /// 17: a run of no steps.
    NoSteps = 17,
}

impl Refusal {
    pub fn number(self) -> u32 {
        self as u32
    }
}

/// The number of a call: 0 if it was not refused.
pub fn code(answer: Result<(), Refusal>) -> u32 {
    match answer {
        Ok(()) => 0,
        Err(refusal) => refusal.number(),
    }
}
