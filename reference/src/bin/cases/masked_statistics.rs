//! What the cases cover of masked words.

use crate::counts::{count, each, Counts};
use reference::generate::low_mask;
use reference::isa::{Insn, Prefix, VOp, V, V0};
use reference::state::{Warp, LANES};
use reference::table::{Table, Variant, RD, VM};

/// How often each should occur at least.
const FEWEST: u32 = 5;

/// Words with vm = 0: taken, once by their sort and once more for each fact; and refused with 6.
pub struct Masked {
    table: Table,
    taken: Counts,
    refused: Counts,
}

impl Default for Masked {
    fn default() -> Masked {
        Masked { table: Table::whole(), taken: Counts::new(), refused: Counts::new() }
    }
}

/// The sort of a masked word, and its destination.
fn sort(insn: &Insn) -> Option<(&'static str, V)> {
    match *insn {
        Insn::Vec { op: VOp::Merge, vd, .. } => Some((MERGE, vd)),
        Insn::Vec { masked: true, op, vd, .. } => Some((operation(op), vd)),
        Insn::Vid { masked: true, vd } => Some(("vid.v", vd)),
        _ => None,
    }
}

const MERGE: &str = "vmerge";

fn operation(op: VOp) -> &'static str {
    match op {
        VOp::Mul | VOp::Mulh | VOp::Mulhsu | VOp::Mulhu => "product",
        VOp::Div | VOp::Divu | VOp::Rem | VOp::Remu => "quotient",
        VOp::And | VOp::Or | VOp::Xor => "bitwise",
        VOp::Sll | VOp::Srl | VOp::Sra => "shift",
        VOp::Min | VOp::Minu | VOp::Max | VOp::Maxu => "minimum or maximum",
        _ if op.is_compare() => "compare",
        _ => "sum",
    }
}

/// The lanes whose v0 word has bit 0 set, and those whose v0 word is not 0.
fn of_v0(file: &[u32]) -> (u32, u32) {
    let v0 = &file[LANES * V0.index()..][..LANES];
    let mask = |holds: fn(u32) -> bool| {
        (0..LANES).filter(|lane| holds(v0[*lane])).fold(0, |mask, lane| mask | 1 << lane)
    };
    (mask(|word| word & 1 == 1), mask(|word| word != 0))
}

impl Masked {
    /// A word that is taken, before its step.
    pub fn count_taken(&mut self, insn: &Insn, warp: &Warp, file: &[u32]) {
        let (sort, vd) = match sort(insn) {
            Some(found) => found,
            None => return,
        };
        let (set, not_zero) = of_v0(file);
        let (active, written) = (warp.mask, warp.mask & set);
        let facts = [
            ("bit 0 is set in no active lane", written == 0),
            ("bit 0 is set in some active lanes", written != 0 && written != active),
            ("bit 0 is set in all active lanes", written == active),
            ("bit 0 is set in a lane of the warp that is not active", set & idle(warp) != 0),
            ("v0 is not 0 where bit 0 is not set", not_zero & !set & active != 0),
            ("not all lanes of the warp are active", idle(warp) != 0),
            ("in a split", warp.depth > 0),
            ("into v0", vd == V0),
            ("into v32, v64 and so on", vd != V0 && vd.index() % 32 == 0),
            ("behind regext", matches!(warp.prefix, Prefix::RegExt(_))),
            ("behind regexti", matches!(warp.prefix, Prefix::RegExtI(_))),
        ];
        count(&mut self.taken, sort);
        let of = if sort == MERGE { MERGE } else { "others" };
        for (fact, _) in facts.iter().filter(|(_, holds)| *holds) {
            count(&mut self.taken, format!("{of}, {fact}"));
        }
    }

    /// A word that is refused with 6 behind what is pending, if it has vm = 0.
    pub fn count_refused(&mut self, prefix: Prefix, word: Option<u32>) {
        if let Some(word) = word.filter(|word| word & 0x7f == 0x57 && word & VM == 0) {
            let behind = if prefix == Prefix::None { "" } else { ", behind a prefix" };
            let cause = self.cause(word);
            count(&mut self.refused, format!("{cause}{behind}"));
        }
    }

    fn cause(&self, word: u32) -> String {
        let of = |v: &&Variant, word: u32| word & !v.free == v.fixed;
        let unmasked = self.table.with(|v| of(&v, word | VM));
        match self.table.masked().into_iter().find(|v| of(v, word)) {
            Some(v) if v.spares_v0() && word & RD == 0 => "destination v0".into(),
            Some(_) => "its prefix".into(),
            None => unmasked.first().map_or("in no table".into(), |v| v.name.clone()),
        }
    }

    pub fn taken(&self) -> &Counts {
        &self.taken
    }

    pub fn counts(&self) -> [(&'static str, &Counts); 2] {
        [("masked words taken", &self.taken), ("words with vm = 0 refused with 6", &self.refused)]
    }

    /// What should occur, and how often it does.
    fn wanted(&self) -> Vec<(String, u32)> {
        let facts = [
            "bit 0 is set in no active lane",
            "bit 0 is set in some active lanes",
            "bit 0 is set in all active lanes",
            "bit 0 is set in a lane of the warp that is not active",
            "v0 is not 0 where bit 0 is not set",
            "not all lanes of the warp are active",
            "in a split",
            "behind regext",
        ];
        let facts = facts.map(|fact| ["others", MERGE].map(|of| format!("{of}, {fact}")));
        let facts = facts.concat();
        let facts: Vec<&str> = facts.iter().map(String::as_str).collect();
        [
            each(&self.taken, &["sum", "minimum or maximum", "bitwise", "shift", "product"]),
            each(&self.taken, &["quotient", "compare", "vid.v", MERGE, "others, into v0"]),
            each(&self.taken, &["others, behind regexti", "vmerge, behind regexti"]),
            each(&self.taken, &["others, into v32, v64 and so on"]),
            each(&self.taken, &facts),
            each(&self.refused, &["destination v0", "vmv.x.s", "vmv.s.x", "in no table"]),
        ]
        .concat()
    }

    pub fn print(&self) {
        crate::counts::print(&self.counts(), &self.wanted(), FEWEST);
    }
}

/// The lanes of the warp that are not active.
fn idle(warp: &Warp) -> u32 {
    low_mask(warp.fixed.numt) & !warp.mask
}
