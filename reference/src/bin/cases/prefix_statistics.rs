//! What the cases cover of prefixes.

use reference::isa::{decode, Insn, Prefix};
use reference::table::{name, File, Table};
use std::collections::BTreeMap;

type Counts = BTreeMap<String, u64>;

/// How often each should occur at least.
const FEWEST: u64 = 5;

pub struct Prefixes {
    table: Table,
    /// Words that were taken behind each prefix, by name.
    behind_regext: Counts,
    behind_regexti: Counts,
    /// What the digits of a REGEXT went on, where they were not 0.
    digits: Counts,
    refused: Counts,
    /// Prefixes that were pending in a saved state.
    handed_in: Counts,
}

fn count(counts: &mut Counts, what: impl ToString) {
    *counts.entry(what.to_string()).or_default() += 1;
}

fn prefix_name(prefix: Prefix) -> &'static str {
    match prefix {
        Prefix::None => "none",
        Prefix::RegExt(_) => "regext",
        Prefix::RegExtI(_) => "regexti",
    }
}

impl Default for Prefixes {
    fn default() -> Prefixes {
        Prefixes {
            table: Table::whole(),
            behind_regext: Counts::new(),
            behind_regexti: Counts::new(),
            digits: Counts::new(),
            refused: Counts::new(),
            handed_in: Counts::new(),
        }
    }
}

impl Prefixes {
    pub fn count_handed_in(&mut self, prefix: Prefix) {
        if prefix != Prefix::None {
            count(&mut self.handed_in, prefix_name(prefix));
        }
    }

    /// A word that was taken behind what was pending.
    pub fn count_taken(&mut self, prefix: Prefix, insn: &Insn) {
        match prefix {
            Prefix::None => {}
            Prefix::RegExt(bits) => {
                let name = name(insn);
                for (at, file) in self.table.get(&name).registers().into_iter().enumerate() {
                    let on = match file {
                        Some(File::X) => "a scalar register",
                        Some(File::V) => "a vector register",
                        None => "nothing",
                    };
                    if bits >> (3 * at) & 7 != 0 {
                        count(&mut self.digits, format!("{} on {on}", ["xd", "x1", "x2"][at]));
                    }
                }
                count(&mut self.behind_regext, name);
            }
            Prefix::RegExtI(_) => count(&mut self.behind_regexti, name(insn)),
        }
    }

    /// A word, or none at the PC, that was refused behind what was pending.
    pub fn count_refused(&mut self, prefix: Prefix, word: Option<u32>, code: u32) {
        if prefix != Prefix::None {
            let why = match word.and_then(decode) {
                Some(insn) if code == 6 => self.barred(prefix, &name(&insn)),
                _ => String::new(),
            };
            count(&mut self.refused, format!("{code} behind {}{why}", prefix_name(prefix)));
        }
    }

    /// Why a word of the tables is refused with 6.
    fn barred(&self, prefix: Prefix, name: &str) -> String {
        let variant = self.table.get(name);
        match prefix {
            _ if !variant.takes_regext() => format!(", {name}"),
            Prefix::RegExtI(_) if !variant.is_vi() => ", no vi form".into(),
            _ => ", a register above 63".into(),
        }
    }

    pub fn print(&self) {
        let taken = |counts: &Counts| counts.values().sum::<u64>();
        eprintln!("pending in a state handed in {:?}", self.handed_in);
        eprintln!("behind regext {} {:?}", taken(&self.behind_regext), self.behind_regext);
        eprintln!("behind regexti {} {:?}", taken(&self.behind_regexti), self.behind_regexti);
        eprintln!("digits {:?}", self.digits);
        eprintln!("refused behind a prefix {} {:?}", taken(&self.refused), self.refused);
        for (what, times) in self.wanted().iter().filter(|(_, times)| *times < FEWEST) {
            eprintln!("TOO FEW: {what} {times} times");
        }
    }

    /// What should occur, and how often it does.
    fn wanted(&self) -> Vec<(String, u64)> {
        let times = |counts: &Counts, what: &str| counts.get(what).copied().unwrap_or(0);
        let mut wanted = Vec::new();
        for v in &self.table.all {
            let name = &v.name;
            if v.takes_regext() {
                wanted.push((format!("{name} behind regext"), times(&self.behind_regext, name)));
            } else {
                let either = ["regext", "regexti"].map(|p| format!("6 behind {p}, {name}"));
                wanted.extend(either.map(|what| (what.clone(), times(&self.refused, &what))));
            }
            if v.is_vi() {
                wanted.push((format!("{name} behind regexti"), times(&self.behind_regexti, name)));
            }
        }
        let codes =
            ["5", "7", "8", "9", "10", "14", "15"].map(|code| format!("{code} behind regext"));
        let others = ["regext, a register above 63", "regexti, no vi form"];
        let sixes = others.map(|why| format!("6 behind {why}"));
        for what in codes.into_iter().chain(sixes) {
            wanted.push((what.clone(), times(&self.refused, &what)));
        }
        wanted
    }
}
