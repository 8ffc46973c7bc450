//! What the cases cover of stores by lanes: bytes that lanes have in common.

use crate::counts::{count, each, Counts};
use reference::exec;
use reference::isa::{Insn, Space};
use reference::memory::store_size;
use reference::state::{Warp, LANES};

/// How often each should occur at least.
const FEWEST: u32 = 5;

/// Stores by what became of them, once each and once more for each fact.
#[derive(Default)]
pub struct Stores(Counts);

/// A store by the lanes of a warp: each lane's address and value.
struct Store {
    private: bool,
    size: usize,
    active: Vec<(usize, u32)>,
    idle: Vec<(usize, u32)>,
}

impl Store {
    fn of(insn: &Insn, warp: &Warp, file: &[u32]) -> Option<Store> {
        let (space, kind, vs1, vs2, off) = match *insn {
            Insn::Vstore { space, kind, vs1, vs2, off } => (space, kind, vs1, vs2, off),
            _ => return None,
        };
        let (bases, values) = (&file[LANES * vs1.index()..], &file[LANES * vs2.index()..]);
        let stored = |lane: usize| {
            let address = exec::address(&warp.fixed, space, lane, bases[lane].wrapping_add(off));
            (address as usize, values[lane])
        };
        let lanes = 0..warp.fixed.numt as usize;
        let (active, idle): (Vec<usize>, _) = lanes.partition(|lane| warp.mask >> lane & 1 == 1);
        Some(Store {
            private: space == Space::Private,
            size: store_size(kind),
            active: active.into_iter().map(stored).collect(),
            idle: idle.into_iter().map(stored).collect(),
        })
    }

    fn differ(&self, one: (usize, u32), other: (usize, u32)) -> bool {
        exec::differ(one, other, self.size)
    }

    /// The bytes that two stores have in common.
    fn common(&self, one: (usize, u32), other: (usize, u32)) -> usize {
        self.size.saturating_sub(one.0.abs_diff(other.0))
    }

    /// Two active lanes, the lower one first, that have a byte in common, counted from 0 among the
    /// active.
    fn pairs(&self) -> Vec<(usize, usize)> {
        let all = &self.active;
        let any = (0..all.len()).flat_map(|high| (0..high).map(move |low| (low, high)));
        any.filter(|(low, high)| self.common(all[*low], all[*high]) > 0).collect()
    }

    fn order(&self) -> &'static str {
        let neighbours = || self.active.windows(2).map(|pair| (pair[0].0, pair[1].0));
        match () {
            _ if self.active.len() == 1 => "one lane",
            _ if neighbours().all(|(one, next)| one < next) => "lanes go up",
            _ if neighbours().all(|(one, next)| one > next) => "lanes go down",
            _ => "lanes go up and down",
        }
    }

    /// What is to be seen of the store besides its answer.
    fn facts(&self) -> Vec<String> {
        let (all, pairs) = (&self.active, self.pairs());
        let (wrong, right): (Vec<_>, Vec<_>) =
            pairs.iter().copied().partition(|(low, high)| self.differ(all[*low], all[*high]));
        let idle_differs =
            all.iter().any(|one| self.idle.iter().any(|idle| self.differ(*one, *idle)));
        let mut facts = vec![
            ("private lanes meet", self.private && !pairs.is_empty()),
            ("a lane that is not active would clash", idle_differs),
            ("lanes clash", !wrong.is_empty()),
            ("one pair clashes", wrong.len() == 1),
            ("others agree", !wrong.is_empty() && !right.is_empty()),
            ("neighbours clash", wrong.iter().any(|(low, high)| low + 1 == *high)),
            (
                "no neighbours clash",
                !wrong.is_empty() && wrong.iter().all(|(low, high)| low + 1 != *high),
            ),
        ];
        if let [(low, high)] = wrong[..] {
            let (low, high) = (all[low], all[high]);
            let (first, last) = if low.0 <= high.0 { (low, high) } else { (high, low) };
            let lowest = first.1 >> (8 * (last.0 - first.0)) & 0xff;
            facts.extend([
                ("one pair clashes, the lower lane is below", low.0 < high.0),
                ("one pair clashes, the lower lane is above", low.0 > high.0),
                ("one pair clashes, at one place", low.0 == high.0),
                ("one pair clashes, not in the lowest byte", lowest == last.1 & 0xff),
            ]);
        }
        let facts = facts.iter().filter(|(_, holds)| *holds).map(|(fact, _)| fact.to_string());
        let common = |of: &[(usize, usize)], what: &str| {
            let bytes =
                |n: &usize| of.iter().any(|(low, high)| self.common(all[*low], all[*high]) == *n);
            let counts = (1..=self.size).filter(bytes);
            let named = |n: usize| format!("{n} of {} bytes in common {what}", self.size);
            counts.map(named).collect::<Vec<_>>()
        };
        let none = if pairs.is_empty() {
            format!("none in common, {}", self.order())
        } else {
            self.order().into()
        };
        facts.chain(common(&right, "agree")).chain(common(&wrong, "clash")).chain([none]).collect()
    }
}

impl Stores {
    /// A step that is taken, with code 0, or refused: if it is a store by lanes.
    pub fn count(&mut self, insn: &Insn, warp: &Warp, file: &[u32], code: u32) {
        if let Some(store) = Store::of(insn, warp, file) {
            let answer = if code == 0 { "taken".into() } else { format!("refused {code}") };
            for fact in store.facts() {
                count(&mut self.0, format!("{answer}, {fact}"));
            }
            count(&mut self.0, answer);
        }
    }

    pub fn counts(&self) -> &Counts {
        &self.0
    }

    /// What should occur, and how often it does.
    fn wanted(&self) -> Vec<(String, u32)> {
        let sizes = [1, 2, 4].iter().flat_map(|size| (1..=*size).map(move |n| (n, size)));
        let common: Vec<String> = sizes
            .flat_map(|(n, size)| {
                let bytes = format!("{n} of {size} bytes in common");
                [format!("taken, {bytes} agree"), format!("refused 15, {bytes} clash")]
            })
            .collect();
        let common: Vec<&str> = common.iter().map(String::as_str).collect();
        [
            each(&self.0, &common),
            each(&self.0, &["taken, private lanes meet", "refused 15, private lanes meet"]),
            each(&self.0, &["taken, a lane that is not active would clash"]),
            each(&self.0, &["refused 9, lanes clash", "refused 14, lanes clash"]),
            each(&self.0, &["refused 15, neighbours clash", "refused 15, no neighbours clash"]),
            each(&self.0, &["refused 15, one pair clashes, the lower lane is below"]),
            each(&self.0, &["refused 15, one pair clashes, the lower lane is above"]),
            each(&self.0, &["refused 15, one pair clashes, at one place"]),
            each(&self.0, &["refused 15, one pair clashes, not in the lowest byte"]),
            each(&self.0, &["taken, none in common, lanes go up"]),
            each(&self.0, &["taken, none in common, lanes go down"]),
            each(&self.0, &["taken, none in common, lanes go up and down"]),
        ]
        .concat()
    }

    pub fn print(&self) {
        crate::counts::print(&[("stores by lanes", &self.0)], &self.wanted(), FEWEST);
    }
}
