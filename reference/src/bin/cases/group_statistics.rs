//! What the group cases cover.

use crate::counts::{count, each, print, Counts};
use crate::masked_statistics::Masked;
use crate::next;
use crate::store_statistics::Stores;
use reference::case::{evaluate, Answer, Case, GroupLent, Handed, Job, Said};
use reference::group::{self, runs, state_words, Group, LOCAL_BYTES, WARPS};
use reference::isa::{Insn, Prefix, Space};
use reference::state::{Fixed, Warp, LANES};
use reference::{card, exec, memory, run, saved};
use std::collections::BTreeMap;

/// How often each should occur at least.
const FEWEST: u32 = 5;

#[derive(Default)]
struct Stats {
    kinds: Counts,
    codes: Counts,
    /// What is refused with 1.
    sizes: Counts,
    /// What a refused launch leaves of its state.
    states: Counts,
    /// Groups that were stepped, by their warps.
    warps: BTreeMap<usize, u32>,
    events: Counts,
    accesses: Counts,
    stores: Stores,
    masked: Masked,
    /// The numbers that stop a group, by whether it is warp 0.
    stops: Counts,
    steps: u32,
    longest: u32,
    deepest: u32,
}

/// The launch values of a state's warps.
fn values(state: &[u32]) -> Vec<Fixed> {
    let words = state.get(1..).unwrap_or(&[]).chunks_exact(saved::WORDS);
    words.filter_map(|words| saved::from_words(words).ok()).map(|warp| warp.fixed).collect()
}

/// The first size that a lent run doesn't have, if it is a length.
fn wrong_length(warps: usize, kernel: &[u32], lent: &GroupLent) -> Option<&'static str> {
    let wrong = [
        ("kernel words", !(1..=run::KERNEL_WORDS).contains(&kernel.len())),
        ("vector words", lent.vector.len() != run::VECTOR_WORDS * warps),
        ("data bytes", lent.data.len() > run::DATA_BYTES),
        ("local bytes", lent.local.len() > LOCAL_BYTES),
    ];
    wrong.iter().find(|(_, wrong)| *wrong).map(|(what, _)| *what)
}

/// Whether a base plus a length is above 2^32, or else the memories overlap.
fn wrong_base(each: &[Fixed], kernel: &[u32], lent: &GroupLent) -> &'static str {
    let above = |base: u32, bytes: usize| u64::from(base) + bytes as u64 > 1 << 32;
    let too_high = each.iter().any(|f| {
        above(f.code_base, 4 * kernel.len())
            || above(f.data_base, lent.data.len())
            || above(f.lds, lent.local.len())
    });
    if too_high {
        "a base plus a length"
    } else {
        "the memories overlap"
    }
}

/// The first test that a launch refused with 1 fails.
fn launch_size(job: &Job, lent: &GroupLent, kernel: &[u32]) -> &'static str {
    let count = job.card.len() / card::CARD;
    if !(1..=WARPS).contains(&count) {
        return "the number of cards";
    }
    let launches = match group::read_cards(&job.card) {
        Ok(launches) => launches,
        Err(_) => return "a card's value",
    };
    let each: Vec<Fixed> = launches.iter().map(|launch| launch.fixed).collect();
    match stranger(&each) {
        Some(what) => what,
        None if lent.state.len() != state_words(count) => "state words",
        None => {
            wrong_length(count, kernel, lent).unwrap_or_else(|| wrong_base(&each, kernel, lent))
        }
    }
}

/// The first value by which warps are no group.
fn stranger(each: &[Fixed]) -> Option<&'static str> {
    let first = each.first()?;
    let differs = |value: fn(&Fixed) -> u32| each.iter().any(|f| value(f) != value(first));
    let wrong = [
        ("WID", (0..).zip(each).any(|(wid, f)| f.wid != wid)),
        ("NUMW", each.iter().any(|f| f.numw as usize != each.len())),
        ("NUMT differs", differs(|f| f.numt)),
        ("the code base differs", differs(|f| f.code_base)),
        ("the data base differs", differs(|f| f.data_base)),
        ("LDS differs", differs(|f| f.lds)),
    ];
    wrong.iter().find(|(_, wrong)| *wrong).map(|(what, _)| *what)
}

/// The first test that a step or run refused with 1 fails.
fn handed_size(handed: &Handed, answer_fits: bool) -> &'static str {
    let (kernel, lent) = handed.build();
    let warps = lent.state.len() / saved::WORDS;
    if !answer_fits {
        "words for the answer"
    } else if lent.state.len() != state_words(warps) || !(1..=WARPS).contains(&warps) {
        "state words"
    } else {
        wrong_length(warps, &kernel, &lent)
            .unwrap_or_else(|| wrong_base(&values(&lent.state), &kernel, &lent))
    }
}

/// A load or store at the PC: the addresses of its lanes or the one of a scalar access, and its
/// size; none where there is no such word.
fn addresses(warp: &Warp, kernel: &[u32], file: &[u32]) -> Option<(Vec<u32>, usize)> {
    let lanes = |space: Space, vs1: usize, off: u32| {
        let bases = &file[LANES * vs1..][..LANES];
        let address =
            |lane: usize| exec::address(&warp.fixed, space, lane, bases[lane].wrapping_add(off));
        (0..LANES).filter(|lane| warp.mask >> lane & 1 == 1).map(address).collect()
    };
    let scalar = |rs1: usize, off: u32| vec![warp.x[rs1].wrapping_add(off)];
    Some(match next(warp, kernel)? {
        Insn::Load { kind, rs1, off, .. } => (scalar(rs1.index(), off), memory::load_size(kind)),
        Insn::Store { kind, rs1, off, .. } => (scalar(rs1.index(), off), memory::store_size(kind)),
        Insn::Vload { space, kind, vs1, off, .. } => {
            (lanes(space, vs1.index(), off), memory::load_size(kind))
        }
        Insn::Vstore { space, kind, vs1, off, .. } => {
            (lanes(space, vs1.index(), off), memory::store_size(kind))
        }
        _ => return None,
    })
}

/// Where an access's addresses are.
fn memories_of(f: &Fixed, lent: &GroupLent, addresses: &[u32], size: usize) -> String {
    let whole = |bytes: &[u8], base: u32, at: u32| memory::place(bytes, base, at, size).is_ok();
    let begins = |bytes: &[u8], base: u32, at: u32| memory::place(bytes, base, at, 1).is_ok();
    let (mut data, mut local, mut across, mut outside) = (false, false, false, false);
    for at in addresses {
        let last = at.wrapping_add(size as u32 - 1);
        if whole(&lent.data, f.data_base, *at) {
            data = true;
        } else if whole(&lent.local, f.lds, *at) {
            local = true;
        } else if begins(&lent.data, f.data_base, *at) && begins(&lent.local, f.lds, last)
            || begins(&lent.local, f.lds, *at) && begins(&lent.data, f.data_base, last)
        {
            across = true;
        } else {
            outside = true;
        }
    }
    let places = [("data", data), ("local", local), ("across both", across), ("outside", outside)];
    let named: Vec<&str> = places.iter().filter(|(_, is)| *is).map(|(name, _)| *name).collect();
    named.join(" and ")
}

/// What became of the warp that stepped, and of the others by it.
fn event(before: &Group, after: &Group, stepped: usize) -> &'static str {
    let (was, is) = (&before.warps[stepped], &after.warps[stepped]);
    let waited = before.warps.iter().any(|warp| warp.waiting);
    let waits = after.warps.iter().any(|warp| warp.waiting);
    match (is.ended && !was.ended, is.waiting) {
        (true, _) if waited && !waits => "an end releases the waiting",
        (true, _) if after.warps.iter().all(|warp| warp.ended) => "the last one ends",
        (true, _) => "one ends",
        (_, true) => "one arrives and waits",
        _ if waited && !waits => "the last to arrive releases all",
        _ => "other steps",
    }
}

impl Stats {
    fn count(&mut self, case: &Case) {
        let answer = evaluate(case);
        let (kind, fits) = match case {
            Case::GroupLaunch { .. } => ("launch", true),
            Case::GroupStep { stopped, .. } => ("step", *stopped == 1),
            Case::GroupRun { out, .. } => ("run", *out == 2),
            _ => panic!("not a group case"),
        };
        count(&mut self.kinds, kind);
        count(&mut self.codes, format!("{kind} {}", answer.code));
        match case {
            Case::GroupStep { handed, .. } | Case::GroupRun { handed, .. } => match answer.code {
                1 => count(&mut self.sizes, format!("{kind}: {}", handed_size(handed, fits))),
                2 => {}
                _ => {
                    let (kernel, lent) = handed.build();
                    self.trace(&kernel, lent, &answer);
                }
            },
            Case::GroupLaunch { job, local, state, .. } => {
                self.count_launch(job, local.build(), *state, &answer);
            }
            _ => {}
        }
    }

    fn count_launch(&mut self, job: &Job, local: Vec<u8>, words: u32, answer: &Answer) {
        let (kernel, vector, data) = job.build();
        let mut lent = GroupLent { state: vec![7; words as usize], vector, data, local };
        if answer.code == 1 {
            count(&mut self.sizes, format!("launch: {}", launch_size(job, &lent, &kernel)));
        }
        let GroupLent { state, vector, data, local } = &mut lent;
        if group::launch(&job.card, &kernel, vector, data, local, state) == 0 {
            return self.trace(&kernel, lent, answer);
        }
        let zeroed = state.iter().all(|word| *word == 0) && !state.is_empty();
        count(&mut self.states, if zeroed { "zeroed" } else { "left" });
    }

    /// Step through a run and count, up to the step that is refused if one is.
    fn trace(&mut self, kernel: &[u32], mut lent: GroupLent, answer: &Answer) {
        *self.warps.entry(lent.state.len() / saved::WORDS).or_default() += 1;
        let mut writers = Writers::default();
        for _ in 0..answer.steps() {
            self.trace_step(kernel, &mut lent, &mut writers);
        }
        self.steps += answer.steps();
        self.longest = self.longest.max(answer.steps());
        if answer.code != 0 {
            self.trace_refusal(kernel, lent, answer);
        }
    }

    fn trace_step(&mut self, kernel: &[u32], lent: &mut GroupLent, writers: &mut Writers) {
        let before = group_of(&lent.state);
        let stepped = stepping(&before);
        self.count_skips(&before, stepped);
        let warp = &before.warps[stepped];
        let file = &lent.vector[run::VECTOR_WORDS * stepped..][..run::VECTOR_WORDS];
        if let Some((addresses, size)) = addresses(warp, kernel, file) {
            let memories = memories_of(&warp.fixed, lent, &addresses, size);
            count(&mut self.accesses, format!("taken in {memories}"));
            let stores =
                matches!(next(warp, kernel), Some(Insn::Store { .. } | Insn::Vstore { .. }));
            if writers.touch(stepped, &addresses, size, stores) {
                let what = if stores { "a store over" } else { "a load of" };
                count(&mut self.accesses, format!("{what} another warp's store"));
            }
        }
        if let Some(insn) = next(warp, kernel) {
            self.stores.count(&insn, warp, file, 0);
            self.masked.count_taken(&insn, warp, file);
        }
        assert_eq!(step(kernel, lent), (0, 0));
        let after = group_of(&lent.state);
        assert!(after.well_formed(), "a step broke the group");
        count(&mut self.events, event(&before, &after, stepped));
        if warp.prefix != Prefix::None {
            count(&mut self.events, "a word behind a prefix");
        }
        if after.warps[stepped].depth > warp.depth {
            count(&mut self.events, "a split opens");
        }
        self.deepest = self.deepest.max(after.warps[stepped].depth);
    }

    fn count_skips(&mut self, group: &Group, stepped: usize) {
        let count_of = group.warps.len();
        let mut at = group.turn as usize;
        while at != stepped {
            let what = if group.warps[at].ended { "an ended" } else { "a waiting" };
            count(&mut self.events, format!("{what} warp is skipped"));
            at = (at + 1) % count_of;
        }
    }

    /// A refused step must change nothing.
    fn trace_refusal(&mut self, kernel: &[u32], mut lent: GroupLent, answer: &Answer) {
        let before = lent.clone();
        let wid = match answer.said {
            Said::Group { wid, .. } => wid,
            _ => panic!("not a group's answer"),
        };
        assert_eq!(step(kernel, &mut lent), (answer.code, wid));
        assert!(lent == before, "a refused step changed something");
        if answer.code == 3 {
            let group = group_of(&lent.state);
            let wild = group.turn as usize >= group.warps.len();
            return count(&mut self.stops, if wild { "3, with a wild turn" } else { "3" });
        }
        let group = group_of(&lent.state);
        let warp = &group.warps[wid as usize];
        let which = if wid == 0 { "warp 0" } else { "another warp" };
        count(&mut self.stops, format!("{} by {which}", answer.code));
        let file = &lent.vector[run::VECTOR_WORDS * wid as usize..][..run::VECTOR_WORDS];
        if let (9 | 15, Some((addresses, size))) = (answer.code, addresses(warp, kernel, file)) {
            let memories = memories_of(&warp.fixed, &lent, &addresses, size);
            let what = if answer.code == 9 { "refused" } else { "clashing" };
            count(&mut self.accesses, format!("{what}, {memories}"));
        }
        if answer.code == 6 {
            self.masked.count_refused(warp.prefix, exec::fetch(warp, kernel));
        }
        if let (9 | 14 | 15, Some(insn)) = (answer.code, next(warp, kernel)) {
            self.stores.count(&insn, warp, file, answer.code);
        }
    }

    fn across(&self) -> u32 {
        let across = self.accesses.iter().filter(|(what, _)| what.contains("across"));
        across.map(|(_, times)| times).sum()
    }

    /// What should occur, and how often it does.
    fn wanted(&self) -> Vec<(String, u32)> {
        let stops = ["5", "6", "7", "8", "9", "10", "11", "14", "15"]
            .map(|code| ["warp 0", "another warp"].map(|which| format!("{code} by {which}")))
            .concat();
        let stops: Vec<&str> = stops.iter().map(String::as_str).collect();
        let (stores, masked) = (self.stores.counts(), self.masked.taken());
        [
            each(&self.codes, &["launch 0", "launch 1", "launch 13", "step 0", "step 1"]),
            each(&self.codes, &["step 2", "step 3", "run 0", "run 1", "run 2", "run 3"]),
            each(&self.events, &["an end releases the waiting", "the last to arrive releases all"]),
            each(&self.events, &["an ended warp is skipped", "a waiting warp is skipped"]),
            each(&self.events, &["the last one ends", "a split opens", "a word behind a prefix"]),
            each(&self.accesses, &["taken in data", "taken in local", "taken in data and local"]),
            each(&self.accesses, &["a load of another warp's store"]),
            each(&self.accesses, &["a store over another warp's store", "clashing, data"]),
            each(&self.accesses, &["clashing, local", "clashing, data and local"]),
            each(stores, &["taken, private lanes meet", "refused 15, private lanes meet"]),
            each(stores, &["taken, a lane that is not active would clash"]),
            each(stores, &["refused 15, neighbours clash", "refused 15, no neighbours clash"]),
            each(masked, &["others, bit 0 is set in some active lanes", "others, in a split"]),
            each(masked, &["vmerge, bit 0 is set in some active lanes", "others, into v0"]),
            vec![("an access across both memories".into(), self.across())],
            each(&self.states, &["zeroed", "left"]),
            each(&self.stops, &["3", "3, with a wild turn"]),
            each(&self.stops, &stops),
        ]
        .concat()
    }
}

/// Which warp stored to each byte last.
#[derive(Default)]
struct Writers(BTreeMap<u32, usize>);

impl Writers {
    /// Whether a load or store meets a byte that another warp stored last.
    fn touch(&mut self, warp: usize, addresses: &[u32], size: usize, stores: bool) -> bool {
        let bytes = || addresses.iter().flat_map(|at| (0..size as u32).map(move |n| at + n));
        let others = bytes().filter_map(|byte| self.0.get(&byte)).any(|writer| *writer != warp);
        if stores {
            self.0.extend(bytes().map(|byte| (byte, warp)));
        }
        others
    }
}

fn group_of(state: &[u32]) -> Group {
    let words = state[1..].chunks_exact(saved::WORDS);
    let warps = words.map(|words| saved::from_words(words).expect("a warp's words")).collect();
    Group { turn: state[0], warps }
}

/// The warp whose step is next.
fn stepping(group: &Group) -> usize {
    let count = group.warps.len();
    (0..count)
        .map(|n| (group.turn as usize + n) % count)
        .find(|at| runs(&group.warps[*at]))
        .expect("one that runs")
}

fn step(kernel: &[u32], lent: &mut GroupLent) -> (u32, u32) {
    let mut stopped = [7];
    let GroupLent { state, vector, data, local } = lent;
    (group::step(state, kernel, vector, data, local, &mut stopped), stopped[0])
}

pub fn statistics(cases: &[Case], file: usize) {
    let mut stats = Stats::default();
    cases.iter().for_each(|case| stats.count(case));
    eprintln!("cases {} ({file} bytes)", cases.len());
    eprintln!("steps {}, longest run {}, deepest {}", stats.steps, stats.longest, stats.deepest);
    eprintln!("groups stepped, by warps {:?}", stats.warps);
    let [masked, with_vm_0] = stats.masked.counts();
    let named = [
        ("kinds", &stats.kinds),
        ("codes", &stats.codes),
        ("refused with 1", &stats.sizes),
        ("states of refused launches", &stats.states),
        ("events", &stats.events),
        ("accesses", &stats.accesses),
        ("stores by lanes", stats.stores.counts()),
        masked,
        with_vm_0,
        ("stops", &stats.stops),
    ];
    print(&named, &stats.wanted(), FEWEST);
}
