//! The rounds of groups: launches, single steps and runs.

use crate::{each, first_difference, Call, Pair, Round};
use linked::{stands_for_warps, Lent};
use reference::case::{Case, Data, GroupLent, Handed, Job};
use reference::generate_groups::group_cases;
use reference::group::{state_words, WARPS};
use reference::run::VECTOR_WORDS;
use reference::saved::{WAITING_AT, WORDS};
use std::collections::BTreeMap;

/// What a group that is handed in is run and stepped for, after its own case.
const STEPS_ON: u32 = 60;

const STEP_WARPS: &str = "bench_step_warps";

/// Of the groups that were stepped: how many had so many warps, and how often all that waited were
/// released.
#[derive(Default)]
pub struct SeenOfGroups {
    warps: BTreeMap<u32, u64>,
    arrivals: u64,
    releases: u64,
}

impl SeenOfGroups {
    pub fn print(&self) {
        if !self.warps.is_empty() {
            println!("groups stepped: by warps {}", each(&self.warps));
            println!(
                "barriers, of the single steps: {} warps began to wait, {} steps released all that waited",
                self.arrivals, self.releases
            );
        }
    }

    /// A single step, by how many warps waited before and after it.
    fn count_step(&mut self, before: usize, after: usize) {
        self.arrivals += u64::from(after > before);
        self.releases += u64::from(before > 0 && after == 0);
    }
}

/// How many warps of a saved group wait.
fn waiting(state: &[u32]) -> usize {
    let warps = state.get(1..).unwrap_or(&[]).chunks_exact(WORDS);
    warps.filter(|words| words[WAITING_AT] == 1).count()
}

impl Round<'_> {
    pub fn play_groups(&mut self) -> Result<(), String> {
        for (n, case) in group_cases(self.number).iter().enumerate() {
            self.case(case).map_err(|what| format!("group case {n}: {what}"))?;
        }
        Ok(())
    }

    pub fn group_case(&mut self, case: &Case) -> Result<(), String> {
        match case {
            Case::GroupLaunch { job, local, state, budget } => {
                self.launch_group(job, local, *state, *budget)
            }
            Case::GroupStep { handed, stopped } => self.hand_in(handed, *stopped, Call::GroupStep),
            Case::GroupRun { handed, budget, out } => {
                self.hand_in(handed, *out, Call::GroupRun(*budget))
            }
            _ => Err("not a group case".into()),
        }
    }

    /// Launches into a state of any words and goes on from there.
    fn launch_group(
        &mut self,
        job: &Job,
        local: &Data,
        state: u32,
        budget: u32,
    ) -> Result<(), String> {
        let (kernel, vector, data) = job.build();
        let state = self.words(state);
        let mut pair = self.group_pair(GroupLent { state, vector, data, local: local.build() });
        match self.both(&Call::GroupLaunch(&job.card), &kernel, &mut pair)? {
            0 => self.run_and_step_group(&kernel, pair, budget),
            _ => Ok(()),
        }
    }

    /// Makes the case's own call with so many words for the answer, and goes on from what was
    /// handed in.
    fn hand_in(&mut self, handed: &Handed, words: u32, call: Call) -> Result<(), String> {
        let (kernel, lent) = handed.build();
        let pair = self.group_pair(lent);
        let mut own = pair.clone();
        own.set_words(self.words(words));
        self.both(&call, &kernel, &mut own)?;
        if matches!(call, Call::GroupStep) {
            self.step_warps(STEP_WARPS, &kernel, &mut pair.clone())?;
            self.step_odd_warps(&kernel, &pair)?;
        }
        let budget = match call {
            Call::GroupRun(budget) => budget.min(STEPS_ON),
            _ => self.rng.below(STEPS_ON),
        };
        self.run_and_step_group(&kernel, pair, budget)
    }

    fn group_pair(&mut self, lent: GroupLent) -> Pair {
        let GroupLent { state, vector, data, local } = lent;
        let words = self.words(2);
        Pair::of(Lent { state, vector, data, local, words, target: vec![] })
    }

    /// The same budget as one run, as two runs and as single steps, which must end alike.
    fn run_and_step_group(
        &mut self,
        kernel: &[u32],
        pair: Pair,
        budget: u32,
    ) -> Result<(), String> {
        let warps = pair.linked.state.len() / WORDS;
        let (mut whole, mut parts, mut single) = (pair.clone(), pair.clone(), pair);
        let answer = self.run_group(kernel, &mut whole, budget)?;
        if answer.steps > 0 {
            *self.seen.groups.warps.entry(warps as u32).or_default() += 1;
        }
        let first = self.rng.below(budget.max(1)); // less than the budget, unless that is 0
        let mut in_parts = self.run_group(kernel, &mut parts, first)?;
        if in_parts.code == 0 {
            let rest = self.run_group(kernel, &mut parts, budget - first)?;
            in_parts = Ended { steps: in_parts.steps + rest.steps, ..rest };
        }
        let in_steps = self.step_group(kernel, &mut single, budget)?;
        ends_alike("two runs", (answer, &whole), (in_parts, &mut parts))?;
        // A step that is not asked for tests nothing.
        match budget {
            0 => Ok(()),
            _ => ends_alike("single steps", (answer, &whole), (in_steps, &mut single)),
        }
    }

    fn run_group(&mut self, kernel: &[u32], pair: &mut Pair, budget: u32) -> Result<Ended, String> {
        pair.set_words(self.words(2));
        let code = self.both(&Call::GroupRun(budget), kernel, pair)?;
        let (steps, wid) = (pair.linked.words[0], pair.linked.words[1]);
        self.seen.steps += u64::from(steps);
        Ok(Ended { code, steps, wid })
    }

    /// Single steps to the first refusal, each taken of the words and of lent warps.
    fn step_group(
        &mut self,
        kernel: &[u32],
        pair: &mut Pair,
        budget: u32,
    ) -> Result<Ended, String> {
        let mut lent_warps = pair.clone();
        for steps in 0..budget {
            self.step_warps(STEP_WARPS, kernel, &mut lent_warps)?;
            pair.set_words(self.words(1));
            let before = waiting(&pair.linked.state);
            let code = self.both(&Call::GroupStep, kernel, pair)?;
            let wid = pair.linked.words[0];
            if code != 0 || wid != 0 {
                return Ok(Ended { code, steps, wid });
            }
            self.seen.steps += 1;
            self.seen.groups.count_step(before, waiting(&pair.linked.state));
        }
        Ok(Ended { code: 0, steps: budget, wid: 0 })
    }

    /// A step of the warps that the words stand for, if they do.
    fn step_warps(
        &mut self,
        name: &'static str,
        kernel: &[u32],
        pair: &mut Pair,
    ) -> Result<(), String> {
        if !stands_for_warps(&pair.linked.state) {
            return Ok(());
        }
        pair.set_words(vec![u32::MAX]); // no WID, so that one which is not written is seen
        self.both(&Call::StepWarps(name), kernel, pair).map(|_| ())
    }

    /// The same warps with a turn that names none of them, no warps, and more than a group has.
    fn step_odd_warps(&mut self, kernel: &[u32], pair: &Pair) -> Result<(), String> {
        let lent = &pair.linked;
        if !stands_for_warps(&lent.state) {
            return Ok(());
        }
        let (turn, own) = (lent.state[0], lent.state.len() / WORDS);
        for (name, turn, warps, files) in [
            ("bench_step_warps, turn past the last", own as u32, own, own),
            ("bench_step_warps, largest turn", u32::MAX, own, own),
            ("bench_step_warps, no warps", turn, 0, 0),
            ("bench_step_warps, 33 warps", turn, WARPS + 1, WARPS + 1),
            ("bench_step_warps, 33 warps and 32 files", turn, WARPS + 1, WARPS),
        ] {
            self.step_warps(name, kernel, &mut Pair::of(repeated(lent, turn, warps, files)))?;
        }
        Ok(())
    }
}

/// With another turn, and so many warps and vector files: the same ones again and again.
fn repeated(lent: &Lent, turn: u32, warps: usize, files: usize) -> Lent {
    let each = lent.state[1..].iter().copied().cycle();
    let state = std::iter::once(turn).chain(each).take(state_words(warps)).collect();
    let vector = lent.vector.iter().copied().cycle().take(VECTOR_WORDS * files).collect();
    Lent { state, vector, ..lent.clone() }
}

/// How a run, or steps in its place, ended.
#[derive(Clone, Copy, Debug, PartialEq, Eq)]
struct Ended {
    code: u32,
    steps: u32,
    wid: u32,
}

/// The library's run against what stands in its place, all but the words of their last answers.
fn ends_alike(
    other: &str,
    (run, whole): (Ended, &Pair),
    (ended, parts): (Ended, &mut Pair),
) -> Result<(), String> {
    parts.set_words(whole.linked.words.clone());
    if run == ended && whole.linked == parts.linked {
        return Ok(());
    }
    let left = first_difference(&whole.linked, &parts.linked);
    Err(format!("the library's run, {run:?}, against its own {other}, {ended:?}; {left}"))
}
