//! Times a run of a group against single runs of the same warps.

use crate::{card_of_warp, head, in_turn, line, percentile, unlaunched, Timed, LOW};
use linked::kernels::{subjects, Subject};
use linked::{Lent, Linked, Machine, Reference};
use reference::group::state_words;
use reference::{run, saved, Refusal};
use std::process::ExitCode;
use std::time::Instant;

const WARPS: usize = 8;

pub fn report(repetitions: u16) -> ExitCode {
    println!("{WARPS} warps of the arithmetic kernel as a group and each alone, {repetitions} times each machine, taking turns;");
    println!("nanoseconds a step at {LOW} % of the times, and the median");
    println!("before each time, outside it, the states are the launched ones, vector files and data are all zeros");
    println!("{}", head("Warps"));
    let warps = Warps::launched(subjects().swap_remove(0));
    let steps = match warps.equal_ends() {
        Some(steps) => steps,
        None => {
            println!("the group ends apart from its warps alone, or the two machines do; see compare groups");
            return ExitCode::FAILURE;
        }
    };
    let [our_group, their_group, our_singles, their_singles] = in_turn(
        repetitions,
        [
            &|| warps.time_group::<Linked>().1,
            &|| warps.time_group::<Reference>().1,
            &|| warps.time_singles::<Linked>().1,
            &|| warps.time_singles::<Reference>().1,
        ],
    );
    let (ours, theirs) = (ratio(&our_group, &our_singles), ratio(&their_group, &their_singles));
    println!("{}", line("a group", steps, &Timed { ours: our_group, theirs: their_group }));
    println!("{}", line("single runs", steps, &Timed { ours: our_singles, theirs: their_singles }));
    println!("a group against single runs: library {ours:.3}, reference {theirs:.3}");
    ExitCode::SUCCESS
}

fn ratio(group: &[f64], singles: &[f64]) -> f64 {
    percentile(group, LOW) / percentile(singles, LOW)
}

/// The same launched warps, as a group and each alone.
struct Warps {
    kernel: Vec<u32>,
    group: Lent,
    singles: Vec<Lent>,
}

impl Warps {
    fn launched(subject: Subject) -> Warps {
        let cards: Vec<Vec<u8>> =
            (0..WARPS as u32).map(|wid| card_of_warp(&subject, wid, WARPS as u32)).collect();
        let kernel = subject.kernel;
        let mut group = Lent {
            state: vec![0; state_words(WARPS)],
            vector: vec![0; run::VECTOR_WORDS * WARPS],
            words: vec![0; 2],
            ..unlaunched()
        };
        let code = Linked::group_launch(&cards.concat(), &kernel, &mut group);
        assert_eq!(code, 0, "the group's launch is refused");
        let single = |card: &Vec<u8>| {
            let mut lent = unlaunched();
            assert_eq!(Linked::launch(card, &kernel, &mut lent), 0, "a launch is refused");
            lent
        };
        let singles = cards.iter().map(single).collect();
        Warps { kernel, group, singles }
    }

    /// To the end of all warps: what is left, and the time in nanoseconds.
    fn time_group<M: Machine>(&self) -> (Lent, f64) {
        let mut lent = self.group.clone();
        let start = Instant::now();
        let code = M::group_run(&self.kernel, u32::MAX, &mut lent);
        let time = start.elapsed();
        assert_eq!(code, Refusal::Ended.number(), "the group doesn't end");
        (lent, time.as_nanos() as f64)
    }

    fn time_singles<M: Machine>(&self) -> (Vec<Lent>, f64) {
        let mut each = self.singles.clone();
        let start = Instant::now();
        let ended = each
            .iter_mut()
            .all(|lent| M::run(&self.kernel, u32::MAX, lent) == Refusal::Ended.number());
        let time = start.elapsed();
        assert!(ended, "a warp doesn't end");
        (each, time.as_nanos() as f64)
    }

    /// The steps of all warps, if both machines leave the same, the group and its warps alone.
    fn equal_ends(&self) -> Option<u32> {
        let (group, singles) = (self.time_group::<Linked>().0, self.time_singles::<Linked>().0);
        let same_machines = group == self.time_group::<Reference>().0
            && singles == self.time_singles::<Reference>().0;
        let steps: u32 = singles.iter().map(|lent| lent.words[0]).sum();
        let states = group.state[1..].chunks_exact(saved::WORDS);
        let files = group.vector.chunks_exact(run::VECTOR_WORDS);
        let same_warps = states.eq(singles.iter().map(|lent| &lent.state[..]))
            && files.eq(singles.iter().map(|lent| &lent.vector[..]));
        (same_machines && same_warps && group.words == [steps, 0]).then_some(steps)
    }
}
