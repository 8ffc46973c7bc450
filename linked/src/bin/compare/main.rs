//! Makes the same calls on the proved library and on the reference, and stops at the first
//! difference in an answer, its words, a state, a vector file, a memory or a written sheet.
#![forbid(unsafe_code)]

mod groups;

use linked::{number_or, usage_error, Lent, Linked, Machine, Reference};
use reference::case::{target_bytes, Case, Job};
use reference::generate::{all_cases, Rng, NO_STATE};
use reference::generate_marks::mark_cases;
use reference::isa::ENDPRG;
use reference::table::{Table, NOP, VM};
use reference::{run, saved, Refusal};
use std::collections::BTreeMap;
use std::fmt::LowerHex;
use std::process::ExitCode;

const USAGE: &str =
    "usage: compare [SEED [STEPS]], or compare groups [SEED [STEPS]], or compare words
    SEED    the first round's number, 0 to 4294967295; 1 if not given
    STEPS   rounds are played until this many steps are taken; 5000000 if not given
    groups  play the rounds of groups instead, and count their steps
    words   decode each of the 2^32 words and do nothing else";

/// How many words a round decodes besides those that its kernels run into.
const DECODED: u32 = 100_000;

/// A waiting warp is released this often, and then runs this many steps at most.
const RELEASES: u32 = 8;
const STEPS_AFTER_RELEASE: u32 = 200;

fn main() -> ExitCode {
    let mut arguments = std::env::args().skip(1).peekable();
    let groups = arguments.next_if(|first| first == "groups").is_some();
    let (first, second, third) = (arguments.next(), arguments.next(), arguments.next());
    if !groups && first.as_deref() == Some("words") && second.is_none() {
        return all_words();
    }
    let numbers = number_or(first, "SEED", 1)
        .and_then(|seed| Ok((seed, number_or(second, "STEPS", 5_000_000)?)));
    match (numbers, third) {
        (Ok((seed, steps)), None) => rounds(seed, steps, groups),
        (Ok(_), Some(_)) => usage_error("too many arguments", USAGE),
        (Err(wrong), _) => usage_error(&wrong, USAGE),
    }
}

/// Plays rounds, of groups or of the other calls, from number `seed` on until `steps` steps are
/// taken.
fn rounds(seed: u32, steps: u64, groups: bool) -> ExitCode {
    let mut seen = Seen::default();
    let mut round = seed;
    loop {
        let mut next = Round::new(round, &mut seen);
        let played = if groups { next.play_groups() } else { next.play() };
        if let Err(difference) = played {
            let again = if groups { "compare groups" } else { "compare" };
            println!(
                "DIFFERENCE in round {round}, {difference}\nrepeat it with: {again} {round} 1"
            );
            return ExitCode::FAILURE;
        }
        if seen.steps >= steps {
            break;
        }
        round = round.wrapping_add(1);
    }
    seen.print();
    let what = if groups { "group steps" } else { "steps" };
    println!("total: rounds {seed} to {round}, {} {what}, 0 differences", seen.steps);
    ExitCode::SUCCESS
}

/// Decodes every word there is.
fn all_words() -> ExitCode {
    let mut refused = 0u64;
    for word in 0..=u32::MAX {
        match decode(word) {
            Ok(answer) => refused += u64::from(answer != 0),
            Err(difference) => {
                println!("DIFFERENCE in {difference}");
                return ExitCode::FAILURE;
            }
        }
    }
    println!("decode: all 4294967296 words, {refused} refused, 0 differences");
    ExitCode::SUCCESS
}

/// Both machines' answer to a word.
fn decode(word: u32) -> Result<u32, String> {
    let (ours, theirs) = (Linked::decode(word), Reference::decode(word));
    if ours == theirs {
        return Ok(ours);
    }
    Err(format!("decode of {word:08x}: answer {ours} against the reference's {theirs}"))
}

#[derive(Debug)]
enum Call<'a> {
    Launch(&'a [u8]),
    Step,
    Run(u32),
    Release,
    Mark(&'a [u8], &'a [u8]),
    WriteSheet(&'a [u8]),
    GroupLaunch(&'a [u8]),
    GroupStep,
    GroupRun(u32),
    /// By the name that it is counted under.
    StepWarps(&'static str),
}

impl Call<'_> {
    fn make<M: Machine>(&self, kernel: &[u32], lent: &mut Lent) -> u32 {
        match *self {
            Call::Launch(card) => M::launch(card, kernel, lent),
            Call::Step => M::step(kernel, lent),
            Call::Run(budget) => M::run(kernel, budget, lent),
            Call::Release => M::release(&mut lent.state),
            Call::Mark(card, sheet) => M::mark(card, kernel, sheet, lent),
            Call::WriteSheet(card) => M::write_sheet(card, kernel, lent),
            Call::GroupLaunch(cards) => M::group_launch(cards, kernel, lent),
            Call::GroupStep => M::group_step(kernel, lent),
            Call::GroupRun(budget) => M::group_run(kernel, budget, lent),
            Call::StepWarps(_) => M::step_warps(kernel, lent),
        }
    }

    /// For a message: a sheet, or all cards of a group, are too long for one.
    fn shown(&self) -> String {
        match self {
            Call::GroupLaunch(cards) => format!("GroupLaunch({} bytes)", cards.len()),
            Call::Mark(card, sheet) => format!("Mark({card:?}, {} bytes)", sheet.len()),
            other => format!("{other:?}"),
        }
    }

    fn kind(&self) -> &'static str {
        match self {
            Call::Launch(_) => "launch",
            Call::Step => "step",
            Call::Run(_) => "run",
            Call::Release => "release",
            Call::Mark(..) => "mark",
            Call::WriteSheet(_) => "written sheet",
            Call::GroupLaunch(_) => "group launch",
            Call::GroupStep => "group step",
            Call::GroupRun(_) => "group run",
            Call::StepWarps(name) => name,
        }
    }
}

/// The same lent runs, once for each machine.
#[derive(Clone)]
struct Pair {
    linked: Lent,
    reference: Lent,
}

impl Pair {
    fn of(lent: Lent) -> Pair {
        Pair { reference: lent.clone(), linked: lent }
    }

    fn set_words(&mut self, words: Vec<u32>) {
        (self.linked.words, self.reference.words) = (words.clone(), words);
    }
}

/// What was compared: the answers of each kind of call, and the steps taken; and of the single
/// steps, the prefixes taken by their kind, and the answers to words behind a prefix and to vector
/// words with vm = 0.
#[derive(Default)]
struct Seen {
    answers: BTreeMap<&'static str, BTreeMap<u32, u64>>,
    steps: u64,
    prefixes: [u64; 2],
    behind: [BTreeMap<u32, u64>; 2],
    masked: BTreeMap<u32, u64>,
    groups: groups::SeenOfGroups,
}

/// The kinds of a prefix, as a state has them from 1 on.
const PREFIXES: [&str; 2] = ["REGEXT", "REGEXTI"];

/// Which kind of prefix is pending in a state, counted from 0.
fn pending(state: &[u32]) -> Option<usize> {
    let kind = *state.get(saved::PREFIX_AT)? as usize;
    (1..=PREFIXES.len()).contains(&kind).then(|| kind - 1)
}

/// Whether the word at a state's PC is a vector word with vm = 0.
fn is_masked(state: &[u32], kernel: &[u32]) -> bool {
    let from_base = |state: &[u32]| {
        let (pc, base) = (state.get(saved::PC_AT)?, state.get(saved::CODE_BASE_AT)?);
        pc.checked_sub(*base)
    };
    let word = from_base(state).and_then(|offset| kernel.get(offset as usize / 4));
    word.map_or(false, |word| word & 0x7f == 0x57 && word & VM == 0)
}

/// Whether an answer to a step says something of its word.
fn is_of_a_word(answer: u32) -> bool {
    answer == 0 || answer >= Refusal::NoWord.number()
}

impl Seen {
    fn count(&mut self, kind: &'static str, answer: u32) {
        *self.answers.entry(kind).or_default().entry(answer).or_default() += 1;
    }

    /// A single step: what was pending before it and is after it, and its answer. Where the state
    /// was refused, nothing was pending.
    fn count_prefix(&mut self, before: Option<usize>, after: Option<usize>, answer: u32) {
        match (before, after) {
            (_, Some(kind)) if answer == 0 => self.prefixes[kind] += 1,
            (Some(kind), _) if is_of_a_word(answer) => {
                *self.behind[kind].entry(answer).or_default() += 1;
            }
            _ => {}
        }
    }

    fn print(&self) {
        for (kind, answers) in &self.answers {
            println!("{kind}: {} calls compared; by answer {}", sum(answers), each(answers));
        }
        self.groups.print();
        for ((name, taken), answers) in PREFIXES.iter().zip(&self.prefixes).zip(&self.behind) {
            if *taken == 0 && answers.is_empty() {
                continue;
            }
            println!("{name}: {taken} taken; words behind it: {}", taken_and_refused(answers));
        }
        if !self.masked.is_empty() {
            println!("vector words with vm = 0: {}", taken_and_refused(&self.masked));
        }
    }
}

fn taken_and_refused(answers: &BTreeMap<u32, u64>) -> String {
    let taken = answers.get(&0).copied().unwrap_or(0);
    let refused = sum(answers) - taken;
    format!("{taken} taken, {refused} refused; by answer {}", each(answers))
}

fn sum(answers: &BTreeMap<u32, u64>) -> u64 {
    answers.values().sum()
}

fn each(answers: &BTreeMap<u32, u64>) -> String {
    let each: Vec<_> = answers.iter().map(|(code, n)| format!("{code}: {n}")).collect();
    each.join(", ")
}

struct Round<'a> {
    number: u32,
    /// Draws what the generator's cases leave open.
    rng: Rng,
    seen: &'a mut Seen,
}

impl Round<'_> {
    fn new(number: u32, seen: &mut Seen) -> Round<'_> {
        Round { number, rng: Rng::new(1 << 40 | u64::from(number)), seen }
    }

    fn play(&mut self) -> Result<(), String> {
        for (n, case) in all_cases(self.number).iter().enumerate() {
            self.case(case).map_err(|what| format!("case {n}: {what}"))?;
        }
        for (n, case) in mark_cases(self.number).iter().enumerate() {
            self.case(case).map_err(|what| format!("marking case {n}: {what}"))?;
        }
        self.decode_words()
    }

    fn case(&mut self, case: &Case) -> Result<(), String> {
        match case {
            Case::Launch { job, budget, .. } => {
                let (kernel, vector, data) = job.build();
                self.launch(&job.card, &kernel, vector, data, *budget)
            }
            Case::State { state, kernel, data, vector, budget } => {
                let pair = self.pair(state.clone(), vector.build(), data.build());
                self.run_and_step(&kernel.build(), pair, *budget)
            }
            Case::CardRead { card } => {
                let vector = self.words(run::VECTOR_WORDS as u32);
                self.launch(card, &[NOP, ENDPRG], vector, vec![0; 8], 3)
            }
            Case::Release { state } => {
                let mut pair = self.pair(state.clone(), vec![], vec![]);
                self.both(&Call::Release, &[], &mut pair).map(|_| ())
            }
            // No call writes a card.
            Case::CardWrite { .. } => Ok(()),
            Case::Mark { job, sheet, result } => self.mark(job, sheet, *result).map(|_| ()),
            Case::Sheet { job, target, written } => self.write_sheet(job, *target, *written),
            Case::GroupLaunch { .. } | Case::GroupStep { .. } | Case::GroupRun { .. } => {
                self.group_case(case)
            }
        }
    }

    fn pair(&mut self, state: Vec<u32>, vector: Vec<u32>, data: Vec<u8>) -> Pair {
        let words = self.words(1);
        Pair::of(Lent { state, vector, data, words, local: vec![], target: vec![] })
    }

    /// What the words of an answer hold before it.
    fn words(&mut self, count: u32) -> Vec<u32> {
        (0..count).map(|_| self.rng.word()).collect()
    }

    /// Marks the sheet: the result's words.
    fn mark(&mut self, job: &Job, sheet: &[u8], result: u32) -> Result<Vec<u32>, String> {
        let (kernel, vector, data) = job.build();
        let mut pair = self.pair(vec![], vector, data);
        pair.set_words(self.words(result));
        if self.both(&Call::Mark(&job.card, sheet), &kernel, &mut pair)? == 0 {
            self.seen.count("result of a mark", pair.linked.words[0]);
        }
        Ok(pair.linked.words)
    }

    /// Writes the run's own sheet, which must then have full marks.
    fn write_sheet(&mut self, job: &Job, target: u32, written: u32) -> Result<(), String> {
        let (kernel, vector, data) = job.build();
        let mut pair = self.pair(vec![], vector, data);
        pair.set_words(self.words(written));
        let target = target_bytes(target);
        (pair.linked.target, pair.reference.target) = (target.clone(), target);
        if self.both(&Call::WriteSheet(&job.card), &kernel, &mut pair)? != 0 {
            return Ok(());
        }
        let Lent { words, target, .. } = pair.linked;
        match self.mark(job, &target[..words[0] as usize], 2)?[..] {
            [1, 0] => Ok(()),
            ref other => Err(format!("the library marks its own sheet {other:?}")),
        }
    }

    /// Makes the call on both machines and compares all that they leave.
    fn both(&mut self, call: &Call, kernel: &[u32], pair: &mut Pair) -> Result<u32, String> {
        let ours = call.make::<Linked>(kernel, &mut pair.linked);
        let theirs = call.make::<Reference>(kernel, &mut pair.reference);
        self.seen.count(call.kind(), ours);
        if ours == theirs && pair.linked == pair.reference {
            return Ok(ours);
        }
        let left = first_difference(&pair.linked, &pair.reference);
        let call = call.shown();
        Err(format!("{call}: answer {ours} against the reference's {theirs}; {left}"))
    }

    /// Launches into a state of any words, seldom of another length, and goes on from there.
    fn launch(
        &mut self,
        card: &[u8],
        kernel: &[u32],
        vector: Vec<u32>,
        data: Vec<u8>,
        budget: u32,
    ) -> Result<(), String> {
        let words = if self.rng.chance(16) { self.rng.pick(&NO_STATE) } else { saved::WORDS };
        let state = self.words(words as u32);
        let mut pair = self.pair(state, vector, data);
        match self.both(&Call::Launch(card), kernel, &mut pair)? {
            0 => self.run_and_step(kernel, pair, budget),
            _ => Ok(()),
        }
    }

    /// The same budget as runs and as single steps, which must end alike.
    fn run_and_step(&mut self, kernel: &[u32], pair: Pair, budget: u32) -> Result<(), String> {
        let (mut whole, mut single) = (pair.clone(), pair);
        if self.rng.chance(8) {
            self.refuse_count(kernel, &mut whole, budget)?;
        }
        self.advance(kernel, &mut whole, budget, Call::Run)?;
        self.advance(kernel, &mut single, budget, |_| Call::Step)?;
        single.set_words(whole.linked.words.clone());
        if whole.linked != single.linked {
            let left = first_difference(&whole.linked, &single.linked);
            return Err(format!("the library's run against its own single steps: {left}"));
        }
        self.both(&Call::Release, kernel, &mut whole).map(|_| ())
    }

    /// A run whose count has not exactly one word's room.
    fn refuse_count(&mut self, kernel: &[u32], pair: &mut Pair, budget: u32) -> Result<(), String> {
        let room = self.rng.pick(&[0, 2, 3]);
        let one = pair.linked.words.clone();
        pair.set_words(self.words(room));
        self.both(&Call::Run(budget), kernel, pair)?;
        pair.set_words(one);
        Ok(())
    }

    /// Takes the budget's steps by calls of `next`, releasing the warp where it waits.
    fn advance<'c>(
        &mut self,
        kernel: &[u32],
        pair: &mut Pair,
        budget: u32,
        next: impl Fn(u32) -> Call<'c>,
    ) -> Result<(), String> {
        let (mut left, mut releases) = (budget, 0);
        loop {
            let call = next(left);
            if left == 0 && matches!(call, Call::Step) {
                return Ok(());
            }
            let before = pending(&pair.linked.state);
            let masked = is_masked(&pair.linked.state, kernel);
            let code = self.both(&call, kernel, pair)?;
            let taken = match call {
                Call::Run(_) => pair.linked.words[0],
                _ => {
                    self.seen.count_prefix(before, pending(&pair.linked.state), code);
                    if masked && is_of_a_word(code) {
                        *self.seen.masked.entry(code).or_default() += 1;
                    }
                    u32::from(code == 0)
                }
            };
            self.seen.steps += u64::from(taken);
            left -= taken;
            if code == Refusal::Waiting.number() && releases < RELEASES {
                self.both(&Call::Release, kernel, pair)?;
                (left, releases) = (left.min(STEPS_AFTER_RELEASE), releases + 1);
            } else if code != 0 || left == 0 {
                return Ok(());
            }
        }
    }

    /// Words drawn from the tables, words one bit beside them, and any words.
    fn decode_words(&mut self) -> Result<(), String> {
        let table = Table::whole();
        for n in 0..DECODED {
            let any = self.rng.word();
            let variant = &table.all[self.rng.below(table.all.len() as u32) as usize];
            let legal = variant.fixed | any & variant.free;
            let word = [any, legal, legal ^ 1 << self.rng.below(32)][n as usize % 3];
            self.seen.count("decode", decode(word)?);
        }
        Ok(())
    }
}

/// The first place of each lent run in which the two differ.
fn first_difference(ours: &Lent, theirs: &Lent) -> String {
    let places = [
        first_place("state word", &ours.state, &theirs.state),
        first_place("vector word", &ours.vector, &theirs.vector),
        first_place("data byte", &ours.data, &theirs.data),
        first_place("local byte", &ours.local, &theirs.local),
        first_place("word of the answer", &ours.words, &theirs.words),
        first_place("target byte", &ours.target, &theirs.target),
    ];
    places.into_iter().flatten().collect::<Vec<_>>().join("; ")
}

fn first_place<T: PartialEq + LowerHex>(name: &str, ours: &[T], theirs: &[T]) -> Option<String> {
    let at = ours.iter().zip(theirs).position(|(a, b)| a != b)?;
    Some(format!("{name} {at}: {:x} against {:x}", ours[at], theirs[at]))
}
