//! Times the proved library's calls against the reference's, the two taking turns.
#![forbid(unsafe_code)]

mod class;
mod group;
mod words;

use linked::kernels::{subjects, Call, Subject, CODE_BASE, DATA_BASE, DATA_BYTES};
use linked::{number_or, usage_error, Lent, Linked, Machine, Reference};
use reference::generate::card_of;
use reference::state::{Fixed, Launch};
use reference::{run, saved, Refusal};
use std::process::ExitCode;
use std::time::Instant;

const USAGE: &str = "usage: timing [REPETITIONS], or timing class|group|words [REPETITIONS]
    REPETITIONS  how often each machine runs each kernel, 1 to 65535; 201 if not given
    class        mark a class's sheets instead
    group        run a group of warps instead, and the same warps alone
    words        decode single words instead";

/// The part of the times that the ratio is taken at: what a run takes when little disturbs it.
const LOW: usize = 5;

fn main() -> ExitCode {
    let mut arguments = std::env::args().skip(1).peekable();
    let what = arguments.next_if(|first| ["class", "group", "words"].contains(&&first[..]));
    let repetitions = number_or::<u16>(arguments.next(), "REPETITIONS", 201);
    match (repetitions, arguments.next()) {
        (Ok(0), _) => usage_error("REPETITIONS is 0", USAGE),
        (Ok(_), Some(_)) => usage_error("too many arguments", USAGE),
        (Err(wrong), _) => usage_error(&wrong, USAGE),
        (Ok(repetitions), None) => match what.as_deref() {
            Some("class") => class::report(repetitions),
            Some("group") => group::report(repetitions),
            Some(_) => words::report(repetitions),
            None => report(repetitions),
        },
    }
}

fn report(repetitions: u16) -> ExitCode {
    println!("{repetitions} times each machine, taking turns; nanoseconds a step at {LOW} % of the times, and the median");
    println!("before each time, outside it, the state is the launched one, vector file and data are all zeros");
    println!("{}", head("Kernel"));
    for subject in &subjects() {
        let launched = launched(subject);
        match equal_ends(subject, &launched) {
            Some(steps) => {
                let ours = || timed::<Linked>(subject, &launched).2;
                let theirs = || timed::<Reference>(subject, &launched).2;
                println!("{}", line(subject.name, steps, &measure(repetitions, ours, theirs)))
            }
            None => {
                println!("{}: the two machines end apart; see compare", subject.name);
                return ExitCode::FAILURE;
            }
        }
    }
    ExitCode::SUCCESS
}

/// The first two lines of a table of steps.
fn head(what: &str) -> String {
    format!(
        "| {what:<12} |  Steps | Library |  median | Reference |  median | Ratio |
|--------------|--------|---------|---------|-----------|---------|-------|"
    )
}

fn line(name: &str, steps: u32, times: &Timed) -> String {
    let [ours, our_median, theirs, their_median] =
        times.low_and_median().map(|time| time / f64::from(steps));
    format!(
        "| {name:<12} | {steps:>6} | {ours:>7.2} | {our_median:>7.2} | {theirs:>9.2} | {their_median:>7.2} | {:>5.3} |",
        times.ratio()
    )
}

/// A warp of 32 lanes, those of the mask launched, at the kernel's first word.
fn card_bytes(subject: &Subject) -> Vec<u8> {
    card_of_warp(subject, 0, 1)
}

/// The same as one of a group's warps.
fn card_of_warp(subject: &Subject, wid: u32, numw: u32) -> Vec<u8> {
    let fixed = Fixed {
        numt: 32,
        numw,
        wid,
        mask: subject.mask,
        code_base: CODE_BASE,
        data_base: DATA_BASE,
        ..Fixed::default()
    };
    card_of(&Launch { fixed, entry: CODE_BASE })
}

/// What is lent to a launch.
fn unlaunched() -> Lent {
    Lent {
        state: vec![0; saved::WORDS],
        vector: vec![0; run::VECTOR_WORDS],
        data: vec![0; DATA_BYTES],
        local: vec![],
        words: vec![0],
        target: vec![],
    }
}

fn launched(subject: &Subject) -> Lent {
    let mut lent = unlaunched();
    let code = Linked::launch(&card_bytes(subject), &subject.kernel, &mut lent);
    assert_eq!(code, 0, "the launch is refused");
    lent
}

/// To the kernel's end: the answer, what is left, and the time in nanoseconds.
fn timed<M: Machine>(subject: &Subject, launched: &Lent) -> (u32, Lent, f64) {
    let mut lent = launched.clone();
    let start = Instant::now();
    let code = match subject.call {
        Call::Run => M::run(&subject.kernel, u32::MAX, &mut lent),
        Call::Steps => step_by_step::<M>(&subject.kernel, &mut lent),
    };
    let time = start.elapsed();
    (code, lent, time.as_nanos() as f64)
}

/// A call for each step, to the first refusal.
fn step_by_step<M: Machine>(kernel: &[u32], lent: &mut Lent) -> u32 {
    loop {
        let code = M::step(kernel, lent);
        if code != 0 {
            return code;
        }
        lent.words[0] += 1;
    }
}

/// The steps to the kernel's end, if both machines get there and leave the same.
fn equal_ends(subject: &Subject, launched: &Lent) -> Option<u32> {
    let (code, ours, _) = timed::<Linked>(subject, launched);
    let (their_code, theirs, _) = timed::<Reference>(subject, launched);
    let ended = code == Refusal::Ended.number() && code == their_code;
    (ended && ours == theirs).then(|| ours.words[0])
}

/// The sorted times of the library and of the reference.
struct Timed {
    ours: Vec<f64>,
    theirs: Vec<f64>,
}

fn measure(repetitions: u16, ours: impl Fn() -> f64, theirs: impl Fn() -> f64) -> Timed {
    let [ours, theirs] = in_turn(repetitions, [&ours, &theirs]);
    Timed { ours, theirs }
}

/// The sorted times of each side; the sides begin in turn.
fn in_turn<const N: usize>(repetitions: u16, sides: [&dyn Fn() -> f64; N]) -> [Vec<f64>; N] {
    let mut times = sides.map(|_| Vec::new());
    for n in 0..usize::from(repetitions) {
        for side in (0..N).map(|k| (n + k) % N) {
            times[side].push(sides[side]());
        }
    }
    times.iter_mut().for_each(|times| times.sort_by(f64::total_cmp));
    times
}

impl Timed {
    /// The library's time at `LOW` percent and its median, then the reference's.
    fn low_and_median(&self) -> [f64; 4] {
        let Timed { ours, theirs } = self;
        [(ours, LOW), (ours, 50), (theirs, LOW), (theirs, 50)]
            .map(|(times, percent)| percentile(times, percent))
    }

    fn ratio(&self) -> f64 {
        percentile(&self.ours, LOW) / percentile(&self.theirs, LOW)
    }
}

fn percentile(sorted: &[f64], percent: usize) -> f64 {
    sorted[(sorted.len() - 1) * percent / 100]
}
