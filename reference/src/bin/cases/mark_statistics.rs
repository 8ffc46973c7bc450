//! What the marking cases cover.

use crate::counts::{count, each, print, Counts};
use reference::case::{evaluate, Case, Job, Said};
use reference::generate_marks::end_and_steps;
use reference::isa::{decode, Insn};
use reference::sheet::{steps_of, STEP_BYTES};
use reference::table::VM;
use reference::{card, run};

/// How often each should occur at least.
const FEWEST: u32 = 20;

const MARKS: [&str; 4] = ["full", "differs", "short", "long"];

/// The fields of a step, and where each begins.
const FIELDS: [(&str, usize); 4] = [("pc", 0), ("word", 4), ("mask", 8), ("splits", 12)];

#[derive(Default)]
struct Stats {
    kinds: Counts,
    codes: Counts,
    /// What is refused with 1.
    sizes: Counts,
    marks: Counts,
    /// What is wrong in the first differing step, and where that step stands on the sheet.
    wrong: Counts,
    places: Counts,
    /// The numbers that end a run, and those that refuse a first step.
    ends: Counts,
    first: Counts,
    steps: usize,
    /// Steps that are prefixes, steps that are vector words with vm = 0, and runs with such steps.
    prefixes: usize,
    prefixed_runs: u32,
    masked: usize,
    masked_runs: u32,
    longest_run: usize,
    longest_sheet: usize,
    deepest: u8,
}

/// The first test that a case refused with 1 fails.
fn refused_with_1(case: &Case, job: &Job) -> &'static str {
    let words_fit = match case {
        Case::Mark { result, .. } => *result == 2,
        Case::Sheet { written, .. } => *written == 1,
        _ => true,
    };
    let words = job.kernel.total as usize;
    if card::read(&job.card).is_err() {
        "a card's value"
    } else if !words_fit {
        "words for the answer"
    } else if !(1..=run::KERNEL_WORDS).contains(&words) {
        "kernel words"
    } else if job.vector.total as usize != run::VECTOR_WORDS {
        "vector words"
    } else if job.data.total as usize > run::DATA_BYTES {
        "data bytes"
    } else if end_and_steps(job).0 == 1 {
        "a base plus a length"
    } else {
        "target bytes"
    }
}

fn word_of(step: &[u8]) -> u32 {
    u32::from_be_bytes([step[4], step[5], step[6], step[7]])
}

fn is_prefix(word: u32) -> bool {
    matches!(decode(word), Some(Insn::RegExt(_) | Insn::RegExtI(_)))
}

fn is_masked(word: u32) -> bool {
    word & 0x7f == 0x57 && word & VM == 0
}

impl Stats {
    fn count(&mut self, case: &Case) {
        let answer = evaluate(case);
        let (kind, job) = match case {
            Case::Mark { job, .. } => ("mark", job),
            Case::Sheet { job, .. } => ("sheet", job),
            _ => panic!("not a marking case"),
        };
        count(&mut self.kinds, kind);
        count(&mut self.codes, format!("{kind} {}", answer.code));
        let own = match answer.code {
            0 | 17 => self.count_run(job),
            1 => return count(&mut self.sizes, format!("{kind}: {}", refused_with_1(case, job))),
            _ => return,
        };
        if let (Case::Mark { sheet, .. }, Said::Mark([1..=4, _])) = (case, answer.said) {
            self.count_mark(sheet, &own, answer.said);
        }
    }

    fn count_run(&mut self, job: &Job) -> Vec<u8> {
        let (end, steps) = end_and_steps(job);
        count(if steps.is_empty() { &mut self.first } else { &mut self.ends }, end);
        self.steps += steps.len() / STEP_BYTES;
        self.longest_run = self.longest_run.max(steps.len() / STEP_BYTES);
        let words = || steps.chunks_exact(STEP_BYTES).map(word_of);
        let prefixes = words().filter(|word| is_prefix(*word)).count();
        self.prefixes += prefixes;
        self.prefixed_runs += u32::from(prefixes > 0);
        let masked = words().filter(|word| is_masked(*word)).count();
        self.masked += masked;
        self.masked_runs += u32::from(masked > 0);
        let splits = steps.chunks_exact(STEP_BYTES).map(|step| step[STEP_BYTES - 1]);
        self.deepest = splits.fold(self.deepest, u8::max);
        steps
    }

    fn count_mark(&mut self, sheet: &[u8], own: &[u8], said: Said) {
        let steps = steps_of(sheet).expect("a sheet that was marked");
        self.longest_sheet = self.longest_sheet.max(steps.len() / STEP_BYTES);
        if let Said::Mark([mark, step]) = said {
            count(&mut self.marks, MARKS[mark as usize - 1]);
            if step != 0 {
                self.count_difference(steps, own, step as usize);
            }
        }
    }

    fn count_difference(&mut self, steps: &[u8], own: &[u8], step: usize) {
        let at = STEP_BYTES * (step - 1);
        let (ours, theirs) = (&own[at..][..STEP_BYTES], &steps[at..][..STEP_BYTES]);
        let end = |field: usize| FIELDS.get(field + 1).map_or(STEP_BYTES, |(_, begin)| *begin);
        let wrong: Vec<&str> = (0..FIELDS.len())
            .filter(|field| {
                let bytes = FIELDS[*field].1..end(*field);
                ours[bytes.clone()] != theirs[bytes]
            })
            .map(|field| FIELDS[field].0)
            .collect();
        count(&mut self.wrong, wrong.join(" and "));
        let place = match (step, at + STEP_BYTES == steps.len()) {
            (1, _) => "first",
            (_, true) => "last",
            _ => "between",
        };
        count(&mut self.places, place);
    }

    /// What should occur, and how often it does.
    fn wanted(&self) -> Vec<(String, u32)> {
        [
            each(&self.codes, &["mark 0", "mark 1", "mark 13", "mark 16", "mark 17"]),
            each(&self.codes, &["sheet 0", "sheet 1", "sheet 13", "sheet 17"]),
            each(&self.marks, &MARKS),
            each(&self.wrong, &FIELDS.map(|(name, _)| name)),
            each(&self.ends, &["0", "3", "4", "5", "6", "7", "8", "9", "10", "11", "14", "15"]),
            vec![("a prefix in a run".into(), self.prefixed_runs)],
            vec![("a masked word in a run".into(), self.masked_runs)],
        ]
        .concat()
    }
}

pub fn statistics(cases: &[Case], file: usize) {
    let mut stats = Stats::default();
    cases.iter().for_each(|case| stats.count(case));
    eprintln!("cases {} ({file} bytes)", cases.len());
    eprintln!(
        "steps {}, longest run {}, longest sheet {}, deepest {}",
        stats.steps, stats.longest_run, stats.longest_sheet, stats.deepest
    );
    eprintln!("prefixes {}, in {} runs", stats.prefixes, stats.prefixed_runs);
    eprintln!("masked words {}, in {} runs", stats.masked, stats.masked_runs);
    let named = [
        ("kinds", &stats.kinds),
        ("codes", &stats.codes),
        ("refused with 1", &stats.sizes),
        ("marks", &stats.marks),
        ("wrong in the first differing step", &stats.wrong),
        ("that step on its sheet", &stats.places),
        ("ends of runs", &stats.ends),
        ("first steps refused", &stats.first),
    ];
    print(&named, &stats.wanted(), FEWEST);
}
