//! The generator of marking cases: sheets of a run's own steps, whole and damaged, to be marked,
//! and runs whose sheet is to be written. The jobs are the launches of a round's cases, and a few
//! of this generator's own; round 0 makes the stored cases.

use crate::case::{Case, Job};
use crate::generate::{access, all_cases, plain_job, Rng};
use crate::generate_masked::masked_kernels;
use crate::generate_prefixes::prefixed_kernels;
use crate::isa::{ENDPRG, JOIN};
use crate::sheet::{run_steps, sheet_of, SHEET_BYTES, STEPS, STEP_BYTES};
use crate::table::{enc_b, enc_i, enc_j, rd, rs1, rs2, Table, NOP};
use crate::{card, run, Refusal};
use std::collections::BTreeMap;

/// The most steps of a short run, whose sheets are stored by the hundred, and of a middling one.
const SHORT: usize = 24;
const MIDDLING: usize = 600;

/// jal x0, 0: a run of 4,096 steps on one PC.
const FOR_EVER: u32 = 0x0000_006f;

/// A job with its run's own steps, as a sheet has them; none where it is refused.
struct Subject {
    job: Job,
    steps: Vec<u8>,
}

/// What ends a job's run, and the run's own steps.
pub fn end_and_steps(job: &Job) -> (u32, Vec<u8>) {
    let launch = match card::read(&job.card) {
        Ok(launch) => launch,
        Err(refusal) => return (refusal.number(), Vec::new()),
    };
    let (kernel, mut vector, mut data) = job.build();
    let steps = match run_steps(&launch, &kernel, &mut vector.clone(), &mut data.clone()) {
        Err(Refusal::Size) => return (Refusal::Size.number(), Vec::new()),
        steps => steps.unwrap_or_default(),
    };
    let (_, mut warp) = run::launch(&launch, &kernel, &mut vector, &data);
    (run::run(&mut warp, &kernel, &mut vector, &mut data, STEPS as u32).0, steps)
}

/// The subjects of a round, each in one of these by what becomes of its run; some of them by the
/// number that refuses the card or the first step, or that ends the run.
#[derive(Default)]
struct Subjects {
    cards_refused: ByNumber,
    launches_refused: Vec<Subject>,
    no_steps: ByNumber,
    short: ByNumber,
    middling: Vec<Subject>,
    long: Vec<Subject>,
}

type ByNumber = BTreeMap<u32, Vec<Subject>>;

impl Subjects {
    fn of_round(round: u32) -> Subjects {
        let mut subjects = Subjects::default();
        for case in all_cases(round) {
            if let Case::Launch { job, .. } = case {
                subjects.add(job);
            }
        }
        own_jobs().into_iter().for_each(|job| subjects.add(job));
        subjects
    }

    fn add(&mut self, job: Job) {
        let (end, steps) = end_and_steps(&job);
        let place = match steps.len() / STEP_BYTES {
            0 if card::read(&job.card).is_err() => self.cards_refused.entry(end).or_default(),
            0 if end == Refusal::Size.number() => &mut self.launches_refused,
            0 => self.no_steps.entry(end).or_default(),
            1..=SHORT => self.short.entry(end).or_default(),
            count if count <= MIDDLING => &mut self.middling,
            _ => &mut self.long,
        };
        place.push(Subject { job, steps });
    }
}

fn any<'a>(rng: &mut Rng, from: &'a [Subject]) -> &'a Subject {
    &from[rng.below(from.len() as u32) as usize]
}

/// Each number is as likely as the others.
fn any_number<'a>(rng: &mut Rng, from: &'a ByNumber) -> &'a Subject {
    let numbers: Vec<u32> = from.keys().copied().collect();
    let number = rng.pick(&numbers);
    any(rng, &from[&number])
}

/// Runs of no steps, or with another end than the launches of the other generator have.
fn own_jobs() -> Vec<Job> {
    let t = &Table::whole();
    let vid = t.fixed("vid.v") | rd(1);
    let differ = t.fixed("vmv.x.s") | rd(1) | rs2(1);
    let first_refused = [
        0,
        t.fixed("csrrw") | enc_i(0x800),
        t.fixed("jal") | enc_j(2),
        t.fixed("lw") | rd(1), // address 0 is outside the data
        t.fixed("vlw.p") | enc_i(1),
    ];
    let mut jobs = vec![
        plain_job(4, vec![FOR_EVER]),
        plain_job(4, vec![vid, differ]),
        plain_job(4, vec![vid, NOP, NOP, differ, ENDPRG]),
        splits_for_ever(32),
    ];
    jobs.extend(["vsb12", "vsh12", "vsw12"].map(|name| store_to_one_place(t, name, 1)));
    jobs.push(store_to_one_place(t, "vsw12", 2));
    jobs.extend(first_refused.map(|word| plain_job(4, vec![word, ENDPRG])));
    let kernels = [prefixed_kernels(t), masked_kernels(t)].concat();
    jobs.extend(kernels.into_iter().map(|kernel| plain_job(4, kernel)));
    jobs
}

/// Four lanes store at the data base: their numbers in v1, which clash, or the address in v2.
fn store_to_one_place(t: &Table, name: &str, value: u32) -> Job {
    let kernel = vec![
        t.fixed("vid.v") | rd(1),
        t.fixed("lui") | rd(5) | 0x9000_0000,
        t.fixed("vmv.vx") | rd(2) | rs1(5),
        access(t.get(name), 2, value, 0),
        ENDPRG,
    ];
    plain_job(4, kernel)
}

/// Lane l goes round l + 1 times, so that a split is open for each lane but one; then all again.
fn splits_for_ever(numt: u32) -> Job {
    let t = &Table::whole();
    let kernel = vec![
        t.fixed("vid.v") | rd(1),
        t.fixed("auipc") | rd(5),
        t.fixed("setrpc") | rs1(5) | enc_i(24), // the JOIN
        t.fixed("vmv.vi") | rd(2),
        t.fixed("vadd.vi") | rd(2) | rs2(2) | rs1(1),
        t.fixed("vblt") | rs1(1) | rs2(2) | enc_b(8),
        t.fixed("jal") | enc_j(-8),
        JOIN,
        t.fixed("jal") | enc_j(-20),
    ];
    plain_job(numt, kernel)
}

/// All marking cases of a round.
pub fn mark_cases(round: u32) -> Vec<Case> {
    let subjects = &Subjects::of_round(round);
    let mut out = Vec::new();
    short_marks(round, subjects, &mut out);
    longer_marks(round, subjects, &mut out);
    longest_marks(round, subjects, &mut out);
    refused_marks(round, subjects, &mut out);
    sheets(round, subjects, &mut out);
    out
}

/// The words lent for a mark, seldom not two.
fn mark_case(rng: &mut Rng, job: &Job, sheet: Vec<u8>) -> Case {
    let result = if rng.chance(12) { rng.pick(&[0, 1, 3, 4]) } else { 2 };
    Case::Mark { job: job.clone(), sheet, result }
}

/// Every way to damage a sheet, in turn.
fn short_marks(round: u32, subjects: &Subjects, out: &mut Vec<Case>) {
    let mut rng = Rng::of_family(round, 30);
    let rng = &mut rng;
    for n in 0..900 {
        let subject = any_number(rng, &subjects.short);
        let way = if n % 6 == 0 { WHOLE } else { n % WAYS };
        let sheet = damaged(rng, &subject.steps, way);
        out.push(mark_case(rng, &subject.job, sheet));
    }
}

/// Whole, one bit wrong in a field of any step, short or long.
fn longer_marks(round: u32, subjects: &Subjects, out: &mut Vec<Case>) {
    let mut rng = Rng::of_family(round, 31);
    let rng = &mut rng;
    for n in 0..40 {
        let subject = any(rng, &subjects.middling);
        let way = [WHOLE, PC, WORD, MASK, SPLITS, FEWER, MORE, ONE_MORE][n % 8];
        let sheet = damaged(rng, &subject.steps, way);
        out.push(mark_case(rng, &subject.job, sheet));
    }
}

/// Sheets of about 4,096 steps, which are large: a few.
fn longest_marks(round: u32, subjects: &Subjects, out: &mut Vec<Case>) {
    let mut rng = Rng::of_family(round, 32);
    let rng = &mut rng;
    let (one_word, splits) = (&plain_job(4, vec![FOR_EVER]), &splits_for_ever(32));
    let (all, own) = (end_and_steps(one_word).1, end_and_steps(splits).1);
    let over = [&all[..], &all[..STEP_BYTES]].concat();
    let mut last = own.clone();
    last[STEP_BYTES * STEPS - 1] ^= 1 << rng.below(8);
    let (field, at) = (PC + rng.below(4), STEP_BYTES * rng.below(STEPS as u32) as usize);
    let mut between = own.clone();
    flip(rng, &mut between, at, field);
    let other = any_number(rng, &subjects.short);
    let long = [&other.steps[..], &all[other.steps.len()..]].concat();
    for (job, steps) in [
        (one_word, &all[..]),
        (one_word, &all[STEP_BYTES..]),
        (one_word, &over),
        (splits, &own),
        (splits, &own[..STEP_BYTES * (STEPS - 1)]),
        (splits, &last),
        (splits, &between),
        (&other.job, &long),
    ] {
        out.push(Case::Mark { job: job.clone(), sheet: sheet_of(steps), result: 2 });
    }
}

/// Refused whatever the sheet says, if it is well formed; else 1 and 13 come before 16, and 16
/// before 17.
fn refused_marks(round: u32, subjects: &Subjects, out: &mut Vec<Case>) {
    let mut rng = Rng::of_family(round, 33);
    let rng = &mut rng;
    for n in 0..240 {
        let refused = match n % 3 {
            0 => any_number(rng, &subjects.cards_refused),
            1 => any(rng, &subjects.launches_refused),
            _ => any_number(rng, &subjects.no_steps),
        };
        let (way, other) = (rng.below(WAYS), any_number(rng, &subjects.short));
        let sheet = damaged(rng, &other.steps, way);
        out.push(mark_case(rng, &refused.job, sheet));
    }
}

/// Sheets written, into targets with and without room.
fn sheets(round: u32, subjects: &Subjects, out: &mut Vec<Case>) {
    let mut rng = Rng::of_family(round, 34);
    let rng = &mut rng;
    let room = SHEET_BYTES as u32;
    for n in 0..450 {
        let subject = match n % 8 {
            0 => any_number(rng, &subjects.cards_refused),
            1 => any(rng, &subjects.launches_refused),
            2 => any_number(rng, &subjects.no_steps),
            3 => any(rng, &subjects.middling),
            4 => any(rng, &subjects.long),
            _ => any_number(rng, &subjects.short),
        };
        let target = match rng.below(8) {
            0 => rng.pick(&[0, 4, 5, 18, room - 13, room - 1]),
            1 => room + 1 + rng.below(40),
            _ => room,
        };
        let written = if rng.chance(12) { rng.pick(&[0, 2, 3]) } else { 1 };
        out.push(Case::Sheet { job: subject.job.clone(), target, written });
    }
}

// The ways to damage a sheet: those with a name, and others of the steps, then of the whole.

const WHOLE: u32 = 0;
const PC: u32 = 1;
const WORD: u32 = 2;
const MASK: u32 = 3;
const SPLITS: u32 = 4;
const FEWER: u32 = 5;
const MORE: u32 = 6;
const ONE_MORE: u32 = 7;
const STEP_WAYS: u32 = 17;
const WAYS: u32 = STEP_WAYS + 8;

/// The sheet of these steps, damaged in one way.
fn damaged(rng: &mut Rng, steps: &[u8], way: u32) -> Vec<u8> {
    let mut steps = steps.to_vec();
    if way < STEP_WAYS {
        damage_steps(rng, &mut steps, way);
        return sheet_of(&steps);
    }
    let mut sheet = sheet_of(&steps);
    damage_sheet(rng, &mut sheet, way - STEP_WAYS);
    sheet
}

/// The sheet stays well formed.
fn damage_steps(rng: &mut Rng, steps: &mut Vec<u8>, way: u32) {
    let count = steps.len() / STEP_BYTES;
    let place = |rng: &mut Rng| STEP_BYTES * rng.below(count as u32) as usize;
    let (at, field) = (place(rng), PC + rng.below(4));
    let step = steps[at..][..STEP_BYTES].to_vec();
    match way {
        WHOLE => {}
        PC..=SPLITS => flip(rng, steps, at, way),
        FEWER => steps.truncate(at),
        MORE => steps.extend(any_bytes(rng, STEP_BYTES)),
        ONE_MORE => steps.extend_from_within(steps.len() - STEP_BYTES..),
        8 => steps.truncate(steps.len() - STEP_BYTES),
        9 => steps.splice(at..at + STEP_BYTES, any_bytes(rng, STEP_BYTES)).for_each(drop),
        10 => {
            let other = place(rng); // two steps exchanged
            steps.copy_within(other..other + STEP_BYTES, at);
            steps[other..][..STEP_BYTES].copy_from_slice(&step);
        }
        11 => {
            flip(rng, steps, at, field); // and short, if it is not the last one
            steps.truncate(at + STEP_BYTES);
        }
        12 => {
            flip(rng, steps, at, field); // and long
            steps.extend(any_bytes(rng, 3 * STEP_BYTES));
        }
        13 => steps.drain(at..at + STEP_BYTES).for_each(drop),
        14 => steps.splice(at..at, step).for_each(drop),
        15 => *steps = any_bytes(rng, steps.len()),
        _ => steps.clear(),
    }
}

/// One bit wrong in a field of the step at this place.
fn flip(rng: &mut Rng, steps: &mut [u8], at: usize, field: u32) {
    let bytes = if field == SPLITS { 1 } else { 4 };
    let byte = 4 * (field - PC) + rng.below(bytes);
    steps[at + byte as usize] ^= 1 << rng.below(8);
}

fn any_bytes(rng: &mut Rng, count: usize) -> Vec<u8> {
    (0..count).map(|_| rng.below(256) as u8).collect()
}

/// The sheet is mostly malformed after it.
fn damage_sheet(rng: &mut Rng, sheet: &mut Vec<u8>, way: u32) {
    let (size, over) = (sheet.len() as u32, 1 + rng.below(26) as usize);
    let mut length = size - 4;
    match way {
        0 => sheet.truncate(rng.below(size) as usize),
        1 => sheet.extend(any_bytes(rng, over)),
        2 => {
            let cut = 5 + rng.below(size - 5); // with its length, but seldom of whole steps
            sheet.truncate(cut as usize);
            length = cut - 4;
        }
        3 => {
            let swapped = length.swap_bytes();
            let others = [0, 1, length - 1, length - 13, length + 1, length + 13, swapped, size];
            length = rng.pick(&others);
        }
        4 => sheet[4] = rng.pick(&[0, 2, 3, 0x80, 0xff]),
        5 => length ^= 1 << rng.below(32),
        6 => *sheet = any_bytes(rng, 2 * over),
        _ => sheet.truncate(rng.below(5) as usize),
    }
    if matches!(way, 2 | 3 | 5) {
        sheet[..4].copy_from_slice(&length.to_be_bytes());
    }
}
