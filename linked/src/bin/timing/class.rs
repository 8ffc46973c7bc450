//! Times the marking of a class: a sheet of 4,096 steps a pupil.

use crate::{card_bytes, measure, unlaunched, Timed};
use linked::kernels::{subjects, Call, Subject};
use linked::{Lent, Linked, Machine, Reference};
use reference::sheet::{HEAD_BYTES, SHEET_BYTES, STEPS, STEP_BYTES};
use std::process::ExitCode;
use std::time::Instant;

const PUPILS: usize = 30;

/// One pupil in so many has full marks; of the others' sheets one step differs.
const FULL: usize = 3;

struct Class {
    card: Vec<u8>,
    kernel: Vec<u32>,
    sheets: Vec<Vec<u8>>,
    /// The results that the reference gives, one after the other.
    results: Vec<u32>,
}

pub fn report(repetitions: u16) -> ExitCode {
    println!("{PUPILS} sheets of {STEPS} steps marked, {repetitions} times each machine, taking turns; milliseconds for all of them");
    println!("before each sheet, inside the time, data is made zeros again");
    println!("| Kernel       | Library |  median | Reference |  median | Ratio |");
    println!("|--------------|---------|---------|-----------|---------|-------|");
    for subject in subjects().into_iter().filter(|subject| matches!(subject.call, Call::Run)) {
        let name = subject.name;
        let class = match Class::new(subject) {
            Some(class) if class.marks::<Linked>() == class.results => class,
            _ => {
                println!("{name}: the two machines write or mark a sheet apart; see compare");
                return ExitCode::FAILURE;
            }
        };
        let times = measure(repetitions, || class.time::<Linked>(), || class.time::<Reference>());
        println!("{}", line(name, &times));
    }
    ExitCode::SUCCESS
}

fn line(name: &str, times: &Timed) -> String {
    let [ours, our_median, theirs, their_median] = times.low_and_median().map(|time| time / 1e6);
    format!(
        "| {name:<12} | {ours:>7.3} | {our_median:>7.3} | {theirs:>9.3} | {their_median:>7.3} | {:>5.3} |",
        times.ratio()
    )
}

impl Class {
    /// None where the two machines don't write the same sheet of all steps.
    fn new(subject: Subject) -> Option<Class> {
        let (card, kernel) = (card_bytes(&subject), subject.kernel);
        let own = own_sheet::<Linked>(&card, &kernel);
        if own.len() != SHEET_BYTES || own != own_sheet::<Reference>(&card, &kernel) {
            return None;
        }
        let sheets = (0..PUPILS).map(|pupil| pupils_sheet(pupil, &own)).collect();
        let mut class = Class { card, kernel, sheets, results: Vec::new() };
        class.results = class.marks::<Reference>();
        Some(class)
    }

    /// Marks every sheet: the results.
    fn marks<M: Machine>(&self) -> Vec<u32> {
        let mut lent = Lent { words: vec![0; 2], ..unlaunched() };
        let mut results = Vec::with_capacity(2 * PUPILS);
        for sheet in &self.sheets {
            lent.data.fill(0);
            assert_eq!(M::mark(&self.card, &self.kernel, sheet, &mut lent), 0, "a mark is refused");
            results.extend_from_slice(&lent.words);
        }
        results
    }

    /// In nanoseconds.
    fn time<M: Machine>(&self) -> f64 {
        let start = Instant::now();
        let results = self.marks::<M>();
        let time = start.elapsed();
        assert_eq!(results, self.results, "a sheet is marked in two ways");
        time.as_nanos() as f64
    }
}

fn own_sheet<M: Machine>(card: &[u8], kernel: &[u32]) -> Vec<u8> {
    let mut lent = Lent { target: vec![0; SHEET_BYTES], ..unlaunched() };
    assert_eq!(M::write_sheet(card, kernel, &mut lent), 0, "the sheet is refused");
    lent.target.truncate(lent.words[0] as usize);
    lent.target
}

/// The differing steps are spread over the sheet.
fn pupils_sheet(pupil: usize, own: &[u8]) -> Vec<u8> {
    let mut sheet = own.to_vec();
    if pupil % FULL != 0 {
        sheet[HEAD_BYTES + STEP_BYTES * (STEPS * pupil / PUPILS)] ^= 1;
    }
    sheet
}
