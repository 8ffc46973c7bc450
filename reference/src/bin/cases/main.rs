//! Makes, checks and answers case files.
//!
//! `cases make FILE` writes the generated case file (statistics on stderr);
//! `cases check FILE` fails unless the file is what `make` makes;
//! `cases make-marks FILE` and `cases check-marks FILE` do the same with the marking cases,
//! `cases make-groups FILE` and `cases check-groups FILE` with the group cases;
//! `cases answer FILE...` prints the reference's answers to case files, one
//! file after the other.

mod counts;
mod group_statistics;
mod mark_statistics;
mod masked_statistics;
mod prefix_statistics;
mod store_statistics;

use masked_statistics::Masked;
use prefix_statistics::Prefixes;
use reference::case::{evaluate, read_file, write_file, Answer, Case};
use reference::generate::{all_cases, low_mask};
use reference::generate_groups::group_cases;
use reference::generate_marks::mark_cases;
use reference::isa::{decode_after, Insn, Space};
use reference::state::{Warp, LANES};
use reference::table::{name, variants};
use reference::{card, exec, memory, run, saved};
use std::collections::BTreeMap;
use std::process::ExitCode;
use store_statistics::Stores;

const USAGE: &str = "usage: cases make FILE
       cases check FILE
       cases make-marks FILE
       cases check-marks FILE
       cases make-groups FILE
       cases check-groups FILE
       cases answer FILE...";

fn main() -> ExitCode {
    let args: Vec<String> = std::env::args().skip(1).collect();
    let args: Vec<&str> = args.iter().map(String::as_str).collect();
    let done = match args[..] {
        ["make", file] => GENERATED.write(file),
        ["check", file] => GENERATED.check(file),
        ["make-marks", file] => MARKS.write(file),
        ["check-marks", file] => MARKS.check(file),
        ["make-groups", file] => GROUPS.write(file),
        ["check-groups", file] => GROUPS.check(file),
        ["answer", ref files @ ..] if !files.is_empty() => answer(files),
        _ => {
            eprintln!("{USAGE}");
            return ExitCode::from(2);
        }
    };
    match done {
        Ok(()) => ExitCode::SUCCESS,
        Err(wrong) => {
            eprintln!("cases: {wrong}");
            ExitCode::FAILURE
        }
    }
}

fn read(file: &str) -> Result<Vec<u8>, String> {
    std::fs::read(file).map_err(|error| format!("{file}: {error}"))
}

fn cases(file: &str, bytes: &[u8]) -> Result<Vec<Case>, String> {
    read_file(bytes).ok_or_else(|| format!("{file}: not a case file"))
}

/// A case file that is made here.
struct Made {
    cases: fn(u32) -> Vec<Case>,
    statistics: fn(&[Case], usize),
}

const GENERATED: Made = Made { cases: all_cases, statistics };
const MARKS: Made = Made { cases: mark_cases, statistics: mark_statistics::statistics };
const GROUPS: Made = Made { cases: group_cases, statistics: group_statistics::statistics };

impl Made {
    fn make(&self) -> Vec<u8> {
        let cases = (self.cases)(0);
        let file = write_file(&cases);
        assert_eq!(read_file(&file).as_ref(), Some(&cases), "the file does not read back");
        (self.statistics)(&cases, file.len());
        file
    }

    fn write(&self, file: &str) -> Result<(), String> {
        std::fs::write(file, self.make()).map_err(|error| format!("{file}: {error}"))
    }

    fn check(&self, file: &str) -> Result<(), String> {
        let bytes = read(file)?;
        let stored = cases(file, &bytes)?;
        if bytes == self.make() {
            return Ok(());
        }
        let differs = stored.iter().zip(&(self.cases)(0)).position(|(a, b)| a != b);
        Err(match differs {
            Some(n) => format!("{file}: differs from what is made here, first in case {n}"),
            None => format!("{file}: differs from what is made here, after {} cases", stored.len()),
        })
    }
}

/// Nothing is printed where one of the files cannot be read.
fn answer(files: &[&str]) -> Result<(), String> {
    let answers = |file: &&str| -> Result<String, String> {
        let cases = cases(file, &read(file)?)?;
        Ok(cases.iter().enumerate().map(|(n, case)| evaluate(case).line(n)).collect())
    };
    print!("{}", files.iter().map(answers).collect::<Result<String, String>>()?);
    Ok(())
}

// Statistics.

#[derive(Default)]
struct Stats {
    prefixes: Prefixes,
    stores: Stores,
    masked: Masked,
    kinds: BTreeMap<&'static str, u32>,
    codes: BTreeMap<u32, u32>,
    executed: BTreeMap<String, u64>,
    refused: BTreeMap<String, u64>,
    events: BTreeMap<&'static str, u64>,
    /// Private accesses by what became of them, and their active lanes by size and u mod 4.
    private: BTreeMap<String, u64>,
    private_lanes: BTreeMap<String, u64>,
    deepest: u32,
    steps: u64,
    longest: u32,
}

/// The instruction at the PC, behind what is pending.
fn next(warp: &Warp, kernel: &[u32]) -> Option<Insn> {
    exec::fetch(warp, kernel).and_then(|word| decode_after(warp.prefix, word))
}

impl Stats {
    /// Step through a run and count, up to the word that is refused if any is.
    fn trace(
        &mut self,
        mut warp: Warp,
        kernel: &[u32],
        vector: &mut [u32],
        data: &mut [u8],
        answer: &Answer,
    ) {
        for _ in 0..answer.steps() {
            let before = warp.clone();
            let insn = next(&warp, kernel).expect("a word that was taken");
            self.count_private(&insn, &warp, vector, data, 0);
            self.stores.count(&insn, &warp, vector, 0);
            self.masked.count_taken(&insn, &warp, vector);
            assert_eq!(run::step(&mut warp, kernel, vector, data), 0);
            assert!(warp.well_formed(), "a step broke the state");
            self.prefixes.count_taken(before.prefix, &insn);
            let name = name(&insn);
            if let Some(event) = event(&name, &before, &warp) {
                *self.events.entry(event).or_default() += 1;
            }
            *self.executed.entry(name).or_default() += 1;
            self.deepest = self.deepest.max(warp.depth);
        }
        if answer.code != 0 {
            self.trace_refusal(warp, kernel, vector, data, answer.code);
        }
    }

    /// A refused step must change nothing.
    fn trace_refusal(
        &mut self,
        mut warp: Warp,
        kernel: &[u32],
        vector: &mut [u32],
        data: &mut [u8],
        code: u32,
    ) {
        let (now_vector, now_data) = (vector.to_vec(), data.to_vec());
        let before = warp.clone();
        assert_eq!(run::step(&mut warp, kernel, vector, data), code);
        assert!(warp == before && now_vector == vector && now_data == data);
        self.prefixes.count_refused(warp.prefix, exec::fetch(&warp, kernel), code);
        if code == 6 {
            self.masked.count_refused(warp.prefix, exec::fetch(&warp, kernel));
        }
        if let Some(insn) = next(&warp, kernel) {
            if matches!(code, 7..=11 | 14 | 15) {
                *self.refused.entry(format!("{} {}", code, name(&insn))).or_default() += 1;
                self.count_private(&insn, &warp, vector, data, code);
                self.stores.count(&insn, &warp, vector, code);
            }
        }
    }

    /// If it is a private access: once by its answer, and once more for each fact.
    fn count_private(&mut self, insn: &Insn, warp: &Warp, vector: &[u32], data: &[u8], code: u32) {
        if let Some((us, size)) = private_us(insn, vector) {
            let answer = if code == 0 { "taken".into() } else { format!("refused {code}") };
            for fact in private_facts(warp, data, &us, size) {
                *self.private.entry(format!("{answer}, {fact}")).or_default() += 1;
            }
            *self.private.entry(answer).or_default() += 1;
            for u in (0..LANES).filter(|lane| warp.mask >> lane & 1 == 1).map(|lane| us[lane]) {
                *self.private_lanes.entry(format!("{size} at {}", u % 4)).or_default() += 1;
            }
        }
    }

    fn count(&mut self, case: &Case) {
        let answer = evaluate(case);
        *self.codes.entry(answer.code).or_default() += 1;
        self.steps += u64::from(answer.steps());
        self.longest = self.longest.max(answer.steps());
        let kind = match case {
            Case::Launch { job, .. } => {
                let (kernel, mut vector, mut data) = job.build();
                if let Ok(launch) = card::read(&job.card) {
                    let (code, warp) = run::launch(&launch, &kernel, &mut vector, &data);
                    if code == 0 {
                        self.trace(warp, &kernel, &mut vector, &mut data, &answer);
                    }
                }
                "launch"
            }
            Case::State { state, kernel, data, vector, .. } => {
                let (kernel, mut data, mut vector) = (kernel.build(), data.build(), vector.build());
                if answer.code != 1 && answer.code != 2 {
                    let warp = saved::from_words(state).expect("an accepted state");
                    self.prefixes.count_handed_in(warp.prefix);
                    self.trace(warp, &kernel, &mut vector, &mut data, &answer);
                }
                "state"
            }
            Case::CardRead { .. } => "card read",
            Case::Release { .. } => "release",
            Case::CardWrite { .. } => "card write",
            Case::Mark { .. } => "mark",
            Case::Sheet { .. } => "sheet",
            Case::GroupLaunch { .. } => "group launch",
            Case::GroupStep { .. } => "group step",
            Case::GroupRun { .. } => "group run",
        };
        *self.kinds.entry(kind).or_default() += 1;
    }
}

/// What a JOIN or a VBRANCH did.
fn event(name: &str, before: &Warp, after: &Warp) -> Option<&'static str> {
    let next = after.pc == before.pc.wrapping_add(4);
    Some(match name {
        "join" if after.depth < before.depth => "join closes",
        "join" if !next || after.splits != before.splits => "join turns",
        "join" if before.depth > 0 => "join passes in a split",
        "join" => "join passes, none open",
        _ if !name.starts_with("vb") => return None,
        _ if after.depth > before.depth => "vbranch splits",
        _ if next => "vbranch not taken",
        _ => "vbranch taken by all",
    })
}

/// The u of each lane and the size, of a private access.
fn private_us(insn: &Insn, vector: &[u32]) -> Option<(Vec<u32>, usize)> {
    let (vs1, off, size) = match *insn {
        Insn::Vload { space: Space::Private, kind, vs1, off, .. } => {
            (vs1, off, memory::load_size(kind))
        }
        Insn::Vstore { space: Space::Private, kind, vs1, off, .. } => {
            (vs1, off, memory::store_size(kind))
        }
        _ => return None,
    };
    let bases = &vector[LANES * vs1.index()..][..LANES];
    Some((bases.iter().map(|base| base.wrapping_add(off)).collect(), size))
}

/// What is to be seen of a private access besides its answer.
fn private_facts(warp: &Warp, data: &[u8], us: &[u32], size: usize) -> Vec<&'static str> {
    let (f, active) = (&warp.fixed, warp.mask);
    let crossing = mask_of(|lane| exec::crosses(us[lane], size));
    let outside = mask_of(|lane| {
        let address = exec::address(f, Space::Private, lane, us[lane]);
        memory::place(data, f.data_base, address, size).is_err()
    });
    let large = mask_of(|lane| us[lane] >= 1024);
    let wrapping = mask_of(|lane| {
        let word = u64::from(us[lane] & !3) * u64::from(f.numt) + 4 * lane as u64;
        word + u64::from(us[lane] % 4) + u64::from(f.pds) > u64::from(u32::MAX)
    });
    let several = active.count_ones() > 1;
    let (cross, out) = (crossing & active, outside & active);
    let facts = [
        ("every lane of several crosses", several && cross == active),
        ("one lane of several crosses", several && cross.count_ones() == 1),
        ("the highest lane alone crosses", several && cross == 1 << (31 - active.leading_zeros())),
        ("a crossing lane is outside", cross & out != 0),
        ("a lane crosses, another is outside", cross != 0 && out & !cross != 0),
        ("some lanes are outside, others inside", out != 0 && out != active),
        (
            "a lane of the warp that is not active would cross",
            crossing & !active & low_mask(f.numt) != 0,
        ),
        ("u is 1,024 or more", large & active != 0),
        ("an address wraps", wrapping & active != 0),
        ("several warps", f.numw > 1),
    ];
    facts.iter().filter(|(_, holds)| *holds).map(|(fact, _)| *fact).collect()
}

fn mask_of(holds: impl Fn(usize) -> bool) -> u32 {
    (0..LANES).filter(|lane| holds(*lane)).fold(0, |mask, lane| mask | 1 << lane)
}

fn statistics(cases: &[Case], file: usize) {
    let mut stats = Stats::default();
    cases.iter().for_each(|case| stats.count(case));
    eprintln!("cases {} ({file} bytes)", cases.len());
    eprintln!("kinds {:?}", stats.kinds);
    eprintln!("steps {}, longest run {}, deepest {}", stats.steps, stats.longest, stats.deepest);
    eprintln!("codes {:?}", stats.codes);
    eprintln!("events {:?}", stats.events);
    eprintln!("executed {:?}", stats.executed);
    eprintln!("refused {:?}", stats.refused);
    eprintln!("private {:?}", stats.private);
    eprintln!("private lanes, bytes at u mod 4 {:?}", stats.private_lanes);
    stats.stores.print();
    stats.prefixes.print();
    stats.masked.print();
    for v in variants() {
        let times = stats.executed.get(&v.name).copied().unwrap_or(0);
        if times < if v.is_masked() { 15 } else { 50 } {
            eprintln!("TOO FEW: {} executed {times} times", v.name);
        }
    }
    for code in 0..=15 {
        let times = stats.codes.get(&code).copied().unwrap_or(0);
        if times < 20 {
            eprintln!("TOO FEW: code {code} occurs {times} times");
        }
    }
}
