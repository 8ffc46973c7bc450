//! Times the decoding of single words, one call of `decode` a word.

use crate::{measure, Timed, LOW};
use linked::kernels::subjects;
use linked::{Linked, Machine, Reference};
use reference::generate::Rng;
use reference::table::Table;
use std::path::Path;
use std::process::ExitCode;
use std::time::Instant;
use std::{fs, io};

/// More than a branch predictor learns by heart.
const DRAWN: usize = 65_536;
const SEED: u64 = 3;

/// A set of fewer words is decoded again and again until so many are done.
const AT_LEAST: usize = 65_536;

struct Set {
    name: &'static str,
    words: Vec<u32>,
    turns: usize,
    /// What the reference's answers add up to, turn by turn.
    sum: u32,
}

pub fn report(repetitions: u16) -> ExitCode {
    let stored = match stored() {
        Ok(words) => words,
        Err(error) => {
            eprintln!("the kernels of examples/ can't be read: {error}");
            return ExitCode::FAILURE;
        }
    };
    println!("{repetitions} times each side, taking turns; nanoseconds a word at {LOW} % of the times, and the median");
    println!("| Words        | Number | Library |  median | Reference |  median | Ratio |");
    println!("|--------------|--------|---------|---------|-----------|---------|-------|");
    for set in
        [Set::new("examples", stored), Set::new("kernels", timed()), Set::new("legal", legal())]
    {
        if let Some(word) = set.words.iter().find(|&&w| Linked::decode(w) != Reference::decode(w)) {
            println!("{}: {word:08x} is decoded in two ways; see compare words", set.name);
            return ExitCode::FAILURE;
        }
        let times = measure(repetitions, || set.time::<Linked>(), || set.time::<Reference>());
        println!("{}", set.line(&times));
    }
    ExitCode::SUCCESS
}

impl Set {
    fn new(name: &'static str, words: Vec<u32>) -> Set {
        let turns = (AT_LEAST + words.len() - 1) / words.len();
        let mut set = Set { name, words, turns, sum: 0 };
        set.sum = set.answers::<Reference>();
        set
    }

    /// Decodes the words in every turn: the sum of the answers.
    fn answers<M: Machine>(&self) -> u32 {
        (0..self.turns).flat_map(|_| &self.words).map(|&word| M::decode(word)).sum()
    }

    /// In nanoseconds.
    fn time<M: Machine>(&self) -> f64 {
        let start = Instant::now();
        let sum = self.answers::<M>();
        let time = start.elapsed();
        assert_eq!(sum, self.sum, "words are decoded in two ways");
        time.as_nanos() as f64
    }

    fn line(&self, times: &Timed) -> String {
        let decoded = (self.turns * self.words.len()) as f64;
        let [ours, our_median, theirs, their_median] =
            times.low_and_median().map(|time| time / decoded);
        format!(
            "| {:<12} | {:>6} | {ours:>7.2} | {our_median:>7.2} | {theirs:>9.2} | {their_median:>7.2} | {:>5.3} |",
            self.name,
            self.words.len(),
            times.ratio()
        )
    }
}

/// The words of every stored kernel of examples/, by name.
fn stored() -> io::Result<Vec<u32>> {
    let folder = Path::new(env!("CARGO_MANIFEST_DIR")).join("../examples");
    let mut kernels = Vec::new();
    for entry in fs::read_dir(folder)? {
        let kernel = entry?.path().join("kernel.bin");
        if kernel.is_file() {
            kernels.push(kernel);
        }
    }
    kernels.sort();
    let mut words = Vec::new();
    for kernel in kernels {
        let bytes = fs::read(kernel)?;
        words.extend(bytes.chunks_exact(4).map(|b| u32::from_le_bytes([b[0], b[1], b[2], b[3]])));
    }
    if words.is_empty() {
        return Err(io::Error::new(io::ErrorKind::NotFound, "no kernel.bin in a folder there"));
    }
    Ok(words)
}

/// The words of every kernel that is timed.
fn timed() -> Vec<u32> {
    subjects().into_iter().flat_map(|subject| subject.kernel).collect()
}

/// Words of the tables by chance, their free fields too.
fn legal() -> Vec<u32> {
    let table = Table::whole();
    let variants = table.with(|_| true);
    let mut rng = Rng::new(SEED);
    let word = |_| {
        let variant = rng.pick(&variants);
        variant.fixed | rng.word() & variant.free
    };
    (0..DRAWN).map(word).collect()
}
