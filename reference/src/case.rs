//! Stored cases: the record format, and what the reference answers to each.
//! The format is written down in CASES-FORMAT.md.

use crate::state::{Fixed, Launch};
use crate::{card, code, group, saved, sheet};

pub const MAGIC: &[u8; 4] = b"WBC1";

/// What a call is to write over: each byte of a target, and of the words for an answer.
const BEFORE: u8 = 0xa5;

/// A kernel: `words`, then `fill` up to `total`.
#[derive(Clone, Debug, PartialEq, Eq)]
pub struct Kernel {
    pub words: Vec<u32>,
    pub total: u32,
    pub fill: u32,
}

/// Data memory: `bytes`, then bytes made from `seed` up to `total`.
#[derive(Clone, Debug, PartialEq, Eq)]
pub struct Data {
    pub bytes: Vec<u8>,
    pub total: u32,
    pub seed: u32,
}

/// A vector file made from a seed; see `Vector::words`.
#[derive(Clone, Debug, PartialEq, Eq)]
pub struct Vector {
    pub total: u32,
    pub seed: u32,
    pub base: u32,
    pub mask: u32,
}

/// A card, and what is lent with it.
#[derive(Clone, Debug, PartialEq, Eq)]
pub struct Job {
    pub card: Vec<u8>,
    pub kernel: Kernel,
    pub data: Data,
    pub vector: Vector,
}

/// A group that is handed in, and what is lent with it.
#[derive(Clone, Debug, PartialEq, Eq)]
pub struct Handed {
    pub state: Vec<u32>,
    pub kernel: Kernel,
    pub data: Data,
    pub vector: Vector,
    pub local: Data,
}

/// What the last field of the answer to a launch shows.
#[derive(Clone, Copy, Debug, PartialEq, Eq)]
pub enum Shown {
    /// The digest of state, vector file and data.
    All,
    /// Register x3: a program that checks itself leaves its verdict there.
    X3,
    /// The digest of the data alone.
    Data,
}

/// The kinds of a record.
mod kind {
    pub const LAUNCH: u8 = 1;
    pub const STATE: u8 = 2;
    pub const CARD_READ: u8 = 3;
    pub const RELEASE: u8 = 4;
    pub const CARD_WRITE: u8 = 5;
    pub const CHECKS_ITSELF: u8 = 6;
    pub const DATA_ONLY: u8 = 7;
    pub const MARK: u8 = 8;
    pub const SHEET: u8 = 9;
    pub const GROUP_LAUNCH: u8 = 10;
    pub const GROUP_STEP: u8 = 11;
    pub const GROUP_RUN: u8 = 12;
}

/// The kinds of a launch by what they show.
const LAUNCH_KINDS: [(u8, Shown); 3] =
    [(kind::LAUNCH, Shown::All), (kind::CHECKS_ITSELF, Shown::X3), (kind::DATA_ONLY, Shown::Data)];

#[derive(Clone, Debug, PartialEq, Eq)]
pub enum Case {
    Launch {
        job: Job,
        budget: u32,
        shown: Shown,
    },
    State {
        state: Vec<u32>,
        kernel: Kernel,
        data: Data,
        vector: Vector,
        budget: u32,
    },
    CardRead {
        card: Vec<u8>,
    },
    Release {
        state: Vec<u32>,
    },
    CardWrite {
        launch: [u32; 14],
        target: u32,
    },
    /// `result` words for the mark.
    Mark {
        job: Job,
        sheet: Vec<u8>,
        result: u32,
    },
    /// A target of so many bytes, and `written` words for the sheet's size.
    Sheet {
        job: Job,
        target: u32,
        written: u32,
    },
    /// The job's card is all cards of the group; launched into a state of so many words, and run
    /// if it was not refused.
    GroupLaunch {
        job: Job,
        local: Data,
        state: u32,
        budget: u32,
    },
    /// `stopped` words for the WID.
    GroupStep {
        handed: Handed,
        stopped: u32,
    },
    /// `out` words for steps and WID.
    GroupRun {
        handed: Handed,
        budget: u32,
        out: u32,
    },
}

/// What one line of the expected output says.
#[derive(Clone, Copy, Debug, PartialEq, Eq)]
pub struct Answer {
    pub code: u32,
    pub said: Said,
    /// Mostly a digest; see `Shown`.
    pub last: u32,
}

/// What a line says between code and digest, by the kind of its case.
#[derive(Clone, Copy, Debug, PartialEq, Eq)]
pub enum Said {
    Warp {
        steps: u32,
        pc: u32,
        mask: u32,
        splits: u32,
    },
    /// The two words of a mark.
    Mark([u32; 2]),
    /// A written sheet's size.
    Sheet([u32; 1]),
    Group {
        steps: u32,
        wid: u32,
        turn: u32,
    },
}

impl Answer {
    pub fn line(&self, number: usize) -> String {
        let said = match self.said {
            Said::Warp { steps, pc, mask, splits } => {
                format!("{steps} {pc:08x} {mask:08x} {splits}")
            }
            Said::Mark([mark, step]) => format!("{mark} {step}"),
            Said::Sheet([bytes]) => bytes.to_string(),
            Said::Group { steps, wid, turn } => format!("{steps} {wid} {turn}"),
        };
        format!("{number} {} {said} {:08x}\n", self.code, self.last)
    }

    /// The steps of a run; a sheet's line doesn't say them.
    pub fn steps(&self) -> u32 {
        match self.said {
            Said::Warp { steps, .. } | Said::Group { steps, .. } => steps,
            _ => 0,
        }
    }
}

fn lcg(x: u32) -> u32 {
    x.wrapping_mul(1_664_525).wrapping_add(1_013_904_223)
}

impl Kernel {
    pub fn plain(words: Vec<u32>) -> Kernel {
        Kernel { total: words.len() as u32, words, fill: 0 }
    }

    pub fn build(&self) -> Vec<u32> {
        let mut all = self.words.clone();
        all.resize(self.total as usize, self.fill);
        all
    }
}

impl Data {
    pub fn build(&self) -> Vec<u8> {
        let mut all = self.bytes.clone();
        let mut x = self.seed;
        while all.len() < self.total as usize {
            x = lcg(x);
            all.push((x >> 24) as u8);
        }
        all
    }
}

impl Vector {
    /// Word i belongs to register i / 32; the register's number modulo 4
    /// chooses how the generator's value is used.
    pub fn build(&self) -> Vec<u32> {
        const CORNERS: [u32; 8] = [0, 1, 0xffff_ffff, 0x8000_0000, 0x7fff_ffff, 2, 0xffff_fffe, 31];
        let mut x = self.seed;
        (0..self.total)
            .map(|i| {
                x = lcg(x);
                match i / 32 % 4 {
                    0 => x,
                    1 => x >> 28,
                    2 => self.base.wrapping_add(x >> 8 & self.mask),
                    _ => CORNERS[(x >> 29) as usize],
                }
            })
            .collect()
    }
}

impl Job {
    /// What is lent: kernel, vector file and data.
    pub fn build(&self) -> (Vec<u32>, Vec<u32>, Vec<u8>) {
        (self.kernel.build(), self.vector.build(), self.data.build())
    }
}

/// What a group's call may change.
#[derive(Clone, Debug, PartialEq, Eq)]
pub struct GroupLent {
    pub state: Vec<u32>,
    pub vector: Vec<u32>,
    pub data: Vec<u8>,
    pub local: Vec<u8>,
}

impl Handed {
    /// The kernel, and all that a call may change.
    pub fn build(&self) -> (Vec<u32>, GroupLent) {
        let (vector, data) = (self.vector.build(), self.data.build());
        let lent = GroupLent { state: self.state.clone(), vector, data, local: self.local.build() };
        (self.kernel.build(), lent)
    }
}

/// FNV-1a, 32 bits.
struct Digest(u32);

impl Digest {
    fn new() -> Digest {
        Digest(0x811c_9dc5)
    }
    fn bytes(mut self, bytes: &[u8]) -> Digest {
        for byte in bytes {
            self.0 = (self.0 ^ u32::from(*byte)).wrapping_mul(0x0100_0193);
        }
        self
    }
    fn words(self, words: &[u32]) -> Digest {
        words.iter().fold(self, |digest, word| digest.bytes(&word.to_le_bytes()))
    }
}

pub fn launch_words(l: &Launch) -> [u32; 14] {
    let f = &l.fixed;
    [
        f.numt,
        f.numw,
        f.wid,
        f.mask,
        f.code_base,
        f.data_base,
        l.entry,
        f.knl,
        f.wgid,
        f.lds,
        f.pds,
        f.gidx,
        f.gidy,
        f.gidz,
    ]
}

pub fn launch_of(w: &[u32; 14]) -> Launch {
    Launch {
        fixed: Fixed {
            numt: w[0],
            numw: w[1],
            wid: w[2],
            mask: w[3],
            code_base: w[4],
            data_base: w[5],
            knl: w[7],
            wgid: w[8],
            lds: w[9],
            pds: w[10],
            gidx: w[11],
            gidy: w[12],
            gidz: w[13],
        },
        entry: w[6],
    }
}

/// The answer of the reference to a case.
pub fn evaluate(case: &Case) -> Answer {
    match case {
        Case::Launch { job, budget, shown } => launch_and_run(job, *budget, *shown),
        Case::State { state, kernel, data, vector, budget } => {
            run_state(state.clone(), &kernel.build(), data.build(), vector.build(), *budget)
        }
        Case::CardRead { card } => read_card(card),
        Case::Release { state } => {
            let mut state = state.clone();
            let code = saved::release(&mut state);
            answer(code, 0, &state, digest(&state, &[], &[]))
        }
        Case::CardWrite { launch, target } => {
            let mut bytes = target_bytes(*target);
            let code = code(card::write(&launch_of(launch), &mut bytes));
            answer(code, 0, &[], digest(&[], &[], &bytes))
        }
        Case::Mark { job, sheet, result } => mark(job, sheet, *result),
        Case::Sheet { job, target, written } => write_sheet(job, *target, *written),
        Case::GroupLaunch { job, local, state, budget } => {
            launch_group(job, local, *state, *budget)
        }
        Case::GroupStep { handed, stopped } => step_group(handed, *stopped),
        Case::GroupRun { handed, budget, out } => {
            let (kernel, lent) = handed.build();
            run_group(&kernel, lent, *budget, answer_words(*out))
        }
    }
}

fn launch_and_run(job: &Job, budget: u32, shown: Shown) -> Answer {
    let (kernel, mut vector, mut data) = job.build();
    let mut state = [0; saved::WORDS];
    let (code, steps) = match saved::launch(&job.card, &kernel, &mut vector, &data, &mut state) {
        0 => saved::run(&mut state, &kernel, &mut vector, &mut data, budget),
        refused => (refused, 0),
    };
    let last = match shown {
        Shown::All => digest(&state, &vector, &data),
        Shown::X3 => state[3],
        Shown::Data => digest(&[], &[], &data),
    };
    answer(code, steps, &state, last)
}

fn run_state(
    mut state: Vec<u32>,
    kernel: &[u32],
    mut data: Vec<u8>,
    mut vector: Vec<u32>,
    budget: u32,
) -> Answer {
    let (code, steps) = saved::run(&mut state, kernel, &mut vector, &mut data, budget);
    answer(code, steps, &state, digest(&state, &vector, &data))
}

fn read_card(card: &[u8]) -> Answer {
    let (code, launch) = match card::read(card) {
        Ok(launch) => (0, launch),
        Err(refusal) => (refusal.number(), Launch::default()),
    };
    let (pc, mask) = (launch.entry, launch.fixed.mask);
    let said = Said::Warp { steps: 0, pc, mask, splits: 0 };
    Answer { code, said, last: digest(&launch_words(&launch), &[], &[]) }
}

/// The words that a call is to put its answer in.
pub fn answer_words(count: u32) -> Vec<u32> {
    vec![u32::from_be_bytes([BEFORE; 4]); count as usize]
}

/// All of a call's words if they are as many as it takes, else zeros.
fn said_words<const N: usize>(words: &[u32]) -> [u32; N] {
    words.try_into().unwrap_or([0; N])
}

fn mark(job: &Job, sheet: &[u8], result: u32) -> Answer {
    let (kernel, mut vector, mut data) = job.build();
    let mut result = answer_words(result);
    let code = sheet::bench_mark(&job.card, &kernel, &mut vector, &mut data, sheet, &mut result);
    let said = Said::Mark(said_words(&result));
    Answer { code, said, last: digest(&result, &vector, &data) }
}

/// The bytes that a call is to write over.
pub fn target_bytes(bytes: u32) -> Vec<u8> {
    vec![BEFORE; bytes as usize]
}

fn write_sheet(job: &Job, target: u32, written: u32) -> Answer {
    let (kernel, mut vector, mut data) = job.build();
    let (mut target, mut written) = (target_bytes(target), answer_words(written));
    let code =
        sheet::bench_sheet(&job.card, &kernel, &mut vector, &mut data, &mut target, &mut written);
    let digest = Digest::new().words(&written).bytes(&target).words(&vector).bytes(&data);
    Answer { code, said: Said::Sheet(said_words(&written)), last: digest.0 }
}

fn launch_group(job: &Job, local: &Data, state: u32, budget: u32) -> Answer {
    let (kernel, vector, data) = job.build();
    let mut lent = GroupLent { state: answer_words(state), vector, data, local: local.build() };
    let GroupLent { state, vector, data, local } = &mut lent;
    match group::launch(&job.card, &kernel, vector, data, local, state) {
        0 => run_group(&kernel, lent, budget, vec![0; 2]),
        code => group_answer(code, 0, 0, &lent, &[0; 2]),
    }
}

fn step_group(handed: &Handed, stopped: u32) -> Answer {
    let ((kernel, mut lent), mut stopped) = (handed.build(), answer_words(stopped));
    let GroupLent { state, vector, data, local } = &mut lent;
    let code = group::step(state, &kernel, vector, data, local, &mut stopped);
    let [wid] = said_words(&stopped);
    group_answer(code, u32::from(code == 0), wid, &lent, &stopped)
}

fn run_group(kernel: &[u32], mut lent: GroupLent, budget: u32, mut out: Vec<u32>) -> Answer {
    let GroupLent { state, vector, data, local } = &mut lent;
    let code = group::run(state, kernel, vector, data, local, budget, &mut out);
    let [steps, wid] = said_words(&out);
    group_answer(code, steps, wid, &lent, &out)
}

/// The turn is the state's first word, if it has one.
fn group_answer(code: u32, steps: u32, wid: u32, lent: &GroupLent, words: &[u32]) -> Answer {
    let GroupLent { state, vector, data, local } = lent;
    let turn = state.first().copied().unwrap_or(0);
    let digest = Digest::new().words(state).words(vector).bytes(data).bytes(local).words(words);
    Answer { code, said: Said::Group { steps, wid, turn }, last: digest.0 }
}

fn digest(state: &[u32], vector: &[u32], data: &[u8]) -> u32 {
    Digest::new().words(state).words(vector).bytes(data).0
}

fn answer(code: u32, steps: u32, state: &[u32], last: u32) -> Answer {
    let whole = state.len() == saved::WORDS;
    let word = |at: usize| if whole { state[at] } else { 0 };
    let (pc, mask, splits) = (word(saved::PC_AT), word(saved::MASK_AT), word(saved::OPEN_AT));
    Answer { code, said: Said::Warp { steps, pc, mask, splits }, last }
}

// Writing.

fn put(out: &mut Vec<u8>, word: u32) {
    out.extend_from_slice(&word.to_be_bytes());
}

fn put_bytes(out: &mut Vec<u8>, bytes: &[u8]) {
    put(out, bytes.len() as u32);
    out.extend_from_slice(bytes);
}

fn put_data(out: &mut Vec<u8>, data: &Data) {
    put(out, data.total);
    put_bytes(out, &data.bytes);
    put(out, data.seed);
}

fn put_runs(out: &mut Vec<u8>, kernel: &Kernel, data: &Data, vector: &Vector) {
    put(out, kernel.total);
    put(out, kernel.words.len() as u32);
    kernel.words.iter().for_each(|w| put(out, *w));
    put(out, kernel.fill);
    put_data(out, data);
    put(out, vector.total);
    put(out, vector.seed);
    put(out, vector.base);
    put(out, vector.mask);
}

fn put_job(out: &mut Vec<u8>, job: &Job) {
    put_bytes(out, &job.card);
    put_runs(out, &job.kernel, &job.data, &job.vector);
}

/// The words that are not 0, each behind its place, which `put_place` writes.
fn put_words(out: &mut Vec<u8>, words: &[u32], put_place: impl Fn(&mut Vec<u8>, usize)) {
    let set: Vec<(usize, u32)> =
        words.iter().copied().enumerate().filter(|(_, w)| *w != 0).collect();
    put(out, words.len() as u32);
    put(out, set.len() as u32);
    for (at, word) in set {
        put_place(out, at);
        put(out, word);
    }
}

fn put_state(out: &mut Vec<u8>, state: &[u32]) {
    let place = |at: usize| u8::try_from(at).expect("only the first 256 words may be set");
    put_words(out, state, |out, at| out.push(place(at)));
}

fn put_handed(out: &mut Vec<u8>, handed: &Handed) {
    put_words(out, &handed.state, |out, at| put(out, at as u32));
    put_runs(out, &handed.kernel, &handed.data, &handed.vector);
    put_data(out, &handed.local);
}

/// Writes a case's body and returns its kind.
fn put_body(body: &mut Vec<u8>, case: &Case) -> u8 {
    match case {
        Case::Launch { job, budget, shown } => {
            put_job(body, job);
            put(body, *budget);
            LAUNCH_KINDS.iter().find(|(_, s)| s == shown).expect("every one has its kind").0
        }
        Case::State { state, kernel, data, vector, budget } => {
            put_state(body, state);
            put_runs(body, kernel, data, vector);
            put(body, *budget);
            kind::STATE
        }
        Case::CardRead { card } => {
            put_bytes(body, card);
            kind::CARD_READ
        }
        Case::Release { state } => {
            put_state(body, state);
            kind::RELEASE
        }
        Case::CardWrite { launch, target } => {
            launch.iter().chain([target]).for_each(|w| put(body, *w));
            kind::CARD_WRITE
        }
        Case::Mark { job, sheet, result } => {
            put_job(body, job);
            put_bytes(body, sheet);
            put(body, *result);
            kind::MARK
        }
        Case::Sheet { job, target, written } => {
            put_job(body, job);
            [target, written].iter().for_each(|w| put(body, **w));
            kind::SHEET
        }
        Case::GroupLaunch { job, local, state, budget } => {
            put_job(body, job);
            put_data(body, local);
            [state, budget].iter().for_each(|w| put(body, **w));
            kind::GROUP_LAUNCH
        }
        Case::GroupStep { handed, stopped } => {
            put_handed(body, handed);
            put(body, *stopped);
            kind::GROUP_STEP
        }
        Case::GroupRun { handed, budget, out } => {
            put_handed(body, handed);
            [budget, out].iter().for_each(|w| put(body, **w));
            kind::GROUP_RUN
        }
    }
}

pub fn write_file(cases: &[Case]) -> Vec<u8> {
    let mut out = MAGIC.to_vec();
    put(&mut out, cases.len() as u32);
    for case in cases {
        let mut body = Vec::new();
        let kind = put_body(&mut body, case);
        out.push(kind);
        put_bytes(&mut out, &body);
    }
    out
}

// Reading.

struct Reader<'a>(&'a [u8]);

impl<'a> Reader<'a> {
    fn bytes(&mut self, count: usize) -> Option<&'a [u8]> {
        if self.0.len() < count {
            return None;
        }
        let (head, tail) = self.0.split_at(count);
        self.0 = tail;
        Some(head)
    }
    fn byte(&mut self) -> Option<u8> {
        Some(self.bytes(1)?[0])
    }
    fn word(&mut self) -> Option<u32> {
        Some(u32::from_be_bytes(self.bytes(4)?.try_into().ok()?))
    }
    fn run(&mut self) -> Option<&'a [u8]> {
        let count = self.word()? as usize;
        self.bytes(count)
    }
    fn kernel(&mut self) -> Option<Kernel> {
        let total = self.word()?;
        let count = self.word()?;
        let words = (0..count).map(|_| self.word()).collect::<Option<_>>()?;
        Some(Kernel { words, total, fill: self.word()? })
    }
    fn data(&mut self) -> Option<Data> {
        let total = self.word()?;
        let bytes = self.run()?.to_vec();
        Some(Data { bytes, total, seed: self.word()? })
    }
    fn vector(&mut self) -> Option<Vector> {
        Some(Vector {
            total: self.word()?,
            seed: self.word()?,
            base: self.word()?,
            mask: self.word()?,
        })
    }
    /// Words of which those that are not 0 are named by their place, which `place` reads.
    fn words(&mut self, place: impl Fn(&mut Self) -> Option<u32>) -> Option<Vec<u32>> {
        let mut words = vec![0; self.word()? as usize];
        for _ in 0..self.word()? {
            let at = place(self)? as usize;
            *words.get_mut(at)? = self.word()?;
        }
        Some(words)
    }
    fn state(&mut self) -> Option<Vec<u32>> {
        self.words(|r| r.byte().map(u32::from))
    }
    fn handed(&mut self) -> Option<Handed> {
        Some(Handed {
            state: self.words(Self::word)?,
            kernel: self.kernel()?,
            data: self.data()?,
            vector: self.vector()?,
            local: self.data()?,
        })
    }
    fn job(&mut self) -> Option<Job> {
        Some(Job {
            card: self.run()?.to_vec(),
            kernel: self.kernel()?,
            data: self.data()?,
            vector: self.vector()?,
        })
    }
    fn case(&mut self) -> Option<Case> {
        let kind = self.byte()?;
        let mut r = Reader(self.run()?);
        let case = match kind {
            kind::STATE => Case::State {
                state: r.state()?,
                kernel: r.kernel()?,
                data: r.data()?,
                vector: r.vector()?,
                budget: r.word()?,
            },
            kind::CARD_READ => Case::CardRead { card: r.run()?.to_vec() },
            kind::RELEASE => Case::Release { state: r.state()? },
            kind::CARD_WRITE => {
                let mut launch = [0; 14];
                for word in &mut launch {
                    *word = r.word()?;
                }
                Case::CardWrite { launch, target: r.word()? }
            }
            kind::MARK => Case::Mark { job: r.job()?, sheet: r.run()?.to_vec(), result: r.word()? },
            kind::SHEET => Case::Sheet { job: r.job()?, target: r.word()?, written: r.word()? },
            kind::GROUP_LAUNCH => Case::GroupLaunch {
                job: r.job()?,
                local: r.data()?,
                state: r.word()?,
                budget: r.word()?,
            },
            kind::GROUP_STEP => Case::GroupStep { handed: r.handed()?, stopped: r.word()? },
            kind::GROUP_RUN => {
                Case::GroupRun { handed: r.handed()?, budget: r.word()?, out: r.word()? }
            }
            launch => Case::Launch {
                shown: LAUNCH_KINDS.iter().find(|(kind, _)| *kind == launch)?.1,
                job: r.job()?,
                budget: r.word()?,
            },
        };
        r.0.is_empty().then_some(case)
    }
}

/// All cases of a case file; `None` if it is not one.
pub fn read_file(bytes: &[u8]) -> Option<Vec<Case>> {
    let mut r = Reader(bytes);
    if r.bytes(4)? != MAGIC {
        return None;
    }
    let count = r.word()?;
    let cases = (0..count).map(|_| r.case()).collect::<Option<Vec<_>>>()?;
    r.0.is_empty().then_some(cases)
}
