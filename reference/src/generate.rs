//! The case generator: words, kernels, states, cards and lent runs, legal and
//! not, drawn from the number of a round. Round 0 makes the stored cases, any
//! other round others of the same kinds.

use crate::case::{evaluate, launch_words, Case, Data, Job, Kernel, Shown, Vector};
use crate::exec::address;
use crate::generate_masked::{any_masked, masked_words, new_v0};
use crate::generate_prefixes::{csrs_behind_a_prefix, digits, prefixes, random_prefix};
use crate::generate_stores::shared_bytes;
use crate::isa::{Space, ENDPRG, JOIN, SCALARS};
use crate::state::{Fixed, Launch, Split, Warp};
use crate::table::{
    enc_b, enc_i, enc_j, enc_s, rd, regext, regexti, rs1, rs2, Shape, Table, Variant, BARRIER, NOP,
    RD, RS1, RS2, VM,
};
use crate::{card, run, saved};

/// The words of a vector file, and lengths that are not a state's.
pub(crate) const VECTOR: u32 = run::VECTOR_WORDS as u32;
pub const NO_STATE: [usize; 6] = [0, 1, 207, 240, 242, 256];

/// xorshift64*, from fixed seeds.
pub struct Rng(u64);

impl Rng {
    pub fn new(seed: u64) -> Rng {
        let mut rng = Rng(seed.wrapping_mul(0x9e37_79b9_7f4a_7c15) | 1);
        for _ in 0..8 {
            rng.word();
        }
        rng
    }
    /// For one family of cases of a round; in round 0 the family's number is the seed.
    pub(crate) fn of_family(round: u32, family: u64) -> Rng {
        Rng::new(128 * u64::from(round) + family)
    }
    pub fn word(&mut self) -> u32 {
        self.0 ^= self.0 >> 12;
        self.0 ^= self.0 << 25;
        self.0 ^= self.0 >> 27;
        (self.0.wrapping_mul(0x2545_f491_4f6c_dd1d) >> 32) as u32
    }
    /// Below `n`.
    pub fn below(&mut self, n: u32) -> u32 {
        ((u64::from(self.word()) * u64::from(n)) >> 32) as u32
    }
    /// From `low` to `high`, both included.
    pub fn range(&mut self, low: i32, high: i32) -> i32 {
        low + self.below((high - low + 1) as u32) as i32
    }
    pub fn chance(&mut self, one_in: u32) -> bool {
        self.below(one_in) == 0
    }
    pub fn pick<T: Copy>(&mut self, from: &[T]) -> T {
        from[self.below(from.len() as u32) as usize]
    }
}

const CORNERS: [u32; 10] =
    [0, 1, 2, 31, 32, 0x7fff_ffff, 0x8000_0000, 0x8000_0001, 0xffff_fffe, 0xffff_ffff];

// Words.

pub(crate) fn touches_memory(v: &Variant) -> bool {
    matches!(v.shape, Shape::Load | Shape::Store | Shape::Vload | Shape::Vstore) || is_private(v)
}
pub(crate) fn is_private(v: &Variant) -> bool {
    matches!(v.shape, Shape::PrivateLoad | Shape::PrivateStore)
}

/// How many bytes an access takes, by its name.
pub(crate) fn size_of(v: &Variant) -> u32 {
    let width = v.name.trim_start_matches('v')[1..].trim_end_matches("12").trim_end_matches(".p");
    match width {
        "b" | "bu" => 1,
        "h" | "hu" => 2,
        _ => 4,
    }
}

/// An access at a register plus offset: into register `value`, or from it.
pub(crate) fn access(v: &Variant, address: u32, value: u32, off: i32) -> u32 {
    let off = if is_private(v) { off & 0x7ff } else { off };
    let fields = match v.shape {
        Shape::Load | Shape::Vload | Shape::PrivateLoad => rd(value) | enc_i(off),
        _ => rs2(value) | enc_s(off),
    };
    v.fixed | rs1(address) | fields
}

/// A register that holds an address by our custom (number 2 modulo 4).
fn address_register(rng: &mut Rng) -> u32 {
    2 + 4 * rng.below(7)
}

/// How u mod 4 lies over the lanes of a private access: at `at` plus, lane by lane, some bits of
/// `vary`.
#[derive(Clone, Copy)]
struct Low {
    at: u32,
    vary: u32,
}

impl Low {
    fn any(rng: &mut Rng) -> Low {
        Low { at: rng.below(4), vary: rng.below(4) }
    }
    /// No lane crosses a word boundary.
    fn fitting(rng: &mut Rng, size: u32) -> Low {
        let (at, vary) = match size {
            1 => return Low::any(rng),
            2 => rng.pick(&[(0, 0), (0, 1), (0, 2), (1, 0), (1, 1), (2, 0), (2, 2)]),
            _ => (0, 0),
        };
        Low { at, vary }
    }
    /// Every lane crosses; a byte can't.
    fn crossing(rng: &mut Rng, size: u32) -> Low {
        let (at, vary) = match size {
            1 => return Low::any(rng),
            2 => (3, 0),
            _ => rng.pick(&[(1, 0), (2, 0), (3, 0), (1, 1), (1, 2), (2, 1)]),
        };
        Low { at, vary }
    }
    /// Fitting, but in one of twelve.
    fn mostly_fitting(rng: &mut Rng, size: u32) -> Low {
        if rng.chance(12) {
            Low::any(rng)
        } else {
            Low::fitting(rng, size)
        }
    }
}

/// A private access, after a word that makes u small whatever its register held.
fn small_private(rng: &mut Rng, t: &Table, v: &Variant) -> [u32; 2] {
    let low = Low::mostly_fitting(rng, size_of(v));
    let base = rng.below(32);
    let small = t.fixed("vand.vi") | rd(base) | rs2(rng.below(32)) | rs1(12 | low.vary);
    let off = 4 * rng.range(-1, 2) + low.at as i32;
    [small, access(v, base, rng.below(32), off)]
}

/// A plain store by lanes, after words that put its lanes side by side or further apart, so that
/// none clashes.
fn store_apart(rng: &mut Rng, t: &Table, v: &Variant) -> [u32; 4] {
    let (places, base) = (address_register(rng), address_register(rng));
    let shift = size_of(v).trailing_zeros() + rng.below(2);
    [
        t.fixed("vid.v") | rd(places),
        t.fixed("vsll.vi") | rd(places) | rs2(places) | rs1(shift),
        t.fixed("vadd.vx") | rd(places) | rs2(places) | rs1(base),
        access(v, places, rng.below(32), rng.range(-8, 12)),
    ]
}

/// The byte offset from word `at` to a word of the kernel, the one past the
/// end included; forward only if asked, seldom misaligned if `wild`.
fn target(rng: &mut Rng, at: u32, words: u32, forward: bool, wild: bool) -> i32 {
    let to = if forward {
        at as i32 + rng.range(1, (words as i32 - at as i32).clamp(1, 3))
    } else {
        rng.range(0, words as i32)
    };
    let off = (to - at as i32) * 4;
    if wild && rng.chance(24) {
        off + 2
    } else {
        off
    }
}

/// How the words of a kernel are drawn.
#[derive(Clone, Copy)]
pub(crate) struct Place {
    pub(crate) at: u32,
    pub(crate) words: u32,
    pub(crate) forward: bool,
    /// Let some words be refused (7 to 9, 14, 15).
    pub(crate) wild: bool,
}

/// Whether a word mostly has others before it that make it likely to be taken.
fn is_prepared(v: &Variant) -> bool {
    is_private(v) || v.shape == Shape::Vstore
}

/// A word of a variant. A private access has one before it that makes its u small; if `wild`,
/// seldom none, with any u. A plain store by lanes has three before it, seldom none.
fn push_drawn(rng: &mut Rng, t: &Table, v: &Variant, p: Place, kernel: &mut Vec<u32>) {
    if is_private(v) && !(p.wild && rng.chance(20)) {
        kernel.extend(small_private(rng, t, v));
    } else if v.shape == Shape::Vstore && !rng.chance(6) {
        kernel.extend(store_apart(rng, t, v));
    } else {
        kernel.push(draw(rng, v, p));
    }
}

/// One word of a variant. x31 is taken to hold the code base.
pub(crate) fn draw(rng: &mut Rng, v: &Variant, p: Place) -> u32 {
    let any = v.fixed | rng.word() & v.free;
    let wild = p.wild && rng.chance(20);
    match v.shape {
        Shape::Plain | Shape::Control | Shape::VmvXS | Shape::Prefix => any,
        Shape::Jal => v.fixed | any & RD | enc_j(target(rng, p.at, p.words, p.forward, p.wild)),
        Shape::Jalr => {
            let to = p.at as i32 * 4 + target(rng, p.at, p.words, p.forward, p.wild);
            let keep = rd(rng.below(31)); // not x31
            v.fixed | keep | rs1(31) | enc_i(to + rng.range(0, 1))
        }
        Shape::Branch => {
            v.fixed | any & (RS1 | RS2) | enc_b(target(rng, p.at, p.words, p.forward, p.wild))
        }
        Shape::Load | Shape::Vload | Shape::Store | Shape::Vstore if !wild => {
            access(v, address_register(rng), rng.below(32), rng.range(-8, 12))
        }
        Shape::Load
        | Shape::Vload
        | Shape::Store
        | Shape::Vstore
        | Shape::PrivateLoad
        | Shape::PrivateStore => any,
        Shape::Csr => {
            let fields = any & (RD | RS1);
            let number = if wild {
                rng.range(0x7fe, 0x80e)
            } else if v.name.starts_with("csrrw") || fields & RS1 != 0 {
                rng.range(0x80b, 0x80c)
            } else {
                rng.range(0x800, 0x80c)
            };
            v.fixed | fields | enc_i(number)
        }
        Shape::SetRpc if wild => any,
        Shape::SetRpc => {
            v.fixed | rd(rng.below(31)) | rs1(31) | enc_i(4 * rng.range(0, p.words as i32))
        }
    }
}

// Launch values, states and runs.

pub fn low_mask(numt: u32) -> u32 {
    u32::MAX >> (32 - numt)
}

pub(crate) fn some_lanes(rng: &mut Rng, of: u32) -> u32 {
    loop {
        let part = of & rng.word();
        if part != 0 {
            return part;
        }
    }
}

/// What a case lends besides the kernel.
pub(crate) struct Ground {
    pub(crate) fixed: Fixed,
    pub(crate) data: Data,
    pub(crate) vector: Vector,
}

/// Launch values and runs in which custom addresses are inside the data and
/// private addresses with small numbers too.
pub(crate) fn ground(rng: &mut Rng, kernel_words: u32) -> Ground {
    let numt = rng.pick(&[1, 2, 3, 4, 4, 5, 8, 8, 16, 17, 31, 32, 32, 32]);
    let numw = rng.pick(&[1, 1, 1, 2, 2, 3, 5, 32]);
    let wid = rng.below(numw);
    let mask = if rng.chance(3) { some_lanes(rng, low_mask(numt)) } else { low_mask(numt) };
    // `small_private`: u from -4 to 26, which are eight rows of a word a lane.
    let row = 4 * numt;
    let total = if rng.chance(6) { 40 + rng.below(60) } else { (8 * row + 3).max(100) };
    let top = (1u64 << 32) - u64::from(total);
    let data_base =
        rng.pick(&[0, 0x100, 0x1001, 0x9000_0000, 0x7fff_ffc0, 0xa000_0003, top as u32]);
    let code_top = ((1u64 << 32) - 4 * u64::from(kernel_words)) as u32;
    let code_base = rng.pick(&[0, 4, 0x1000, 0x8000_0000, 0x8000_0000, 0x7fff_fff0, code_top]);
    let room = total - 24;
    let fixed = Fixed {
        numt,
        numw,
        wid,
        mask,
        code_base,
        data_base,
        knl: rng.word(),
        wgid: rng.below(16),
        lds: rng.word(),
        pds: data_base.wrapping_add(rng.pick(&[0, row, row, row, row, row]) + rng.below(4)),
        gidx: rng.below(100),
        gidy: rng.below(100),
        gidz: rng.word(),
    };
    let data = Data { bytes: Vec::new(), total, seed: rng.word() };
    // The largest power of two in the room, less one: addresses meet often.
    let full = (1u32 << (31 - room.leading_zeros())) - 1;
    let vector = Vector {
        total: VECTOR,
        seed: rng.word(),
        base: data_base.wrapping_add(8),
        mask: if rng.chance(4) { full & 7 } else { full },
    };
    Ground { fixed, data, vector }
}

/// A well-formed running state: registers by our custom, and `depth` splits
/// if the lanes allow it.
fn random_state(rng: &mut Rng, g: &Ground, words: u32, depth: u32) -> Warp {
    let f = &g.fixed;
    let mut warp = Warp { fixed: *f, mask: f.mask, ..Warp::default() };
    fill_registers(rng, g, &mut warp.x[..32]);
    warp.pc = f.code_base;
    warp.rpc = kernel_pc(rng, f, words);
    warp.print = rng.below(4);
    open_splits(rng, &mut warp, words, depth);
    assert!(warp.well_formed());
    warp
}

/// As `random_state`, with values in the upper registers too.
pub(crate) fn extended_state(rng: &mut Rng, g: &Ground, words: u32, depth: u32) -> Warp {
    let mut warp = random_state(rng, g, words, depth);
    fill_registers(rng, g, &mut warp.x[32..]);
    warp.x[32] = rng.word();
    warp
}

/// 32 registers by our custom; the first is left, and the last holds the code base.
fn fill_registers(rng: &mut Rng, g: &Ground, x: &mut [u32]) {
    for (n, value) in x.iter_mut().enumerate().skip(1) {
        *value = match n % 4 {
            0 => rng.word(),
            1 => rng.below(16),
            2 => g.vector.base.wrapping_add(rng.word() & g.vector.mask),
            _ => rng.pick(&CORNERS),
        };
    }
    x[31] = g.fixed.code_base;
}

/// Up to `depth` splits, while two lanes are left; deep chains mostly lose one
/// lane a split.
pub(crate) fn open_splits(rng: &mut Rng, warp: &mut Warp, words: u32, depth: u32) {
    let f = warp.fixed;
    for _ in 0..depth {
        if warp.mask.count_ones() < 2 {
            break;
        }
        let else_mask = loop {
            let part = warp.mask & if depth > 4 { 1 << rng.below(32) } else { rng.word() };
            if part != 0 && part != warp.mask {
                break part;
            }
        };
        let phase_two = rng.chance(if depth > 4 { 40 } else { 3 });
        let split = Split {
            rpc: if rng.chance(20) { rng.word() } else { kernel_pc(rng, &f, words) },
            full: warp.mask,
            else_mask,
            else_pc: kernel_pc(rng, &f, words),
            phase_two,
        };
        warp.splits[warp.depth as usize] = split;
        warp.depth += 1;
        warp.mask = split.running();
    }
}

pub(crate) fn kernel_pc(rng: &mut Rng, f: &Fixed, words: u32) -> u32 {
    f.code_base.wrapping_add(4 * rng.below(words))
}

pub(crate) fn state_case(warp: &Warp, kernel: Vec<u32>, g: Ground, budget: u32) -> Case {
    Case::State {
        state: saved::to_words(warp).to_vec(),
        kernel: Kernel::plain(kernel),
        data: g.data,
        vector: g.vector,
        budget,
    }
}

/// The card of a launch that is in range.
pub fn card_of(launch: &Launch) -> Vec<u8> {
    let mut bytes = vec![0; card::CARD];
    card::write(launch, &mut bytes).expect("a launch in range");
    bytes
}

fn job_of(g: Ground, entry: u32, kernel: Vec<u32>) -> Job {
    let card = card_of(&Launch { fixed: g.fixed, entry });
    Job { card, kernel: Kernel::plain(kernel), data: g.data, vector: g.vector }
}

pub(crate) fn launch_case(g: Ground, entry: u32, kernel: Vec<u32>, budget: u32) -> Case {
    Case::Launch { job: job_of(g, entry, kernel), budget, shown: Shown::All }
}

/// A job on the small fixed ground, all of its lanes launched.
pub(crate) fn plain_job(numt: u32, kernel: Vec<u32>) -> Job {
    let mut g = plain_ground();
    (g.fixed.numt, g.fixed.mask) = (numt, low_mask(numt));
    let entry = g.fixed.code_base;
    job_of(g, entry, kernel)
}

/// A small fixed ground: NUMT 4 of one warp, 32 bytes of data.
pub(crate) fn plain_ground() -> Ground {
    Ground {
        fixed: Fixed {
            numt: 4,
            numw: 1,
            mask: 0xf,
            code_base: 0x8000_0000,
            data_base: 0x9000_0000,
            ..Fixed::default()
        },
        data: Data { bytes: Vec::new(), total: 32, seed: 1 },
        vector: Vector { total: VECTOR, seed: 0, base: 0, mask: 0 },
    }
}

// The families.

/// All cases of a round.
pub fn all_cases(round: u32) -> Vec<Case> {
    let table = Table::whole();
    let mut out = Vec::new();
    directed(round, &table, &mut out);
    corners(round, &table, &mut out);
    uniforms(round, &table, &mut out);
    soup(round, &table, &mut out);
    structured(round, &table, &mut out);
    joins(round, &table, &mut out);
    trips(round, &table, &mut out);
    controls(round, &mut out);
    csrs(&table, &mut out);
    prefixes(round, &table, &mut out);
    masked_words(round, &table, &mut out);
    near_words(round, &table, &mut out);
    data_ends(round, &table, &mut out);
    privates(round, &table, &mut out);
    shared_bytes(round, &table, &mut out);
    pc_edges(round, &table, &mut out);
    sizes(round, &mut out);
    cards(round, &mut out);
    ill_formed(round, &mut out);
    almost_chains(round, &mut out);
    releases(round, &mut out);
    precedence(round, &mut out);
    lengthen_budgets(round, &mut out);
    out
}

/// A run that ends in a refusal ends so under any larger budget. The largest
/// budgets go to kernels without jumps, where no faulty machine runs for ever.
fn lengthen_budgets(round: u32, out: &mut [Case]) {
    let mut rng = Rng::of_family(round, 99);
    for case in out {
        let refused = evaluate(case).code != 0;
        let (kernel, budget) = match case {
            Case::Launch { job, budget, .. } => (&job.kernel, budget),
            Case::State { kernel, budget, .. } => (&*kernel, budget),
            _ => continue,
        };
        if rng.chance(6) && refused {
            let jumps = |word: &u32| matches!(word & 0x7f, 0x6f | 0x67 | 0x63 | 0x5b);
            *budget = if kernel.words.iter().any(jumps) {
                rng.pick(&[2_048, 4_096, 65_536])
            } else {
                rng.pick(&[u32::MAX, 0x8000_0000])
            };
        }
    }
}

/// Each variant on its own, in a few words of itself.
fn directed(round: u32, t: &Table, out: &mut Vec<Case>) {
    let mut rng = Rng::of_family(round, 1);
    for v in t.with(|v| !matches!(v.shape, Shape::Control | Shape::Prefix)) {
        for n in 0..8 {
            let rng = &mut rng;
            let words: u32 = 8;
            let wild = n >= 6;
            let mut kernel = Vec::new();
            while (kernel.len() as u32) < words {
                if v.shape == Shape::VmvXS {
                    let from = rng.below(32);
                    let mv = t.fixed(rng.pick(&["vmv.vx", "vmv.vi", "vmv.s.x"]));
                    kernel.push(mv | rd(from) | rs1(rng.below(32)));
                    let other = if rng.chance(12) { rng.below(32) } else { from };
                    kernel.push(v.fixed | rd(rng.below(32)) | rs2(other));
                } else {
                    let at = kernel.len() as u32;
                    let place = Place { at, words, forward: true, wild };
                    push_drawn(rng, t, v, place, &mut kernel);
                }
            }
            let g = ground(rng, kernel.len() as u32);
            let depth = rng.pick(&[0, 0, 1, 2, 3]);
            let warp = random_state(rng, &g, words, depth);
            let budget = rng.pick(&[8, 8, 8, 8, 20, 3]);
            out.push(state_case(&warp, kernel, g, budget));
        }
    }
}

/// Scalar operations and branches over every pair of corner values, lane
/// operations and VBRANCH over registers of corner values.
fn corners(round: u32, t: &Table, out: &mut Vec<Case>) {
    let mut rng = Rng::of_family(round, 16);
    corner_pairs(t, out);
    corner_immediates(&mut rng, t, out);
    corner_lanes(&mut rng, t, out);
    corner_vbranches(&mut rng, t, out);
}

/// x1 to x10 hold the corners.
pub(crate) fn corner_state(g: &Ground) -> Warp {
    let mut warp = Warp { fixed: g.fixed, mask: g.fixed.mask, ..Warp::default() };
    warp.pc = g.fixed.code_base;
    warp.x[1..11].copy_from_slice(&CORNERS);
    warp
}

/// All 32 lanes over a register whose lanes hold corners (number 3 modulo 4).
pub(crate) fn corner_ground(rng: &mut Rng, words: u32) -> Ground {
    let mut g = ground(rng, words);
    (g.fixed.numt, g.fixed.mask) = (32, u32::MAX);
    g
}
pub(crate) fn corner_register(rng: &mut Rng) -> u32 {
    3 + 4 * rng.below(8)
}

fn corner_pairs(t: &Table, out: &mut Vec<Case>) {
    let pairs: Vec<(u32, u32)> = (1..=10).flat_map(|a| (1..=10).map(move |b| (a, b))).collect();
    for v in t.with(|v| v.fixed & 0x7f == 0x33 || v.fixed & 0x7f == 0x63) {
        for some in pairs.chunks(20) {
            let kernel: Vec<u32> = (11..)
                .zip(some)
                .flat_map(|(d, (a, b))| match v.shape {
                    Shape::Branch => {
                        let word = v.fixed | rs1(*a) | rs2(*b) | enc_b(8);
                        vec![word, t.fixed("addi") | rd(d) | enc_i(1)]
                    }
                    _ => vec![v.fixed | rd(d) | rs1(*a) | rs2(*b)],
                })
                .collect();
            let g = plain_ground();
            let budget = kernel.len() as u32;
            out.push(state_case(&corner_state(&g), kernel, g, budget));
        }
    }
}

fn corner_immediates(rng: &mut Rng, t: &Table, out: &mut Vec<Case>) {
    for v in t.with(|v| v.fixed & 0x7f == 0x13) {
        let free = v.free & !(RD | RS1);
        let kernel: Vec<u32> = (11..31)
            .map(|d| {
                let imm = rng.pick(&[0, 1, 31, 0x7ff, 0x800, 0xfff]) << 20;
                v.fixed | rd(d) | rs1(1 + rng.below(10)) | imm & free
            })
            .collect();
        let g = plain_ground();
        out.push(state_case(&corner_state(&g), kernel, g, 20));
    }
}

fn corner_lanes(rng: &mut Rng, t: &Table, out: &mut Vec<Case>) {
    for v in t.with(|v| v.fixed & 0x7f == 0x57 && v.shape == Shape::Plain) {
        for _ in 0..2 {
            let g = corner_ground(rng, 6);
            let kernel = (0..6)
                .map(|n| {
                    let source = match v.name.rsplit('.').next() {
                        Some("vv") => rs1(corner_register(rng)),
                        Some("vx") | Some("x") => rs1(1 + rng.below(10)),
                        _ => rs1(rng.pick(&[0, 1, 15, 16, 30, 31])),
                    };
                    v.fixed | rd(4 * n) | (rs2(corner_register(rng)) | source) & v.free
                })
                .collect();
            out.push(state_case(&corner_state(&g), kernel, g, 6));
        }
    }
}

fn corner_vbranches(rng: &mut Rng, t: &Table, out: &mut Vec<Case>) {
    for v in t.with(Variant::is_vbranch) {
        for _ in 0..12 {
            let g = corner_ground(rng, 2);
            let word = v.fixed | rs1(corner_register(rng)) | rs2(corner_register(rng)) | enc_b(8);
            out.push(state_case(&corner_state(&g), vec![word, NOP], g, 1));
        }
    }
}

/// vmv.x.s where the active lanes agree although the others differ, and where
/// exactly one active lane differs.
fn uniforms(round: u32, t: &Table, out: &mut Vec<Case>) {
    let mut rng = Rng::of_family(round, 17);
    let rng = &mut rng;
    for n in 0..100 {
        let mut g = ground(rng, 4);
        (g.fixed.numt, g.fixed.mask) = (32, u32::MAX);
        // v4 becomes 1 in lane `odd` and 0 elsewhere.
        let odd = rng.below(32);
        let kernel = vec![
            t.fixed("vid.v") | rd(4),
            t.fixed("vmseq.vx") | rd(4) | rs2(4) | rs1(5),
            t.fixed("vmv.x.s") | rd(rng.pick(&[0, 7, 9])) | rs2(4),
            t.fixed("addi") | rd(8) | rs1(7) | enc_i(1),
        ];
        let mut warp = random_state(rng, &g, 4, 0);
        warp.x[5] = odd;
        if n % 2 == 0 {
            // Lane `odd` is parked, or alone.
            let else_mask = 1 << odd;
            let phase_two = n % 4 == 0;
            let (rpc, else_pc) = (g.fixed.code_base, g.fixed.code_base);
            warp.splits[0] = Split { rpc, full: u32::MAX, else_mask, else_pc, phase_two };
            warp.depth = 1;
            warp.mask = warp.splits[0].running();
        }
        out.push(state_case(&warp, kernel, g, 4));
    }
}

/// Legal words in any order, some of them behind a prefix.
pub(crate) struct Soup<'a> {
    t: &'a Table,
    vector: Vec<&'a Variant>,
    memory: Vec<&'a Variant>,
    vbranch: Vec<&'a Variant>,
    scalar: Vec<&'a Variant>,
}

impl<'a> Soup<'a> {
    pub(crate) fn new(t: &'a Table) -> Soup<'a> {
        Soup {
            t,
            vector: t.with(|v| v.fixed & 0x7f == 0x57 && v.shape == Shape::Plain),
            memory: t.with(touches_memory),
            vbranch: t.with(Variant::is_vbranch),
            scalar: t.with(|v| {
                !matches!(v.shape, Shape::Control | Shape::VmvXS | Shape::Prefix)
                    && v.fixed & 0x7f != 0x57
            }),
        }
    }

    /// A kernel, and how many of its words are jumped to: pairs can make it longer.
    pub(crate) fn kernel(&self, rng: &mut Rng) -> (Vec<u32>, u32) {
        let words = 6 + rng.below(18);
        let mut kernel = Vec::new();
        while (kernel.len() as u32) < words {
            let at = kernel.len() as u32;
            let p = Place { at, words, forward: rng.chance(2), wild: true };
            let v = match rng.below(20) {
                0..=4 if rng.chance(3) => any_masked(rng, self.t),
                0..=4 => rng.pick(&self.vector),
                5..=7 => rng.pick(&self.memory),
                8..=10 => rng.pick(&self.vbranch),
                11..=12 => self.t.get("join"),
                13 => self.t.get("setrpc"),
                14 if rng.chance(6) => self.t.get(rng.pick(&["endprg", "barrier"])),
                15 if rng.chance(6) => self.t.get("vmv.x.s"),
                _ => rng.pick(&self.scalar),
            };
            if rng.chance(if v.takes_regext() { 5 } else { 60 }) && !is_prepared(v) {
                kernel.push(random_prefix(rng, v));
            }
            push_drawn(rng, self.t, v, p, &mut kernel);
        }
        (kernel, words)
    }
}

/// Such kernels from any well-formed state.
fn soup(round: u32, t: &Table, out: &mut Vec<Case>) {
    let mut rng = Rng::of_family(round, 2);
    let rng = &mut rng;
    let soup = Soup::new(t);
    for _ in 0..900 {
        let (kernel, words) = soup.kernel(rng);
        let g = ground(rng, kernel.len() as u32);
        let depth = rng.pick(&[0, 0, 0, 1, 2, 3, 4, 12]);
        let mut warp = if rng.chance(3) {
            random_state(rng, &g, words, depth)
        } else {
            extended_state(rng, &g, words, depth)
        };
        if rng.chance(3) {
            warp.pc = kernel_pc(rng, &g.fixed, words);
        }
        let budget = rng.pick(&[0, 1, 2, 8, 16, 32, 64, 64, 100, 150]);
        out.push(state_case(&warp, kernel, g, budget));
    }
}

/// Kernels with nested branches and loops, well and badly nested.
pub(crate) struct Builder<'a> {
    t: &'a Table,
    pub(crate) words: Vec<u32>,
    limit: usize,
    /// One in this many constructs is badly nested; 0 for none.
    bad: u32,
    /// The bytes from one lane's address in v2 to the next one's.
    apart: u32,
    vector: Vec<&'a Variant>,
    scalar: Vec<&'a Variant>,
    vbranch: Vec<&'a Variant>,
}

impl<'a> Builder<'a> {
    pub(crate) fn new(t: &'a Table, limit: usize, bad: u32) -> Builder<'a> {
        Builder {
            t,
            words: Vec::new(),
            limit,
            bad,
            apart: 1,
            vector: t.with(|v| v.fixed & 0x7f == 0x57 && v.shape == Shape::Plain),
            scalar: t.with(|v| {
                v.shape == Shape::Plain && matches!(v.fixed & 0x7f, 0x13 | 0x33 | 0x37 | 0x17)
            }),
            vbranch: t.with(Variant::is_vbranch),
        }
    }
    pub(crate) fn op(&mut self, name: &str, fields: u32) {
        let word = self.t.fixed(name) | fields;
        self.words.push(word);
    }
    pub(crate) fn here(&self) -> i32 {
        self.words.len() as i32 * 4
    }
    /// A place to be filled in later.
    pub(crate) fn hole(&mut self) -> usize {
        self.words.push(NOP);
        self.words.len() - 1
    }
    pub(crate) fn off(&self, hole: usize, to: i32) -> i32 {
        to - hole as i32 * 4
    }
    fn goes_wrong(&self, rng: &mut Rng) -> bool {
        self.bad != 0 && rng.chance(self.bad)
    }

    /// v1 = lane, v2 = an address, v3 = 0 to 28 in fours, x8 = the data base.
    pub(crate) fn prelude(&mut self, rng: &mut Rng, data_base: u32) {
        self.op("vid.v", rd(1));
        let high = data_base.wrapping_add(0x800) & 0xffff_f000;
        self.op("lui", rd(8) | high);
        self.op("addi", rd(8) | rs1(8) | enc_i(data_base.wrapping_sub(high) as i32));
        let shift = rng.below(3);
        self.apart = 1 << shift;
        self.op("vsll.vi", rd(2) | rs2(1) | rs1(shift));
        self.op("vadd.vx", rd(2) | rs2(2) | rs1(8));
        self.op("vand.vi", rd(3) | rs2(1) | rs1(rng.pick(&[1, 3, 7])));
        self.op("vsll.vi", rd(3) | rs2(3) | rs1(2));
        self.op("vxor.vi", rd(4) | rs2(1) | rs1(rng.below(32)));
        if rng.chance(2) {
            self.op("vmul.vv", rd(5) | rs2(1) | rs1(4));
        }
        if rng.chance(3) {
            self.op("csrrs", rd(9) | enc_i(0x800 + rng.range(0, 12)));
        }
    }

    pub(crate) fn block(&mut self, rng: &mut Rng, depth: u32) {
        for _ in 0..1 + rng.below(3) {
            if self.words.len() >= self.limit {
                return;
            }
            match rng.below(16) {
                0..=3 => self.lane_operation(rng),
                4 => {
                    let v = rng.pick(&self.scalar);
                    let word = v.fixed | rng.word() & v.free;
                    self.prefix(rng, v, 6);
                    self.words.push(word & !RD | rd(10 + rng.below(12)));
                }
                5..=6 => self.lane_access(rng),
                7..=10 if depth < 4 => self.branch(rng, depth),
                11..=12 if depth < 3 => self.turns(rng, depth),
                13 if self.goes_wrong(rng) => self.words.push(JOIN),
                14 if rng.chance(8) => self.words.push(BARRIER | rs1(rng.below(32))),
                15 if rng.chance(2) => self.op("csrrsi", rd(11) | rs1(depth + 1) | enc_i(0x80b)),
                _ => self.op(
                    "vadd.vi",
                    rd(4 + rng.below(4)) | rs2(1 + rng.below(7)) | rs1(rng.below(32)),
                ),
            }
        }
    }

    /// One word of so many has a prefix: registers of few numbers, so that they meet.
    fn prefix(&mut self, rng: &mut Rng, v: &Variant, one_in: u32) {
        if rng.chance(one_in) {
            let few = rng.pick(&[1, 1, 7]);
            let [xd, x1, x2] = digits(rng, v).map(|digit| digit & few);
            let lengthened = v.is_vi() && rng.chance(2);
            let imm = rng.below(64);
            self.words.push(if lengthened { regexti(imm, x2, xd) } else { regext(x2, x1, xd) });
        }
    }

    /// Over v1 to v15, into v4 to v15; masked in one of three, then often under another mask.
    fn lane_operation(&mut self, rng: &mut Rng) {
        let masked = rng.chance(3);
        if masked && !rng.chance(3) {
            self.words.push(new_v0(rng, self.t));
        }
        let v = if masked { any_masked(rng, self.t) } else { rng.pick(&self.vector) };
        self.prefix(rng, v, 4);
        let any = v.fixed | rng.word() & v.free;
        let mut word = any & !RD | rd(4 + rng.below(12));
        if v.free & RS2 != 0 {
            word = word & !RS2 | rs2(1 + rng.below(15));
        }
        if v.free & RS1 != 0 && v.form() == "vv" {
            word = word & !RS1 | rs1(1 + rng.below(15));
        }
        self.words.push(word);
    }

    /// A store's name, flat at v2: mostly of a size by which lanes don't overlap.
    pub(crate) fn flat_store(&self, rng: &mut Rng) -> &'static str {
        let any = rng.chance(10);
        let names = [("vsb12", 1), ("vsh12", 2), ("vsw12", 4)];
        let fits = names.iter().filter(|(_, size)| any || *size <= self.apart);
        let names: Vec<&str> = fits.map(|(name, _)| *name).collect();
        rng.pick(&names)
    }

    /// A load or store, flat at v2 or private at v3.
    fn lane_access(&mut self, rng: &mut Rng) {
        let loads = ["lb", "lh", "lw", "lbu", "lhu"];
        let (store, flat) = (rng.chance(2), rng.chance(2));
        let value = if store { 1 + rng.below(15) } else { 4 + rng.below(12) };
        let word = if flat {
            let name = match store {
                true => self.flat_store(rng).into(),
                false => format!("v{}12", rng.pick(&loads)),
            };
            access(self.t.get(&name), 2, value, rng.range(0, 16))
        } else {
            let name = if store { rng.pick(&["sb", "sh", "sw"]) } else { rng.pick(&loads) };
            let v = self.t.get(&format!("v{name}.p"));
            let low = Low::mostly_fitting(rng, size_of(v));
            access(v, 3, value, 4 * rng.range(0, 3) + low.at as i32)
        };
        self.words.push(word);
    }

    /// Two holes for AUIPC and SETRPC.
    fn rpc_holes(&mut self) -> (usize, usize) {
        (self.hole(), self.hole())
    }
    fn fill_rpc(&mut self, holes: (usize, usize), to: i32) {
        self.words[holes.0] = self.t.fixed("auipc") | rd(30);
        self.words[holes.1] =
            self.t.fixed("setrpc") | rd(0) | rs1(30) | enc_i(self.off(holes.0, to));
    }

    pub(crate) fn branch(&mut self, rng: &mut Rng, depth: u32) {
        let wrong = if self.goes_wrong(rng) { 1 + rng.below(6) } else { 0 };
        // 1: keep the rpc of whoever set it last.
        let rpc = if wrong == 1 { None } else { Some(self.rpc_holes()) };
        let vb = self.hole();
        self.block(rng, depth + 1);
        // 2: the else lanes' code is entered by falling through.
        let jump = if wrong == 2 || rng.chance(3) { None } else { Some(self.hole()) };
        let else_at = self.here();
        if jump.is_some() {
            self.block(rng, depth + 1);
        }
        let join_at = self.here();
        // 3: no JOIN; 4: the rpc misses it; 5: two of them.
        if wrong != 3 {
            self.words.push(JOIN);
        }
        if wrong == 5 {
            self.words.push(JOIN);
        }
        let v = rng.pick(&self.vbranch);
        let fields = rs1(1 + rng.below(6)) | rs2(rng.pick(&[0, 1, 3, 4, 5, 6]));
        self.words[vb] = v.fixed | fields | enc_b(self.off(vb, else_at));
        if let Some(jump) = jump {
            // 6: the first lanes skip the JOIN.
            let to = if wrong == 6 { join_at + 4 } else { join_at };
            self.words[jump] = self.t.fixed("jal") | enc_j(self.off(jump, to));
        }
        if let Some(rpc) = rpc {
            let to = if wrong == 4 { join_at + rng.pick(&[-4, 4, 2]) } else { join_at };
            self.fill_rpc(rpc, to);
        }
    }

    /// A loop that each lane leaves after its own number of turns.
    pub(crate) fn turns(&mut self, rng: &mut Rng, depth: u32) {
        let (count, bound) = (16 + 2 * depth, 17 + 2 * depth);
        self.op("vmv.vi", rd(count));
        self.op("vand.vi", rd(bound) | rs2(1) | rs1(rng.pick(&[1, 3, 7, 15])));
        let wrong = self.goes_wrong(rng);
        let early = if wrong { Some(self.rpc_holes()) } else { None };
        let top = self.here();
        if rng.chance(2) {
            self.block(rng, depth + 2);
        }
        self.op("vadd.vi", rd(count) | rs2(count) | rs1(1));
        let rpc = match early {
            Some(holes) => holes,
            None => self.rpc_holes(),
        };
        let vb = self.hole();
        let back = self.hole();
        let exit = self.here();
        self.words.push(JOIN);
        let name = rng.pick(&["vblt", "vbltu"]);
        self.words[vb] = self.t.fixed(name) | rs1(bound) | rs2(count) | enc_b(self.off(vb, exit));
        self.words[back] = self.t.fixed("jal") | enc_j(self.off(back, top));
        self.fill_rpc(rpc, exit);
    }
}

fn structured(round: u32, t: &Table, out: &mut Vec<Case>) {
    let mut rng = Rng::of_family(round, 3);
    let rng = &mut rng;
    for n in 0..1000 {
        let mut b =
            Builder::new(t, rng.pick(&[20, 28, 34, 34, 60]), if n % 2 == 0 { 0 } else { 4 });
        let mut g = ground(rng, 200);
        // Private: u at most 43, which is in the eleventh word of each lane.
        g.data.total = (44 * g.fixed.numt + 4).max(160);
        g.fixed.data_base = rng.pick(&[0, 0x1001, 0x9000_0000, 0x7fff_ffc0]);
        g.fixed.pds = g.fixed.data_base.wrapping_add(rng.below(5));
        g.vector.seed = if rng.chance(4) { rng.word() } else { 0 };
        g.fixed.code_base = rng.pick(&[0, 0x1000, 0x8000_0000, 0x7fff_fff0]);
        b.prelude(rng, g.fixed.data_base);
        b.block(rng, 0);
        b.branch(rng, 0);
        if rng.chance(2) {
            b.turns(rng, 0);
        }
        b.block(rng, 0);
        if !rng.chance(12) {
            b.words.push(ENDPRG);
        }
        let budget = rng.pick(&[10, 40, 200, 400, 400, 1000]);
        let entry = g.fixed.code_base;
        out.push(launch_case(g, entry, b.words, budget));
    }
}

/// Deep chains over kernels of JOINs.
fn joins(round: u32, t: &Table, out: &mut Vec<Case>) {
    let mut rng = Rng::of_family(round, 4);
    let rng = &mut rng;
    for n in 0..300 {
        let words = 2 + rng.below(9);
        let mut kernel: Vec<u32> = (0..words)
            .map(|at| match rng.below(8) {
                0 => t.fixed("vadd.vi") | rd(9) | rs2(9) | rs1(1),
                1 => t.fixed("jal") | enc_j(target(rng, at, words, false, false)),
                2 => t.fixed("addi") | rd(5) | rs1(5) | enc_i(1),
                _ => JOIN,
            })
            .collect();
        if rng.chance(2) {
            kernel.push(rng.pick(&[ENDPRG, BARRIER, NOP]));
        }
        let mut g = ground(rng, words + 1);
        if n % 3 == 0 {
            (g.fixed.numt, g.fixed.mask) = (32, u32::MAX);
        }
        let depth = rng.pick(&[1, 2, 3, 6, 14, 31, 31]);
        let mut warp = random_state(rng, &g, words, depth);
        if rng.chance(2) {
            // One rpc for all.
            let rpc = kernel_pc(rng, &g.fixed, words);
            let open = warp.depth as usize;
            warp.splits[..open].iter_mut().for_each(|s| s.rpc = rpc);
        }
        let budget = rng.pick(&[1, 2, 5, 20, 60, 120, 200]);
        out.push(state_case(&warp, kernel, g, budget));
    }
}

/// Trip counts 1 to 32: the loop that opens NUMT - 1 splits.
fn trips(round: u32, t: &Table, out: &mut Vec<Case>) {
    let mut rng = Rng::of_family(round, 5);
    let rng = &mut rng;
    let kernel = |reverse: bool| {
        let mut b = Builder::new(t, 99, 0);
        b.op("vid.v", rd(1));
        if reverse {
            b.op("vrsub.vi", rd(1) | rs2(1) | rs1(15));
            b.op("vadd.vi", rd(1) | rs2(1) | rs1(15));
        }
        let rpc = b.rpc_holes();
        let top = b.here();
        b.op("vadd.vi", rd(3) | rs2(3) | rs1(1));
        let vb = b.hole();
        let back = b.hole();
        let exit = b.here();
        b.words.push(JOIN);
        b.words.push(ENDPRG);
        b.words[vb] = t.fixed("vblt") | rs1(1) | rs2(3) | enc_b(b.off(vb, exit));
        b.words[back] = t.fixed("jal") | enc_j(b.off(back, top));
        b.fill_rpc(rpc, exit);
        b.words
    };
    for numt in 1..=32 {
        for n in 0..5 {
            let mut g = plain_ground();
            (g.fixed.numt, g.fixed.mask) = (numt, low_mask(numt));
            if n == 3 {
                g.fixed.mask = some_lanes(rng, g.fixed.mask);
            }
            if n == 4 {
                g.fixed.mask = 1 << rng.below(numt);
            }
            let budget = if n == 1 { rng.below(150) } else { 400 };
            let entry = g.fixed.code_base;
            out.push(launch_case(g, entry, kernel(n == 2), budget));
        }
    }
}

/// ENDPRG, BARRIER, and warps that have ended or wait.
fn controls(round: u32, out: &mut Vec<Case>) {
    let mut rng = Rng::of_family(round, 6);
    let rng = &mut rng;
    for n in 0..200 {
        let control = if n % 2 == 0 { ENDPRG } else { BARRIER | rs1(rng.below(32)) };
        let kernel = vec![control, rng.pick(&[NOP, JOIN, ENDPRG, BARRIER, 0])];
        let g = ground(rng, 2);
        let depth = if n % 4 >= 2 { 1 + rng.below(3) } else { 0 };
        let mut warp = random_state(rng, &g, 2, depth);
        if n >= 120 && warp.depth == 0 {
            warp.ended = n % 2 == 0;
            warp.waiting = n % 2 == 1;
            if n >= 160 {
                warp.pc = warp.pc.wrapping_add(4 * rng.below(4)); // 3 and 4 before 5 and 6
            }
        }
        let budget = rng.pick(&[0, 1, 1, 2, 3]);
        out.push(state_case(&warp, kernel, g, budget));
    }
}

/// Every CSR has another value.
pub(crate) fn csr_ground() -> Ground {
    let mut g = plain_ground();
    (g.fixed.numt, g.fixed.numw, g.fixed.wid) = (7, 9, 5);
    (g.fixed.knl, g.fixed.wgid, g.fixed.lds, g.fixed.pds) = (31, 32, 33, 34);
    (g.fixed.gidx, g.fixed.gidy, g.fixed.gidz) = (35, 36, 37);
    g
}

/// Every CSR and its neighbours, in all six forms, writing and not.
fn csrs(t: &Table, out: &mut Vec<Case>) {
    for csr in (0x7fc..0x812).chain([0, 1, 0x300, 0x880, 0xc00, 0xfff]) {
        for v in t.with(|v| v.shape == Shape::Csr) {
            for field in [0, 5] {
                let g = csr_ground();
                let kernel = vec![
                    t.fixed("addi") | rd(5) | enc_i(if csr % 3 == 0 { 0 } else { 0x155 }),
                    t.fixed("csrrwi") | rs1(28) | enc_i(0x80b),
                    t.fixed("csrrwi") | rs1(26) | enc_i(0x80c),
                    v.fixed | rd(if csr % 5 == 0 { 0 } else { 6 }) | rs1(field) | enc_i(csr),
                ];
                let entry = g.fixed.code_base;
                out.push(launch_case(g, entry, kernel, 4));
            }
        }
    }
    csrs_behind_a_prefix(t, out);
}

/// Words of what is not here; the last two are, though they look like another.
const FOREIGN_WORDS: [u32; 31] = [
    0,
    u32::MAX,
    0x73,
    0x0010_0073,
    0x100f,
    0x1020_0073, // ecall, ebreak, fence.i, sret
    0x0600_400b,
    0x0600_c00b, // BARRIERSUB
    0x0001_7057,
    0x8000_7057,
    0xc000_7057, // vsetvli, vsetvl, vsetivli
    0x1000_202f,
    0x0000_202f, // lr.w, amoadd.w
    0x0000_0053,
    0x0000_2007,
    0x0000_2027, // fadd.s, flw, fsw
    0x0200_1057,
    0x0200_5057, // vfadd
    0x8000_002b,
    0x8000_602b, // private forms with bit 31
    0x0000_3003,
    0x0000_6003,
    0x0000_7003,
    0x0000_3023,
    0x0000_4023, // wrong widths
    0x0000_2063,
    0x0000_3063,
    0x0000_1067,
    0x0000_4073,
    0x0000_005b,
    0x0000_105b, // VBEQ (not VADD12) and VBNE
];

/// Words next to legal ones: each fixed bit above the opcode turned over, and
/// one of the opcode's; vector words with vm = 0 or of another funct3.
fn beside_legal(rng: &mut Rng, t: &Table) -> Vec<u32> {
    let mut words = Vec::new();
    for v in t.with(|_| true) {
        let opcode_bit = rng.below(7);
        for bit in (7..32).chain([opcode_bit]).filter(|bit| v.free >> bit & 1 == 0) {
            words.push((v.fixed | rng.word() & v.free) ^ 1 << bit);
        }
        if v.fixed & 0x7f == 0x57 {
            words.push((v.fixed | rng.word() & v.free) & !VM);
            let funct3 = rng.below(8) << 12;
            words.push((v.fixed | rng.word() & v.free) & !0x7000 | funct3);
        }
    }
    words
}

/// Words next to legal ones, words of what is not here, and any words.
fn near_words(round: u32, t: &Table, out: &mut Vec<Case>) {
    let mut rng = Rng::of_family(round, 7);
    let mut words = beside_legal(&mut rng, t);
    words.extend(FOREIGN_WORDS);
    words.extend((0..150).map(|_| rng.word()));
    for (n, word) in words.into_iter().enumerate() {
        let mut g = plain_ground();
        g.fixed.numt = 1 + n as u32 % 32;
        g.fixed.mask = low_mask(g.fixed.numt);
        let kernel = vec![t.fixed("vid.v") | rd(1), word, NOP];
        let entry = g.fixed.code_base;
        out.push(launch_case(g, entry, kernel, 3));
    }
}

/// Each access at both ends of the data, in a run and at the end of the space.
fn data_ends(round: u32, t: &Table, out: &mut Vec<Case>) {
    let mut rng = Rng::of_family(round, 8);
    let rng = &mut rng;
    for v in t.with(touches_memory) {
        let size = size_of(v);
        for total in [0u32, 3, 24] {
            let top = (1u64 << 32).wrapping_sub(u64::from(total)) as u32;
            for base in [0x9000_0000, top, 0] {
                let end = base.wrapping_add(total);
                let places = if total == 0 {
                    vec![base, base.wrapping_sub(1)]
                } else {
                    vec![
                        base,
                        base.wrapping_sub(1),
                        end.wrapping_sub(size),
                        end.wrapping_sub(size).wrapping_add(1),
                    ]
                };
                for place in places {
                    out.push(data_end(rng, v, total, base, place));
                }
            }
        }
    }
}

/// One access of variant `v` with its one interesting lane at `place`.
fn data_end(rng: &mut Rng, v: &Variant, total: u32, base: u32, place: u32) -> Case {
    let mut g = plain_ground();
    g.fixed.data_base = base;
    g.data = Data { bytes: Vec::new(), total, seed: rng.word() };
    g.vector.seed = rng.word();
    // Register 2 holds base + 0 in every lane.
    let off = rng.range(-40, 40);
    g.vector.base = place.wrapping_sub(off as u32);
    g.vector.mask = 0;
    if v.shape == Shape::Vstore && !rng.chance(3) {
        g.fixed.mask = 1 << rng.below(4); // all lanes at one place clash
    }
    if is_private(v) {
        let lane = rng.below(32);
        g.fixed.numt = lane + 1 + rng.below(32 - lane);
        (g.fixed.numw, g.fixed.wid, g.fixed.mask) = (5, 3, 1 << lane);
        let low = if rng.chance(3) { Low::any(rng) } else { Low::fitting(rng, size_of(v)) };
        let u = 4 * rng.pick(&[0, 1, 7, 255, 0x3fff_ffff]) + low.at;
        g.fixed.pds = place.wrapping_sub(private_rise(&g.fixed, lane, u));
        g.vector.base = u.wrapping_sub(off as u32);
    }
    let mut warp = Warp { fixed: g.fixed, mask: g.fixed.mask, ..Warp::default() };
    warp.pc = g.fixed.code_base;
    warp.x[2] = g.vector.base;
    warp.x[4] = rng.word();
    let kernel = vec![access(v, 2, 4, off)];
    state_case(&warp, kernel, g, 1)
}

/// How far above PDS a lane's private byte u is.
fn private_rise(f: &Fixed, lane: u32, u: u32) -> u32 {
    address(&Fixed { pds: 0, ..*f }, Space::Private, lane as usize, u)
}

/// Private accesses of many lanes.
fn privates(round: u32, t: &Table, out: &mut Vec<Case>) {
    let mut rng = Rng::of_family(round, 19);
    for v in t.with(is_private) {
        // A byte can't cross.
        let count = if size_of(v) == 1 { 20 } else { 40 };
        for _ in 0..count {
            out.push(private_case(&mut rng, t, v));
        }
    }
}

/// Which lanes of a private access cross a word boundary, or are far from the others.
#[derive(Clone, Copy, PartialEq, Eq)]
enum Lanes {
    NoneCross,
    AllCross,
    /// Any u mod 4 in each lane.
    Any,
    /// Only lanes that are not active would cross.
    IdleCross,
    OneCrosses,
    OneFar,
    OneFarCrosses,
    OneCrossesOthersFar,
}

/// Between lanes that are far from each other, in bytes of u.
const FAR: u32 = 4096;

impl Lanes {
    fn draw(rng: &mut Rng, size: u32) -> Lanes {
        let any = [
            Lanes::AllCross,
            Lanes::Any,
            Lanes::IdleCross,
            Lanes::OneFar,
            Lanes::OneFarCrosses,
            Lanes::OneCrossesOthersFar,
        ];
        match rng.below(12) {
            0..=2 => Lanes::NoneCross,
            _ if size == 1 => rng.pick(&[Lanes::NoneCross, Lanes::OneFar]),
            3..=4 => Lanes::OneCrosses,
            _ => rng.pick(&any),
        }
    }
    fn low(self, rng: &mut Rng, size: u32) -> Low {
        match self {
            Lanes::NoneCross => Low::fitting(rng, size),
            Lanes::AllCross | Lanes::IdleCross => Low::crossing(rng, size),
            Lanes::Any => Low::any(rng),
            _ => Low { vary: 0, ..Low::fitting(rng, size) },
        }
    }
    /// What is added to every lane's u: far, where only the one that crosses is near.
    fn beyond(self) -> u32 {
        u32::from(self == Lanes::OneCrossesOthersFar) * FAR
    }
    /// What the one lane's u is raised by; the others' is at `low` mod 4.
    fn raise(self, rng: &mut Rng, size: u32, low: u32) -> u32 {
        let cross = |rng: &mut Rng| rng.range((5 - size - low) as i32, (3 - low) as i32) as u32;
        match self {
            Lanes::OneCrosses => cross(rng),
            Lanes::OneFar => FAR,
            Lanes::OneFarCrosses => FAR + cross(rng),
            Lanes::OneCrossesOthersFar => cross(rng).wrapping_sub(FAR),
            _ => 0,
        }
    }
    /// What changes v6, u less the offset: lane x5's is raised by x6, or the low bits of active
    /// lanes are cleared.
    fn words(self, t: &Table) -> Vec<u32> {
        match self {
            Lanes::NoneCross | Lanes::AllCross | Lanes::Any => vec![],
            Lanes::IdleCross => vec![t.fixed("vand.vi") | rd(6) | rs2(6) | rs1(-4i32 as u32 & 31)],
            _ => vec![
                t.fixed("vid.v") | rd(1),
                t.fixed("vmseq.vx") | rd(1) | rs2(1) | rs1(5),
                t.fixed("vmul.vx") | rd(1) | rs2(1) | rs1(6),
                t.fixed("vadd.vv") | rd(6) | rs2(6) | rs1(1),
            ],
        }
    }
}

/// A private access of variant `v` and one of the same size.
fn private_case(rng: &mut Rng, t: &Table, v: &Variant) -> Case {
    let size = size_of(v);
    let lanes = Lanes::draw(rng, size);
    let low = lanes.low(rng, size);
    let spread = rng.pick(&[0, 4, 12, 28]);
    let u = private_start(rng);
    let numt = 1 + rng.below(32);
    let mut g = private_ground(rng, numt, u, spread / 4 + 2);
    let off = if lanes == Lanes::IdleCross { 4 * rng.range(-9, 9) } else { rng.range(-40, 40) };
    g.vector.base = (u + low.at).wrapping_add(lanes.beyond()).wrapping_sub(off as u32);
    g.vector.mask = spread | low.vary;
    let mut kernel = lanes.words(t);
    let other = rng.pick(&t.with(|other| is_private(other) && size_of(other) == size));
    for v in [v, other] {
        kernel.push(access(v, 6, rng.pick(&[0, 3, 6, 9, 12, 31]), off));
    }
    let words = kernel.len() as u32;
    let mut warp = Warp { fixed: g.fixed, mask: g.fixed.mask, ..Warp::default() };
    warp.pc = g.fixed.code_base;
    let depth = rng.pick(&[0, 0, 1, 2]);
    open_splits(rng, &mut warp, words, depth);
    warp.x[5] = active_lane(rng, warp.mask);
    warp.x[6] = lanes.raise(rng, size, low.at);
    state_case(&warp, kernel, g, words)
}

/// A multiple of 4, mostly below 1,024.
fn private_start(rng: &mut Rng) -> u32 {
    match rng.below(8) {
        0 => rng.word() & !3,
        1 => rng.pick(&[0xffff_fff0, 0xffff_fffc, 0x7fff_fffc, 0x8000_0000, 0x0800_0000]),
        _ => 4 * rng.below(240),
    }
}

/// The lowest, the highest or any lane of the mask.
fn active_lane(rng: &mut Rng, mask: u32) -> u32 {
    let one = match rng.below(3) {
        0 => mask,
        1 => return 31 - mask.leading_zeros(),
        _ => some_lanes(rng, mask),
    };
    one.trailing_zeros()
}

/// So many rows of private words, from u on: mostly inside the data, else cut by its beginning or
/// its end, or outside.
fn private_ground(rng: &mut Rng, numt: u32, u: u32, rows: u32) -> Ground {
    let mut g = plain_ground();
    let mask = if rng.chance(2) { some_lanes(rng, low_mask(numt)) } else { low_mask(numt) };
    (g.fixed.numt, g.fixed.mask) = (numt, mask);
    g.fixed.numw = 1 + rng.below(32);
    g.fixed.wid = rng.below(g.fixed.numw);
    let row = 4 * numt;
    let (bytes, cut) = (rows * row, 1 + rng.below(row));
    let (total, start) = match rng.below(10) {
        0 => (bytes, cut.wrapping_neg()),
        1 => (bytes - cut, 0),
        2 => (bytes, rng.pick(&[bytes, bytes.wrapping_neg()])),
        _ => (bytes + cut, rng.below(cut + 1)),
    };
    let top = total.wrapping_neg();
    g.fixed.data_base = rng.pick(&[0, 0x1001, 0x7fff_ffc0, 0x9000_0000, top]);
    let first = private_rise(&g.fixed, 0, u);
    g.fixed.pds = g.fixed.data_base.wrapping_add(start).wrapping_sub(first);
    g.data = Data { bytes: Vec::new(), total, seed: rng.word() };
    g.vector.seed = rng.word();
    g
}

/// PCs at both ends of the space and of the kernel.
fn pc_edges(round: u32, t: &Table, out: &mut Vec<Case>) {
    let mut rng = Rng::of_family(round, 10);
    edge_jumps(t, out);
    entries_off_the_kernel(&mut rng, out);
    half_word_targets(&mut rng, t, out);
}

fn edge_jumps(t: &Table, out: &mut Vec<Case>) {
    let (jal, jalr, auipc) = (t.fixed("jal"), t.fixed("jalr"), t.fixed("auipc"));
    let (beq, vbeq, vbne) = (t.fixed("beq"), t.fixed("vbeq"), t.fixed("vbne"));
    let vid = t.fixed("vid.v") | rd(1);
    let kernels = [
        [NOP, NOP],
        [NOP, jal | rd(1) | enc_j(4)],
        [NOP, jal | rd(1) | enc_j(-8)],
        [jal | rd(1) | enc_j(-0x10_0000), NOP],
        [jal | rd(1) | enc_j(0xf_fffc), NOP],
        [auipc | rd(3) | 0xffff_f000, auipc | rd(4) | 0x7fff_f000],
        [beq | enc_b(-4096), NOP],
        [beq | enc_b(4092), NOP],
        [vbeq | enc_b(-4), NOP],
        [vid, vbne | rs1(1) | enc_b(4)],
        [vid, vbne | rs1(1) | enc_b(-64)],
        [jalr | rd(1) | enc_i(-4), jalr | rd(1) | rs1(1) | enc_i(1)],
    ];
    for kernel in kernels {
        for base in [0, 0xffff_fff8, 0x8000_0000] {
            for entry in [base, base + 4] {
                let mut g = plain_ground();
                g.fixed.code_base = base;
                out.push(launch_case(g, entry, kernel.to_vec(), 4));
            }
        }
    }
}

fn entries_off_the_kernel(rng: &mut Rng, out: &mut Vec<Case>) {
    for n in 0..60 {
        let words = 1 + rng.below(5);
        let g = ground(rng, words);
        let entry = match n % 4 {
            0 => g.fixed.code_base.wrapping_sub(4),
            1 => g.fixed.code_base.wrapping_add(4 * words),
            2 => g.fixed.code_base.wrapping_add(4 * words - 4),
            _ => rng.word() & !3,
        };
        out.push(launch_case(g, entry, vec![NOP; words as usize], rng.below(8)));
    }
}

/// Jumps and branches, taken or not, to halves of words.
fn half_word_targets(rng: &mut Rng, t: &Table, out: &mut Vec<Case>) {
    for n in 0..90 {
        let mut g = plain_ground();
        let off = 4 * rng.range(-3, 3) + 2;
        let word = match n % 9 {
            0 => t.fixed("jal") | rd(2) | enc_j(off),
            1 => t.fixed("jalr") | rd(2) | enc_i(off),
            2 => t.fixed("jalr") | rd(2) | enc_i(off | 1),
            3 => t.fixed("beq") | enc_b(off),
            4 => t.fixed("bne") | enc_b(off),
            5 => t.fixed("vbeq") | enc_b(off),
            6 => t.fixed("vbne") | enc_b(off),
            7 => t.fixed("vbeq") | rs1(1) | enc_b(off),
            _ => t.fixed("vbltu") | rs1(1) | rs2(2) | enc_b(off),
        };
        g.fixed.numt = 1 + rng.below(32);
        g.fixed.mask = low_mask(g.fixed.numt);
        let entry = g.fixed.code_base;
        out.push(launch_case(g, entry, vec![t.fixed("vid.v") | rd(1), word, NOP], 3));
    }
}

/// The sizes of the lent runs, each from a launch and from a saved state.
fn sizes(round: u32, out: &mut Vec<Case>) {
    let mut rng = Rng::of_family(round, 11);
    for state in [false, true] {
        for lent in lent_sizes() {
            out.push(size_case(&mut rng, lent, state));
        }
    }
}

/// How long the lent runs are, and where kernel and data lie.
#[derive(Clone, Copy)]
struct Sizes {
    kernel: u32,
    vector: u32,
    data: u32,
    code_base: u32,
    data_base: u32,
}

fn lent_sizes() -> Vec<Sizes> {
    let plain = Sizes {
        kernel: 2,
        vector: VECTOR,
        data: 8,
        code_base: 0x8000_0000,
        data_base: 0x9000_0000,
    };
    let kernels = [0, 1, 2, 16_383, 16_384, 16_385].map(|kernel| Sizes { kernel, ..plain });
    let vectors = [VECTOR, 0, 1, 32, 1024, VECTOR - 1, VECTOR + 1, VECTOR + 32]
        .map(|vector| Sizes { vector, ..plain });
    let datas = [0, 1, 65_535, 65_536, 65_537].map(|data| Sizes { data, ..plain });
    let code_ends = [
        (1, 0xffff_fffc),
        (2, 0xffff_fffc),
        (2, 0xffff_fff8),
        (3, 0xffff_fff8),
        (16_384, 0xffff_0000),
        (16_384, 0xffff_0004),
    ]
    .map(|(kernel, code_base)| Sizes { kernel, code_base, ..plain });
    let data_ends = [
        (0, 0xffff_ffff),
        (1, 0xffff_ffff),
        (2, 0xffff_ffff),
        (65_536, 0xffff_0000),
        (65_536, 0xffff_0001),
    ]
    .map(|(data, data_base)| Sizes { data, data_base, ..plain });
    [&kernels[..], &vectors, &datas, &code_ends, &data_ends].concat()
}

fn size_case(rng: &mut Rng, lent: Sizes, state: bool) -> Case {
    let mut g = plain_ground();
    (g.fixed.code_base, g.fixed.data_base) = (lent.code_base, lent.data_base);
    let kernel = Kernel { words: Vec::new(), total: lent.kernel, fill: NOP };
    let data = Data { bytes: Vec::new(), total: lent.data, seed: 7 };
    let vector = Vector { total: lent.vector, seed: 9, base: 0, mask: 0xff };
    let launch = Launch { fixed: g.fixed, entry: lent.code_base };
    let budget = rng.pick(&[0, 1, 3]);
    if state {
        let state = saved::to_words(&Warp::launched(&launch)).to_vec();
        Case::State { state, kernel, data, vector, budget }
    } else {
        let job = Job { card: card_of(&launch), kernel, data, vector };
        Case::Launch { job, budget, shown: Shown::All }
    }
}

fn random_launch(rng: &mut Rng) -> Launch {
    let g = ground(rng, 1);
    let mut fixed = g.fixed;
    if rng.chance(2) {
        (fixed.code_base, fixed.data_base) = (rng.word() & !3, rng.word());
        (fixed.wgid, fixed.pds) = (rng.word(), rng.word());
    }
    Launch { fixed, entry: rng.word() & !3 }
}

/// Put one launch value out of range.
pub(crate) fn spoil(rng: &mut Rng, w: &mut [u32; 14]) {
    match rng.below(9) {
        0 => w[0] = rng.pick(&[0, 33, 255, 64]),
        1 => w[1] = rng.pick(&[0, 33, 255]),
        2 => w[2] = rng.pick(&[w[1], 32, 255]),
        3 => w[3] = 0,
        4 if w[0] < 32 => w[3] |= 1 << w[0],
        4 | 5 => w[4] |= 1 + rng.below(3),
        6 => w[6] |= 1 + rng.below(3),
        7 => w[0] = rng.below(32 - w[3].leading_zeros()), // the mask's top lane is gone
        _ => w[1] = rng.below(w[2] + 1),
    }
}

/// Cards read and written, sound and damaged.
fn cards(round: u32, out: &mut Vec<Case>) {
    let mut rng = Rng::of_family(round, 12);
    let damaged = cards_read(&mut rng, out);
    // A launch from such cards: every other one.
    for card in damaged.into_iter().step_by(2) {
        let g = plain_ground();
        let job = Job {
            card,
            kernel: Kernel::plain(if rng.chance(8) { vec![] } else { vec![NOP, ENDPRG] }),
            data: g.data,
            vector: Vector { seed: rng.word(), ..g.vector },
        };
        out.push(Case::Launch { job, budget: rng.below(4), shown: Shown::All });
    }
    cards_written(&mut rng, out);
}

/// The bytes of a card whatever its values.
pub(crate) fn raw_card(w: &[u32; 14]) -> Vec<u8> {
    let mut card = vec![0, 48, 1, w[0] as u8, w[1] as u8, w[2] as u8];
    w[3..].iter().for_each(|word| card.extend(word.to_be_bytes()));
    card
}

/// Adds the reads and returns the cards that are not sound.
fn cards_read(rng: &mut Rng, out: &mut Vec<Case>) -> Vec<Vec<u8>> {
    let mut damaged = Vec::new();
    for n in 0..360 {
        let mut words = launch_words(&random_launch(rng));
        if n % 6 == 1 || n % 6 == 2 {
            spoil(rng, &mut words);
        }
        let mut card = raw_card(&words);
        match n % 6 {
            3 => {
                let at = rng.below(3) as usize;
                card[at] = rng.pick(&[0, 1, 2, 47, 49, 50, 255]);
            }
            4 => {
                let size = rng.pick(&[0, 1, 2, 3, 6, 30, 49, 51, 52, 100]);
                card.resize(size, 0);
                if rng.chance(2) && size >= 2 {
                    card[1] = (size - 2) as u8;
                }
            }
            5 => {
                let at = rng.below(50) as usize;
                card[at] ^= 1 << rng.below(8);
            }
            _ => {}
        }
        if n % 6 != 0 {
            damaged.push(card.clone());
        }
        out.push(Case::CardRead { card });
    }
    damaged
}

fn cards_written(rng: &mut Rng, out: &mut Vec<Case>) {
    for n in 0..120 {
        let mut launch = launch_words(&random_launch(rng));
        if n % 3 == 1 {
            spoil(rng, &mut launch);
            if rng.chance(3) {
                launch[rng.below(3) as usize] |= 256; // beyond a byte
            }
        }
        let target = if n % 3 == 2 { rng.pick(&[0, 1, 48, 49, 51, 64]) } else { 50 };
        out.push(Case::CardWrite { launch, target });
    }
}

/// The clauses that `break_state` knows, and those of them that it breaks by chance.
pub(crate) const CLAUSES: u32 = 44;
const BY_CHANCE: u32 = 9;

/// Break one clause of well-formedness, if the state allows it.
pub(crate) fn break_state(rng: &mut Rng, w: &mut [u32], clause: u32) {
    let open = w[saved::OPEN_AT];
    let split = |n: u32, field: usize| saved::SPLITS_AT + 5 * n as usize + field;
    let at = saved::OPEN_AT;
    let (pc, mask, ended, waiting) =
        (saved::PC_AT, saved::MASK_AT, saved::ENDED_AT, saved::WAITING_AT);
    let (kind, bits) = (saved::PREFIX_AT, saved::PREFIX_AT + 1);
    let fixed = saved::FIXED_AT;
    let (numt, numw, wid, launch_mask, code_base) =
        (fixed, fixed + 1, fixed + 2, fixed + 3, fixed + 4);
    let some = if open == 0 { 0 } else { rng.below(open) };
    match clause {
        0 => w[numt] = rng.pick(&[0, 33, 64, u32::MAX]),
        1 => w[numw] = rng.pick(&[0, 33, u32::MAX]),
        2 => w[wid] = rng.pick(&[w[numw], w[numw] + 1, u32::MAX]),
        3 => w[launch_mask] = 0,
        4 => w[launch_mask] ^= 1 << rng.below(w[numt]),
        5 if w[numt] < 32 => w[launch_mask] |= 1 << w[numt],
        5 | 6 => w[code_base] |= 1 + rng.below(3),
        7 => w[pc] |= 1 + rng.below(3),
        8 => w[0] = rng.pick(&CORNERS) | 1,
        9 => w[at] = rng.pick(&[32, 33, 255, u32::MAX]),
        10 => w[at] = if open == 31 { 30 } else { open + 1 },
        11 => w[at] = open.saturating_sub(1),
        12 if open < 31 => w[split(open, rng.below(4) as usize)] = 1 + rng.below(9),
        12 | 13 => w[split(30, 4)] ^= 1,
        14 => (w[ended], w[waiting]) = (1, 1),
        15 => w[ended] = 1,
        16 => w[waiting] = 1,
        17 => w[rng.pick(&[ended, waiting])] = rng.pick(&[2, 3, 256, u32::MAX]),
        18 => w[split(some, 4)] = rng.pick(&[2, 3, 0x100, u32::MAX]),
        19 => w[split(some, 4)] ^= 1,
        20 => w[split(some, 2)] = 0,
        21 => w[split(some, 2)] = w[split(some, 1)],
        22 => w[split(some, 2)] ^= 1 << rng.below(32),
        23 => w[split(some, 1)] ^= 1 << rng.below(32),
        24 => w[split(some, 3)] |= 1 + rng.below(3),
        25 => w[mask] ^= 1 << rng.below(32),
        26 => w[mask] = 0,
        27 => w[mask] = w[launch_mask],
        28 => w[split(some, 0)] = rng.word(), // an rpc is free
        // A prefix of no kind, with too many bits, with bits alone, of a warp that has ended or
        // waits; and one that may be.
        29 => (w[kind], w[bits]) = (rng.pick(&[3, 4, 0x101, u32::MAX]), rng.below(4096)),
        30 => (w[kind], w[bits]) = (rng.pick(&[1, 2]), rng.pick(&[4096, 4097, 8191, u32::MAX])),
        31 => (w[kind], w[bits]) = (0, 1 << rng.below(16)),
        32 => (w[ended], w[kind], w[bits]) = (1, rng.pick(&[1, 2]), rng.below(4096)),
        33 => (w[waiting], w[kind], w[bits]) = (1, rng.pick(&[1, 2]), rng.pick(&[0, 4095])),
        34 => (w[kind], w[bits]) = (rng.pick(&[1, 2]), rng.pick(&[0, 1, 0x800, 4095])),
        _ => {
            let at = rng.below(saved::WORDS as u32) as usize;
            w[at] = if rng.chance(2) { w[at] ^ 1 << rng.below(32) } else { rng.word() };
        }
    }
}

fn ill_formed(round: u32, out: &mut Vec<Case>) {
    let mut rng = Rng::of_family(round, 13);
    let rng = &mut rng;
    for n in 0..620 {
        let words = 3;
        let mut g = ground(rng, words);
        if n % 4 == 0 {
            (g.fixed.numt, g.fixed.mask) = (32, u32::MAX);
        }
        let clause = n % CLAUSES;
        // That a warp has ended or waits is wrong by its prefix alone.
        let depths = if matches!(clause, 32 | 33) { &[0; 7] } else { &[0, 1, 2, 3, 3, 4, 20] };
        let depth = rng.pick(depths);
        let mut warp = random_state(rng, &g, words, depth);
        warp.x = [0; SCALARS]; // the registers do not matter here
        warp.x[5] = rng.word();
        let mut state = saved::to_words(&warp).to_vec();
        break_state(rng, &mut state, clause);
        if n % 100 == 99 {
            state.resize(rng.pick(&NO_STATE), 0);
        }
        let kernel = vec![NOP, rng.pick(&[JOIN, NOP, ENDPRG]), JOIN];
        out.push(Case::State {
            state,
            kernel: Kernel::plain(kernel),
            data: g.data,
            vector: g.vector,
            budget: rng.pick(&[0, 1, 3, 5]),
        });
    }
}

/// Chains that hold but for one else mask: empty, all of the full mask, or
/// reaching outside it; all that follows is made to fit.
fn almost_chains(round: u32, out: &mut Vec<Case>) {
    let mut rng = Rng::of_family(round, 18);
    let rng = &mut rng;
    for n in 0..96 {
        let mut g = plain_ground();
        (g.fixed.numt, g.fixed.mask) = (16, 0x7ffe);
        let mut warp = Warp { fixed: g.fixed, mask: g.fixed.mask, ..Warp::default() };
        warp.pc = g.fixed.code_base;
        let bad = n / 8 % 3;
        for level in 0..3 {
            let full = warp.mask;
            let inner = full & rng.pick(&[0x0ff0, 0x3ffc, 0x7f00]);
            let else_mask = match n % 4 {
                0 if level == bad => 0,
                1 if level == bad => full,
                2 if level == bad => inner | 1,
                3 if level == bad => inner | 0x8000_0000,
                _ => inner,
            };
            let phase_two = if level == bad { n & 4 != 0 } else { true };
            let (rpc, else_pc) = (g.fixed.code_base, g.fixed.code_base);
            warp.splits[level as usize] = Split { rpc, full, else_mask, else_pc, phase_two };
            warp.depth += 1;
            warp.mask = warp.splits[level as usize].running();
            if level == bad && n % 3 == 0 {
                break;
            }
        }
        let budget = rng.below(3);
        out.push(state_case(&warp, vec![NOP, JOIN], g, budget));
    }
}

fn releases(round: u32, out: &mut Vec<Case>) {
    let mut rng = Rng::of_family(round, 14);
    let rng = &mut rng;
    for n in 0..260 {
        let g = ground(rng, 3);
        let depth = if n % 4 == 1 { 2 } else { 0 };
        let mut warp = random_state(rng, &g, 3, depth);
        if n % 3 != 0 {
            warp.x = [0; SCALARS];
        }
        if warp.depth == 0 {
            warp.waiting = n % 4 != 2;
            warp.ended = n % 8 == 2;
        }
        let mut state = saved::to_words(&warp).to_vec();
        if n % 4 == 3 {
            break_state(rng, &mut state, n / 4 % CLAUSES);
        }
        if n % 40 == 39 {
            state.resize(rng.pick(&NO_STATE), 0);
        }
        out.push(Case::Release { state });
    }
}

/// Two or more faults at once: the first in the rules' order counts.
fn precedence(round: u32, out: &mut Vec<Case>) {
    let mut rng = Rng::of_family(round, 15);
    sizes_before_form(&mut rng, out);
    any_faults(&mut rng, out);
}

/// Sizes (1) before each clause of well-formedness (2).
fn sizes_before_form(rng: &mut Rng, out: &mut Vec<Case>) {
    for clause in 0..CLAUSES - BY_CHANCE {
        let g = ground(rng, 3);
        let warp = random_state(rng, &g, 3, 2);
        let mut state = saved::to_words(&warp).to_vec();
        break_state(rng, &mut state, clause);
        let (mut kernel, mut vector, mut data) = (Kernel::plain(vec![NOP; 3]), g.vector, g.data);
        match clause % 3 {
            0 => kernel = Kernel { words: vec![], total: rng.pick(&[0, 16_385]), fill: NOP },
            1 => vector.total = rng.pick(&[VECTOR - 1, VECTOR + 1]),
            _ => data.total = 65_537,
        }
        out.push(Case::State { state, kernel, data, vector, budget: clause % 2 });
    }
}

fn any_faults(rng: &mut Rng, out: &mut Vec<Case>) {
    for n in 0..200 {
        let g = ground(rng, 3);
        let mut warp = random_state(rng, &g, 3, 0);
        warp.x = [0; SCALARS];
        warp.ended = rng.chance(3);
        warp.waiting = !warp.ended && rng.chance(3);
        if rng.chance(3) {
            warp.pc = rng.word() & !3;
        }
        let mut state = saved::to_words(&warp).to_vec();
        if rng.chance(3) {
            break_state(rng, &mut state, n % CLAUSES);
        }
        if rng.chance(12) {
            state.pop();
        }
        let kernel =
            if rng.chance(6) { vec![] } else { vec![rng.pick(&[0, NOP, 0x6f | enc_j(2)]); 3] };
        let mut vector = g.vector;
        if rng.chance(8) {
            vector.total = rng.pick(&[0, 1024, VECTOR - 1, VECTOR + 1]);
        }
        let mut data = g.data;
        if rng.chance(12) {
            data.total = 65_537;
        }
        let budget = rng.pick(&[0, 1, 2]);
        out.push(Case::State { state, kernel: Kernel::plain(kernel), data, vector, budget });
    }
}
