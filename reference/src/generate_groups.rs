//! The generator of group cases: groups launched and refused, and groups handed in, sound and
//! damaged, over kernels with barriers, splits, prefixes and accesses to both memories; round 0
//! makes the stored cases.

use crate::case::{launch_words, Case, Data, Handed, Job, Kernel, Vector};
use crate::generate::{
    access, break_state, card_of, extended_state, ground, is_private, kernel_pc, low_mask,
    raw_card, size_of, some_lanes, spoil, touches_memory, Ground, Rng, Soup, CLAUSES, VECTOR,
};
use crate::generate_masked::masked_kernel;
use crate::generate_stores::{
    is_lane_store, lane_count, lanes_of, private_u, span, spoil_one, store_words, stored,
    table_bytes, Stored, TABLES,
};
use crate::group::{state_words, Group, WARPS};
use crate::group_kernels::{
    refused_words, GroupKernel, DATA, IN_SPLITS, OUTSIDE, REFUSED_WAYS, SCRATCH,
};
use crate::isa::{Prefix, ENDPRG, SCALARS};
use crate::saved::{CODE_BASE_AT, DATA_BASE_AT, LDS_AT, NUMT_AT, NUMW_AT, WID_AT, WORDS};
use crate::state::{Fixed, Launch, Warp};
use crate::table::{rd, rs1, rs2, Shape, Table, Variant, BARRIER, NOP};
use crate::{card, run, saved};

/// One more than a lent run may have.
const TOO_MANY_WORDS: u32 = run::KERNEL_WORDS as u32 + 1;
const TOO_MANY_BYTES: u32 = run::DATA_BYTES as u32 + 1;

/// All group cases of a round.
pub fn group_cases(round: u32) -> Vec<Case> {
    let t = &Table::whole();
    let mut out = Vec::new();
    played(round, t, &mut out);
    largest(&mut out);
    refused_launches(round, &mut out);
    soups(round, t, &mut out);
    arrivals(round, &mut out);
    edges(round, t, &mut out);
    shared_bytes(round, t, &mut out);
    masked_words(round, t, &mut out);
    stops(round, t, &mut out);
    damaged(round, &mut out);
    ended(round, &mut out);
    wrong_sizes(round, &mut out);
    own_bases(round, &mut out);
    too_many_warps(&mut out);
    out
}

// What a case lends.

/// What a group's case lends besides the kernel, and the launch values of its warps.
struct GroupGround {
    each: Vec<Fixed>,
    data: Data,
    local: Data,
    vector: Vector,
}

/// Mostly few, so that the vector files are soon made; seldom up to 32.
fn warps(rng: &mut Rng) -> u32 {
    match rng.below(80) {
        0 => 32,
        1 => 9 + rng.below(23),
        2..=17 => 1 + rng.below(8),
        _ => rng.pick(&[1, 2, 2, 3, 3, 4]),
    }
}

/// Where the bytes end.
fn end(base: u32, bytes: u32) -> u64 {
    u64::from(base) + u64::from(bytes)
}

/// A base of local memory that fits: often touching the data, on either side of it; where either
/// is empty also inside the other.
fn local_base(rng: &mut Rng, data_base: u32, data: u32, local: u32) -> u32 {
    loop {
        let after = data_base.wrapping_add(data);
        let base = match rng.below(8) {
            0..=2 => after,
            3..=4 => data_base.wrapping_sub(local),
            5 => after.wrapping_add(rng.below(8)),
            6 => rng.pick(&[0, 0x4000_0000, 0u32.wrapping_sub(local)]),
            _ => data_base.wrapping_add(rng.below(data.max(1))),
        };
        let apart =
            end(base, local) <= u64::from(data_base) || end(data_base, data) <= u64::from(base);
        if end(base, local) <= 1 << 32 && (apart || data == 0 || local == 0) {
            return base;
        }
    }
}

/// Where addresses by the generator's custom lie: in both memories if they are near, else in one.
fn window(rng: &mut Rng, data: (u32, u32), local: (u32, u32)) -> (u32, u32) {
    let (low, high) = (data.0.min(local.0), end(data.0, data.1).max(end(local.0, local.1)));
    let span = high - u64::from(low);
    let (low, span) = match span {
        0..=4096 => (low, span as u32),
        _ => rng.pick(&[data, local]),
    };
    let room = span.saturating_sub(16).max(8);
    let mask = (1 << (31 - room.leading_zeros())) - 1;
    (low.wrapping_add(rng.below(8)), if rng.chance(4) { mask & 7 } else { mask })
}

/// A group's ground from a single warp's: its values shared, where they must be.
fn group_ground(rng: &mut Rng, kernel_words: u32) -> GroupGround {
    let Ground { fixed, data, vector } = ground(rng, kernel_words);
    let numw = warps(rng);
    let row = 4 * fixed.numt;
    let total = rng.pick(&[0, 1, 7, 32, 64, row, row + 9, 4 * numw + 4, 160]);
    let lds = local_base(rng, fixed.data_base, data.total, total);
    let (base, mask) = window(rng, (fixed.data_base, data.total), (lds, total));
    let each = (0..numw)
        .map(|wid| {
            let all = low_mask(fixed.numt);
            let pds = rng.pick(&[fixed.pds, lds, fixed.pds.wrapping_add(row * wid)]);
            let mask = if rng.chance(3) { some_lanes(rng, all) } else { all };
            Fixed { numw, wid, lds, pds, mask, gidx: rng.below(100), ..fixed }
        })
        .collect();
    let local = Data { bytes: Vec::new(), total, seed: rng.word() };
    GroupGround { each, data, local, vector: Vector { total: VECTOR * numw, base, mask, ..vector } }
}

/// A ground of so many warps, which differ in their WID alone.
fn even_ground(rng: &mut Rng, numw: u32) -> GroupGround {
    let mut g = group_ground(rng, 8);
    let first = g.each[0];
    g.each = (0..numw).map(|wid| Fixed { wid, numw, ..first }).collect();
    g.vector.total = VECTOR * numw;
    g
}

impl GroupGround {
    fn warps(&self) -> u32 {
        self.each.len() as u32
    }

    /// The ground of one of its warps.
    fn of(&self, fixed: &Fixed) -> Ground {
        Ground { fixed: *fixed, data: self.data.clone(), vector: self.vector.clone() }
    }

    fn launches(&self) -> Vec<Launch> {
        let entry = self.each[0].code_base;
        self.each.iter().map(|fixed| Launch { fixed: *fixed, entry }).collect()
    }

    fn cards(&self) -> Vec<u8> {
        self.launches().iter().flat_map(card_of).collect()
    }

    fn launched(&self) -> Group {
        Group { turn: 0, warps: self.launches().iter().map(Warp::launched).collect() }
    }

    fn handed(self, state: Vec<u32>, kernel: Kernel) -> Handed {
        Handed { state, kernel, data: self.data, vector: self.vector, local: self.local }
    }

    /// Launched from these cards into a state of so many words.
    fn launch(self, card: Vec<u8>, kernel: Kernel, state: usize, budget: u32) -> Case {
        let job = Job { card, kernel, data: self.data, vector: self.vector };
        Case::GroupLaunch { job, local: self.local, state: state as u32, budget }
    }

    /// A group that well-formed warps make, one of which runs.
    fn random_group(&self, rng: &mut Rng, words: u32) -> Group {
        let running = rng.below(self.warps());
        let each = self.each.iter().map(|fixed| {
            let stands = if fixed.wid == running { 0 } else { rng.below(6) };
            self.random_warp(rng, fixed, words, stands)
        });
        let warps = each.collect();
        Group { turn: rng.below(self.warps()), warps }
    }

    /// It waits where `stands` is 4, has ended where it is 5, and else runs.
    fn random_warp(&self, rng: &mut Rng, fixed: &Fixed, words: u32, stands: u32) -> Warp {
        let runs = stands < 4;
        let depth = if runs { rng.pick(&[0, 0, 0, 1, 2, 6]) } else { 0 };
        let mut warp = extended_state(rng, &self.of(fixed), words, depth);
        (warp.waiting, warp.ended) = (stands == 4, stands == 5);
        if rng.chance(2) {
            warp.pc = kernel_pc(rng, fixed, words);
        }
        if runs && rng.chance(12) {
            warp.prefix = rng.pick(&[Prefix::RegExt, Prefix::RegExtI])(rng.below(4096));
        }
        if rng.chance(2) {
            warp.x = [0; SCALARS]; // a short record
        }
        warp
    }
}

/// The words lent for an answer, seldom of another number than that.
fn answer_room(rng: &mut Rng, right: u32) -> u32 {
    if rng.chance(30) {
        (right + 1 + rng.below(3)) % 4
    } else {
        right
    }
}

/// A step or a run of a group that is handed in.
fn handed_case(rng: &mut Rng, handed: Handed, budget: u32) -> Case {
    if rng.chance(3) {
        Case::GroupStep { handed, stopped: answer_room(rng, 1) }
    } else {
        Case::GroupRun { handed, budget, out: answer_room(rng, 2) }
    }
}

// The families.

/// Launched and run, to the end or not.
fn played(round: u32, t: &Table, out: &mut Vec<Case>) {
    let mut rng = Rng::of_family(round, 40);
    let rng = &mut rng;
    for _ in 0..212 {
        let mut g = group_ground(rng, 200);
        if rng.chance(8) {
            g.data.total = 0; // fewer accesses are inside
        }
        let kernel = GroupKernel::draw(rng, t, g.each[0].data_base, g.warps());
        let budget = rng.pick(&[0, 1, 30, 100, 200, 300, 400, 400, 400]);
        let (cards, state) = (g.cards(), state_words(g.each.len()));
        out.push(g.launch(cards, Kernel::plain(kernel), state, budget));
    }
}

/// The largest runs that are taken, touching each other.
fn largest(out: &mut Vec<Case>) {
    let mut rng = Rng::new(40);
    let full = Data { bytes: Vec::new(), total: run::DATA_BYTES as u32, seed: 3 };
    for (data_base, lds) in [(0, 0x1_0000), (0xffff_0000, 0xfffe_0000)] {
        let mut g = even_ground(&mut rng, 2);
        let shared = Fixed { code_base: 0x8000_0000, data_base, lds, ..g.each[0] };
        g.each = (0..2).map(|wid| Fixed { wid, ..shared }).collect();
        (g.data, g.local) = (full.clone(), full.clone());
        let kernel = Kernel { words: vec![BARRIER], total: run::KERNEL_WORDS as u32, fill: ENDPRG };
        let (cards, state) = (g.cards(), state_words(2));
        out.push(g.launch(cards, kernel, state, 9));
    }
}

/// Words in any order, from any well-formed group.
fn soups(round: u32, t: &Table, out: &mut Vec<Case>) {
    let mut rng = Rng::of_family(round, 42);
    let rng = &mut rng;
    let soup = Soup::new(t);
    for _ in 0..110 {
        let (mut kernel, words) = soup.kernel(rng);
        for word in &mut kernel {
            if rng.chance(12) {
                *word = rng.pick(&[BARRIER, BARRIER, ENDPRG]);
            }
        }
        let g = group_ground(rng, kernel.len() as u32);
        let state = g.random_group(rng, words).to_words();
        let budget = rng.pick(&[0, 1, 5, 20, 60, 100, 200]);
        let handed = g.handed(state, Kernel::plain(kernel));
        out.push(handed_case(rng, handed, budget));
    }
}

/// Masked words, from any well-formed group.
fn masked_words(round: u32, t: &Table, out: &mut Vec<Case>) {
    let mut rng = Rng::of_family(round, 51);
    let rng = &mut rng;
    for _ in 0..40 {
        let kernel = masked_kernel(rng, t);
        let words = kernel.len() as u32;
        let g = group_ground(rng, words);
        let state = g.random_group(rng, words).to_words();
        let handed = g.handed(state, Kernel::plain(kernel));
        out.push(handed_case(rng, handed, 4 * words));
    }
}

/// Barriers and ends, from groups in which some wait and some have ended: who is released when.
fn arrivals(round: u32, out: &mut Vec<Case>) {
    let mut rng = Rng::of_family(round, 43);
    let rng = &mut rng;
    for _ in 0..84 {
        let numw = rng.pick(&[1, 2, 2, 3, 3, 4]);
        let g = even_ground(rng, numw);
        let words: Vec<u32> = (0..6).map(|_| rng.pick(&[BARRIER, ENDPRG, NOP])).collect();
        let mut group = g.launched();
        let running = rng.below(numw) as usize;
        for (n, warp) in group.warps.iter_mut().enumerate() {
            let stands = if n == running { 0 } else { rng.below(3) };
            (warp.waiting, warp.ended) = (stands == 1, stands == 2);
            warp.pc = warp.pc.wrapping_add(4 * rng.below(3));
        }
        group.turn = rng.below(numw);
        let handed = g.handed(group.to_words(), Kernel::plain(words));
        // Without jumps the run is soon over.
        let budget = rng.pick(&[1, 2, 3, 5, 30, 0x8000_0000, u32::MAX]);
        out.push(handed_case(rng, handed, budget));
    }
}

/// Each access at the ends of both memories, in one of them, across both, or with lanes in each.
fn edges(round: u32, t: &Table, out: &mut Vec<Case>) {
    let mut rng = Rng::of_family(round, 44);
    let rng = &mut rng;
    for _ in 0..3 {
        for v in t.with(touches_memory) {
            out.push(edge(rng, t, v));
        }
    }
}

/// Both memories have some bytes, and one begins where the other ends.
fn touch(rng: &mut Rng, g: &mut GroupGround) {
    (g.data.total, g.local.total) = (8 + rng.below(40), 8 + rng.below(40));
    let data_base = 0x1000;
    let lds = rng.pick(&[data_base + g.data.total, data_base - g.local.total]);
    g.each.iter_mut().for_each(|f| (f.data_base, f.lds) = (data_base, lds));
}

/// An address near an end of one of the memories.
fn near_an_end(rng: &mut Rng, g: &GroupGround) -> u32 {
    let f = &g.each[0];
    let (base, bytes) = rng.pick(&[(f.data_base, g.data.total), (f.lds, g.local.total)]);
    let end = base.wrapping_add(rng.pick(&[0, bytes, bytes]));
    end.wrapping_add(rng.range(-4, 1) as u32)
}

fn edge(rng: &mut Rng, t: &Table, v: &Variant) -> Case {
    let numw = rng.pick(&[1, 1, 2]);
    let mut g = even_ground(rng, numw);
    if !rng.chance(3) {
        touch(rng, &mut g);
    }
    let (first, second) = (near_an_end(rng, &g), near_an_end(rng, &g));
    // Private: row u of four bytes a lane begins at an end, or some lanes before it.
    let back = 4 * rng.below(g.each[0].numt);
    g.each.iter_mut().for_each(|f| f.pds = first.wrapping_sub(back));
    let mut group = g.launched();
    for warp in &mut group.warps {
        warp.x[6] = first;
        warp.x[7] = second.wrapping_sub(first);
        warp.x[8] = if rng.chance(2) { rng.word() } else { 0x0101_0101 * rng.below(256) };
    }
    let kernel = vec![
        t.fixed("vid.v") | rd(1),
        t.fixed("vmv.vx") | rd(8) | rs1(8), // v9 differs from lane to lane
        t.fixed("vand.vi") | rd(2) | rs2(1) | rs1(1),
        t.fixed("vmul.vx") | rd(2) | rs2(2) | rs1(7),
        t.fixed("vadd.vx") | rd(2) | rs2(2) | rs1(6), // even lanes at the first, odd at the second
        t.fixed("vmv.vi") | rd(3),
        edge_access(rng, v),
        edge_access(rng, load_like(t, v)),
        ENDPRG,
    ];
    let handed = g.handed(group.to_words(), Kernel::plain(kernel));
    Case::GroupRun { handed, budget: 40, out: 2 }
}

/// By `edge`'s registers: x6, v2 or, private, v3.
fn edge_access(rng: &mut Rng, v: &Variant) -> u32 {
    let address = match v.shape {
        Shape::Load | Shape::Store => 6,
        _ if is_private(v) => 3,
        _ => 2,
    };
    access(v, address, rng.pick(&[8, 8, 8, 9]), 0)
}

/// A load of words by the same registers as the access.
fn load_like<'a>(t: &'a Table, v: &Variant) -> &'a Variant {
    t.get(match v.shape {
        Shape::Load | Shape::Store => "lw",
        _ if is_private(v) => "vlw.p",
        _ => "vlw12",
    })
}

/// Every store by lanes, with lanes that share bytes, in one memory or in both; several warps store
/// to the same bytes.
fn shared_bytes(round: u32, t: &Table, out: &mut Vec<Case>) {
    let mut rng = Rng::of_family(round, 50);
    let rng = &mut rng;
    for _ in 0..20 {
        for v in t.with(is_lane_store) {
            out.push(shared_case(rng, t, v));
        }
    }
}

/// Where the lanes of a store are.
#[derive(Clone, Copy, PartialEq, Eq)]
enum In {
    Data,
    Local,
    /// In one and the other by turns; if the store is private, in local memory.
    Both,
}

/// One warp's stores: those into data memory, and those into local memory.
type InEach = [Vec<Stored>; 2];

fn stored_in_each(rng: &mut Rng, mask: u32, size: u32, numt: Option<u32>, memory: In) -> InEach {
    let lanes = lanes_of(mask);
    match (memory, numt) {
        (In::Data, _) => [stored(rng, &lanes, size, numt), vec![]],
        (In::Both, None) => [0, 1].map(|odd| {
            let every_other: Vec<u32> = lanes.iter().copied().skip(odd).step_by(2).collect();
            stored(rng, &every_other, size, None)
        }),
        _ => [vec![], stored(rng, &lanes, size, numt)],
    }
}

fn shared_case(rng: &mut Rng, t: &Table, v: &Variant) -> Case {
    let numw = rng.pick(&[1, 2, 2, 3]);
    let memory = rng.pick(&[In::Data, In::Local, In::Both, In::Both]);
    let off = rng.range(-40, 40);
    let (size, private) = (size_of(v), is_private(v));
    let numt = lane_count(rng, private);
    let words = [&store_words(rng, t, v, numt, off)[..], &[ENDPRG]].concat();
    let mut g = even_ground(rng, numw);
    for fixed in &mut g.each {
        let all = low_mask(numt);
        fixed.mask = if rng.chance(2) { some_lanes(rng, all) } else { all };
    }
    let stores: Vec<InEach> = g
        .each
        .iter()
        .map(|f| stored_in_each(rng, f.mask, size, private.then_some(numt), memory))
        .collect();
    // The data has two tables for each warp, then its target; local memory is a target, which
    // begins as far from LDS where lanes are in both.
    let bytes = |n: usize| stores.iter().map(|each| span(&each[n], size)).max().unwrap_or(0);
    let tables = 8 * numt * numw;
    let before = if memory == In::Both { tables } else { 0 };
    g.data.total = tables + bytes(0) + rng.below(3);
    g.local.total = before + bytes(1) + rng.below(3);
    let data_base = 0x1000;
    let lds = local_base(rng, data_base, g.data.total, g.local.total);
    let targets = [data_base + tables, lds.wrapping_add(before)];
    let pds = if memory == In::Data { targets[0] } else { targets[1] };
    let shared = Fixed { numt, numw, data_base, lds, pds, ..g.each[0] };
    for (wid, fixed) in (0..).zip(&mut g.each) {
        *fixed = Fixed { wid, mask: fixed.mask, ..shared };
    }
    for each in &stores {
        let mut all = registers(each, targets, private.then_some(numt));
        // Of the lanes that are not active.
        (g.vector.base, g.vector.mask) = (all[0].at.wrapping_sub(off as u32), 0);
        let outside = if private { 4 * (1 + g.data.total.max(g.local.total)) } else { OUTSIDE };
        spoil_one(rng, &mut all, v, outside);
        all.iter_mut().for_each(|one| one.at = one.at.wrapping_sub(off as u32));
        g.data.bytes.extend(table_bytes(numt, &all));
    }
    let mut group = g.launched();
    for (n, warp) in group.warps.iter_mut().enumerate() {
        warp.x[TABLES] = data_base + 8 * numt * n as u32;
    }
    group.turn = rng.below(numw);
    let handed = g.handed(group.to_words(), Kernel::plain(words));
    Case::GroupRun { handed, budget: 60, out: 2 }
}

/// What the address registers hold: of a plain store the address, of a private one u.
fn registers(each: &InEach, targets: [u32; 2], numt: Option<u32>) -> Vec<Stored> {
    let register = |one: &Stored, target: u32| match numt {
        Some(numt) => private_u(numt, one.lane, one.at).expect("a place that the lane has"),
        None => target.wrapping_add(one.at),
    };
    let both = each.iter().zip(targets).flat_map(|(stores, target)| {
        stores.iter().map(move |one| Stored { at: register(one, target), ..*one })
    });
    both.collect()
}

/// A warp that is refused stops the group, whichever it is and wherever the turn is.
fn stops(round: u32, t: &Table, out: &mut Vec<Case>) {
    let mut rng = Rng::of_family(round, 45);
    let rng = &mut rng;
    for n in 0..18 * REFUSED_WAYS {
        let numw = rng.pick(&[1, 2, 2, 3, 4]);
        let mut g = even_ground(rng, numw);
        g.each.iter_mut().for_each(|f| (f.numt, f.mask) = (4, rng.pick(&[0x3, 0xb, 0xf])));
        (g.vector.base, g.vector.mask) = (g.each[0].data_base, 0); // one address in all lanes
        let way = n % REFUSED_WAYS;
        let wrong = refused_words(rng, t, way);
        let kernel = [&wrong[..], &[NOP, ENDPRG]].concat();
        let past = 4 * wrong.len() as u32;
        let at_once = !IN_SPLITS.contains(&way) && rng.chance(2);
        let group = group_to_stop(rng, &g, if at_once { past - 4 } else { 0 }, past);
        let handed = g.handed(group.to_words(), Kernel::plain(kernel));
        out.push(if at_once && rng.chance(2) {
            Case::GroupStep { handed, stopped: 1 }
        } else {
            Case::GroupRun { handed, budget: 30, out: 2 }
        });
    }
}

/// One warp is at byte `begin` of the kernel, the others at `past`, or they wait or have ended.
fn group_to_stop(rng: &mut Rng, g: &GroupGround, begin: u32, past: u32) -> Group {
    let mut group = g.launched();
    let stopping = rng.below(g.warps());
    for warp in &mut group.warps {
        let stops = warp.fixed.wid == stopping;
        let stands = if stops { 0 } else { rng.below(4) };
        (warp.waiting, warp.ended) = (stands == 1, stands == 2);
        warp.pc = warp.pc.wrapping_add(if stops { begin } else { past });
        warp.x[SCRATCH as usize] = OUTSIDE;
        warp.x[DATA as usize] = warp.fixed.data_base;
    }
    group.turn = if rng.chance(3) { rng.below(g.warps()) } else { stopping };
    group
}

// Refused launches.

/// The ways in which `refused_launch` spoils one.
const LAUNCH_WAYS: u32 = 23;

fn refused_launches(round: u32, out: &mut Vec<Case>) {
    let mut rng = Rng::of_family(round, 41);
    for n in 0..6 * LAUNCH_WAYS {
        out.push(refused_launch(&mut rng, n % LAUNCH_WAYS));
    }
}

/// A launch that is spoilt in one way, seldom with a state of another length besides.
fn refused_launch(rng: &mut Rng, way: u32) -> Case {
    let numw = rng.pick(&[1, 2, 2, 3, 4]);
    let mut g = even_ground(rng, numw);
    let mut kernel = Kernel::plain(vec![NOP, BARRIER, ENDPRG]);
    let mut cards = match way {
        0..=7 => g.cards(),
        8..=13 => strangers(rng, &g, way),
        _ => {
            spoil_lent(rng, &mut g, &mut kernel, way);
            g.cards()
        }
    };
    if way < 8 {
        spoil_cards(rng, &mut cards, way);
    }
    if matches!(way, 3 | 6) {
        kernel.total = rng.pick(&[0, 3]); // 13 comes before this 1
        kernel.words.truncate(kernel.total as usize);
    }
    let whole = state_words(cards.len() / card::CARD);
    let other = rng.pick(&[0, 1, WORDS, whole - 1, whole + 1, whole + WORDS]);
    let state = if way == 22 || rng.chance(12) { other } else { whole };
    g.launch(cards, kernel, state, 5)
}

/// The cards themselves: malformed, too few or many, or with a value out of range.
fn spoil_cards(rng: &mut Rng, cards: &mut Vec<u8>, way: u32) {
    let count = cards.len() / card::CARD;
    let some = rng.below(count as u32) as usize;
    match way {
        0 => cards.truncate(rng.below(cards.len() as u32) as usize),
        1 => cards.extend(vec![rng.below(256) as u8; 1 + rng.below(49) as usize]),
        2 => spoil_head(rng, &mut cards[card::CARD * some..]),
        3 => {
            spoil_head(rng, &mut cards[card::CARD * (count - 1)..]);
            if count > 1 {
                cards[3] = rng.pick(&[0, 33]); // 13 comes before this 1
            }
        }
        4 => cards.clear(),
        5 | 6 => {
            *cards = cards[..card::CARD].repeat(33);
            if way == 6 {
                let any = rng.pick(&[0, 20, 32]);
                spoil_head(rng, &mut cards[card::CARD * any..]);
            }
        }
        _ => {
            let card = &mut cards[card::CARD * some..][..card::CARD];
            let launch = card::read(card).expect("a sound card");
            let mut words = launch_words(&launch);
            spoil(rng, &mut words);
            card.copy_from_slice(&raw_card(&words));
        }
    }
}

/// The length or the version of the first card.
fn spoil_head(rng: &mut Rng, cards: &mut [u8]) {
    let at = rng.below(3) as usize;
    cards[at] ^= 1 << rng.below(8);
}

/// Cards each of which can be a warp's, but not all one group's.
fn strangers(rng: &mut Rng, g: &GroupGround, way: u32) -> Vec<u8> {
    let mut launches = g.launches();
    let count = launches.len() as u32;
    let some = rng.below(count) as usize;
    let f = &mut launches[some].fixed;
    match way {
        8 if count == 1 => (f.wid, f.numw) = (1, 2),
        8 => f.wid = (f.wid + 1 + rng.below(count - 1)) % count,
        9 if rng.chance(2) => f.numw = count + 1,
        9 => launches.iter_mut().for_each(|launch| launch.fixed.numw += 1),
        10 => (f.numt, f.mask) = (f.numt % 32 + 1, 1),
        11 => f.code_base ^= 4,
        12 => f.data_base ^= 1 << rng.below(32),
        _ => f.lds ^= 1 << rng.below(32),
    }
    launches.iter().flat_map(card_of).collect()
}

/// A lent run's length, or the base that all cards have.
fn spoil_lent(rng: &mut Rng, g: &mut GroupGround, kernel: &mut Kernel, way: u32) {
    let mut all = |set: &dyn Fn(&mut Fixed)| g.each.iter_mut().for_each(set);
    let above = |bytes: u32| 0u32.wrapping_sub(bytes).wrapping_add(1);
    match way {
        14 => *kernel = Kernel { words: vec![], total: rng.pick(&[0, TOO_MANY_WORDS]), fill: NOP },
        15 => g.vector.total = other_total(rng, g.vector.total),
        16 => g.data.total = TOO_MANY_BYTES,
        17 => g.local.total = TOO_MANY_BYTES,
        18 => all(&|f| f.code_base = 0xffff_fff8), // of three words
        19 => {
            g.data.total = 1 + rng.below(64);
            let base = above(g.data.total);
            all(&|f| f.data_base = base);
        }
        20 => {
            g.local.total = 1 + rng.below(64);
            let base = above(g.local.total);
            all(&|f| f.lds = base);
        }
        21 => overlap(rng, g),
        _ => {} // nothing but the state's length
    }
}

/// Another number of vector words.
fn other_total(rng: &mut Rng, total: u32) -> u32 {
    rng.pick(&[0, total - 1, total + 1, total - VECTOR, total + VECTOR, total + 32])
}

/// Both memories have some bytes, and one or more of them in common.
fn overlap(rng: &mut Rng, g: &mut GroupGround) {
    (g.data.total, g.local.total) = (1 + rng.below(40), 1 + rng.below(40));
    let (data, local) = (g.data.total, g.local.total);
    let lds = rng.pick(&[0, data - 1, 1u32.wrapping_sub(local), data / 2]);
    let data_base = 0x1000;
    g.each.iter_mut().for_each(|f| {
        (f.data_base, f.lds) = (data_base, lds.wrapping_add(data_base));
    });
}

// Groups that are handed in and damaged.

/// The ways in which `damage` changes a state.
const STATE_WAYS: u32 = 16;

/// One thing wrong in a state, mostly refused with 2; not if it is no warp's but the group's own.
fn damaged(round: u32, out: &mut Vec<Case>) {
    let mut rng = Rng::of_family(round, 46);
    let rng = &mut rng;
    for n in 0..104 {
        let numw = rng.pick(&[1, 2, 2, 3, 4]);
        let g = even_ground(rng, numw);
        let mut group = g.random_group(rng, 3);
        if n % 3 != 0 {
            group.warps.iter_mut().for_each(|warp| warp.x = [0; SCALARS]);
        }
        let mut state = group.to_words();
        if n < CLAUSES {
            let some = state_words(rng.below(numw) as usize);
            break_state(rng, &mut state[some..some + WORDS], n);
        } else {
            damage(rng, &mut state, n % STATE_WAYS);
        }
        let kernel = vec![NOP, rng.pick(&[NOP, BARRIER]), ENDPRG];
        let handed = g.handed(state, Kernel::plain(kernel));
        let budget = rng.pick(&[0, 0, 1, 3, 8]);
        out.push(handed_case(rng, handed, budget));
    }
}

/// A turn that names no warp.
fn no_turn(rng: &mut Rng, warps: u32) -> u32 {
    rng.pick(&[warps, warps + 1, 32, 1 << 31, u32::MAX])
}

/// What makes warps a group: the turn, who waits or has ended, the values that they share; or the
/// number of words.
fn damage(rng: &mut Rng, state: &mut Vec<u32>, way: u32) {
    let count = state.len() / WORDS;
    let some = state_words(rng.below(count as u32) as usize);
    match way {
        0 => state[0] = count as u32,
        1..=2 => state[0] = no_turn(rng, count as u32),
        3..=6 => stand_all(rng, state, true),
        7 => state[some + NUMW_AT] += 1,
        8 => (0..count).for_each(|n| state[state_words(n) + NUMW_AT] = 32),
        9 => state[some + WID_AT] ^= 1,
        10 => state[some + NUMT_AT] = state[some + NUMT_AT] % 32 + 1,
        11 => state[some + CODE_BASE_AT] ^= 4,
        12 => state[some + DATA_BASE_AT] ^= 1 << rng.below(32),
        13 => state[some + LDS_AT] ^= 1 << rng.below(32),
        _ => {
            let words = state.len();
            let many = [0, 1, 2, WORDS, words - 1, words + 1, words - WORDS, words + WORDS];
            state.resize(rng.pick(&many), 0);
        }
    }
}

/// Every warp has ended, or waits, one at least if asked; no split is open and no prefix pending.
fn stand_all(rng: &mut Rng, state: &mut [u32], one_waits: bool) {
    let count = state.len() / WORDS;
    let waiting = rng.below(count as u32) as usize;
    for (n, words) in state[1..].chunks_exact_mut(WORDS).enumerate() {
        let mut warp = saved::from_words(words).expect("a warp's words");
        warp = Warp::launched(&Launch { fixed: warp.fixed, entry: warp.pc });
        warp.waiting = one_waits && (n == waiting || rng.chance(2));
        warp.ended = !warp.waiting;
        words.copy_from_slice(&saved::to_words(&warp));
    }
}

/// All have ended: 3, or 0 where no step is asked for, whatever the turn.
fn ended(round: u32, out: &mut Vec<Case>) {
    let mut rng = Rng::of_family(round, 48);
    let rng = &mut rng;
    for n in 0..40 {
        let numw = rng.pick(&[1, 2, 3, 4]);
        let g = even_ground(rng, numw);
        let mut state = g.launched().to_words();
        stand_all(rng, &mut state, false);
        state[0] = if n % 4 == 0 { rng.below(numw) } else { no_turn(rng, numw) };
        let handed = g.handed(state, Kernel::plain(vec![NOP]));
        out.push(match n % 2 {
            0 => Case::GroupStep { handed, stopped: 1 },
            _ => Case::GroupRun { handed, budget: rng.pick(&[0, 1, 9]), out: 2 },
        });
    }
}

/// The clauses of `break_state` whose words are no warp's.
const NO_WARP: [u32; 4] = [9, 17, 18, 29];

/// Lent runs of wrong sizes with sound and damaged groups: 1 comes before 2 and 3.
fn wrong_sizes(round: u32, out: &mut Vec<Case>) {
    let mut rng = Rng::of_family(round, 47);
    let rng = &mut rng;
    for n in 0..48 {
        let numw = rng.pick(&[1, 2, 3]);
        let mut g = even_ground(rng, numw);
        let mut kernel = Kernel::plain(vec![NOP, BARRIER, ENDPRG]);
        spoil_lent(rng, &mut g, &mut kernel, 14 + n % 8);
        let mut state = g.launched().to_words();
        match n % 3 {
            0 => damage(rng, &mut state, n % 10),
            1 => break_state(rng, &mut state[1..=WORDS], NO_WARP[n as usize / 3 % 4]),
            _ => {}
        }
        let handed = g.handed(state, kernel);
        let budget = rng.below(3);
        out.push(handed_case(rng, handed, budget));
    }
}

/// One warp's own base doesn't go with the lent lengths, though the others' do: 1, and not 2.
fn own_bases(round: u32, out: &mut Vec<Case>) {
    let mut rng = Rng::of_family(round, 49);
    let rng = &mut rng;
    for n in 0..24 {
        let numw = rng.pick(&[2, 2, 3, 4]);
        let mut g = even_ground(rng, numw);
        touch(rng, &mut g);
        let mut state = g.launched().to_words();
        let some = state_words(rng.below(numw) as usize);
        let (at, base) = match n % 4 {
            0 => (CODE_BASE_AT, 0xffff_fffc),
            1 => (DATA_BASE_AT, u32::MAX),
            2 => (LDS_AT, u32::MAX),
            _ => (LDS_AT, g.each[0].data_base + rng.below(g.data.total)),
        };
        state[some + at] = base;
        let handed = g.handed(state, Kernel::plain(vec![NOP, BARRIER, ENDPRG]));
        out.push(handed_case(rng, handed, n % 3));
    }
}

/// A state and vector files of one warp more than a group has: 1, though each warp may be sound.
fn too_many_warps(out: &mut Vec<Case>) {
    let mut g = even_ground(&mut Rng::new(49), 1);
    let mut group = g.launched();
    group.warps = vec![group.warps[0].clone(); WARPS + 1];
    g.vector.total = VECTOR * group.warps.len() as u32;
    let handed = g.handed(group.to_words(), Kernel::plain(vec![NOP]));
    out.push(Case::GroupRun { handed, budget: 0, out: 2 });
}
