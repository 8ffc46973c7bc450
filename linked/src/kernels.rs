//! What is timed: kernels that end by ENDPRG, the lanes launched on them, and the call.

use reference::generate::Rng;
use reference::isa::{ENDPRG, JOIN};
use reference::table::{
    enc_b, enc_i, enc_j, enc_s, rd, regext, regexti, rs1, rs2, Shape, Table, Variant, RD,
};

pub const CODE_BASE: u32 = 0x8000_0000;
pub const DATA_BASE: u32 = 0x1000_0000;
pub const DATA_BYTES: usize = 4096;

/// Lanes 0 to 27 with gaps of several widths.
const SOME_LANES: u32 = 0x0f3f_0ff5;

/// The words of a long loop, over which its branch still reaches.
const MANY: usize = 900;

/// Where the draws of the two long loops begin.
const SCALAR_SEED: u64 = 1;
const MIX_SEED: u64 = 2;

/// How a kernel is brought to its end.
pub enum Call {
    /// One run.
    Run,
    /// A call for each step.
    Steps,
}

pub struct Subject {
    pub name: &'static str,
    pub kernel: Vec<u32>,
    pub mask: u32,
    pub call: Call,
}

/// All that is timed, in the order of the printed table.
pub fn subjects() -> Vec<Subject> {
    let t = &Table::whole();
    let run = |name, kernel| Subject { name, kernel, mask: u32::MAX, call: Call::Run };
    let lanes = counted_loop(t, vec![t.fixed("vid.v") | rd(1)], arithmetic(t), 8_000);
    let steps = counted_loop(t, vec![], scalar(t), 500);
    vec![
        run("arithmetic", lanes.clone()),
        run("scalar", counted_loop(t, vec![], scalar(t), 10_000)),
        run("31 splits", counted_loop(t, to_join(t), trips(t), 600)),
        run("stores", counted_loop(t, lane_addresses(t), stores(t), 12_000)),
        Subject { call: Call::Steps, ..run("step call", steps) },
        run("900 words", counted_loop(t, vec![], many_scalar(t), 110)),
        Subject { mask: SOME_LANES, ..run("partial mask", lanes) },
        run("mix", counted_loop(t, vec![], mix(t), 110)),
        run("prefixed", counted_loop(t, vec![t.fixed("vid.v") | rd(1)], prefixed(t), 8_000)),
        run("scattered", counted_loop(t, scattered_addresses(t), store_and_add(t, 1), 12_000)),
        run("one word", counted_loop(t, one_address(t), store_and_add(t, 6), 12_000)),
        run("masked", counted_loop(t, vec![t.fixed("vid.v") | rd(1)], masked(t), 8_000)),
    ]
}

/// The body `turns` times (below 2^31), counted down in x5, and ENDPRG.
fn counted_loop(t: &Table, before: Vec<u32>, body: Vec<u32>, turns: i32) -> Vec<u32> {
    let back = -4 * (body.len() as i32 + 1);
    let upper = (turns + 0x800) as u32 & 0xffff_f000;
    let count = [
        t.fixed("lui") | rd(5) | upper,
        t.fixed("addi") | rd(5) | rs1(5) | enc_i(turns - upper as i32),
    ];
    let turn = [
        t.fixed("addi") | rd(5) | rs1(5) | enc_i(-1),
        t.fixed("bne") | rs1(5) | rs2(0) | enc_b(back),
        ENDPRG,
    ];
    [&before[..], &count, &body, &turn].concat()
}

/// Lane operations of every sort but division; v1 holds the lane numbers.
fn arithmetic(t: &Table) -> Vec<u32> {
    let op = |name: &str, vd: u32, vs2: u32, source: u32| {
        t.fixed(name) | rd(vd) | rs2(vs2) | rs1(source)
    };
    vec![
        op("vadd.vv", 2, 9, 1),
        op("vmul.vv", 3, 2, 1),
        op("vxor.vx", 4, 3, 5),
        op("vsll.vi", 5, 4, 3),
        op("vsub.vv", 6, 5, 2),
        op("vmaxu.vv", 7, 6, 3),
        op("vmulh.vv", 8, 7, 6),
        op("vsra.vv", 9, 7, 1),
        op("vmslt.vv", 10, 9, 8),
        op("vor.vv", 9, 9, 10),
    ]
}

/// Words behind a prefix, on v32 to v255 and x32 to x63, and a few that have none; v1 holds the
/// lane numbers.
fn prefixed(t: &Table) -> Vec<u32> {
    let op = |name: &str, d: u32, a: u32, b: u32| t.fixed(name) | rd(d) | rs2(a) | rs1(b);
    vec![
        regext(3, 0, 3),
        op("vadd.vv", 4, 5, 1), // v100 = v101 + v1
        regext(3, 3, 7),
        op("vmul.vv", 31, 4, 5), // v255 = v100 * v101
        regext(0, 0, 1),
        op("add", 8, 6, 5), // x40 = x5 + x6
        regext(7, 1, 3),
        op("vxor.vx", 5, 31, 8), // v101 = v255 ^ x40
        regexti(20, 3, 1),
        op("vadd.vi", 0, 5, 9), // v32 = v101 + 649
        op("vor.vv", 2, 2, 1),
        regext(1, 1, 1),
        op("xor", 31, 8, 31), // x63 = x63 ^ x40
        regext(0, 1, 0),
        t.fixed("srai") | rd(6) | rs1(31) | rs2(3), // x6 = x63 >> 3
        op("vsub.vv", 3, 2, 3),
    ]
}

/// Lane operations under v0, which is new in every turn and differs from lane to lane; v1 holds the
/// lane numbers.
fn masked(t: &Table) -> Vec<u32> {
    let op = |name: &str, vd: u32, vs2: u32, source: u32| {
        t.fixed(name) | rd(vd) | rs2(vs2) | rs1(source)
    };
    vec![
        op("vmul.vx", 2, 1, 5),
        op("vand.vi", 3, 2, 4),
        op("vmsne.vi", 0, 3, 0), // lane · x5 has bit 2
        op("masked vadd.vv", 4, 4, 2),
        op("masked vxor.vx", 5, 4, 5),
        op("masked vsll.vi", 6, 5, 3),
        op("masked vmaxu.vv", 7, 6, 4),
        op("masked vmulh.vv", 8, 7, 6),
        op("masked vmslt.vv", 0, 8, 4),
        op("vmerge.vvm", 9, 8, 7),
    ]
}

fn scalar(t: &Table) -> Vec<u32> {
    let op = |name: &str, d: u32, a: u32, b: u32| t.fixed(name) | rd(d) | rs1(a) | rs2(b);
    vec![
        op("add", 6, 6, 5),
        op("xor", 7, 6, 5),
        op("sll", 8, 7, 5),
        op("mul", 9, 8, 6),
        op("sub", 10, 9, 7),
        op("sltu", 11, 10, 9),
        op("or", 12, 11, 10),
        t.fixed("srai") | rd(6) | rs1(12) | rs2(3),
    ]
}

/// The operations of `scalar` by chance, in words that all differ; none writes x0 or x5.
fn many_scalar(t: &Table) -> Vec<u32> {
    let names = ["add", "xor", "sll", "mul", "sub", "sltu", "or", "srai"];
    let mut rng = Rng::new(SCALAR_SEED);
    let mut words = Vec::new();
    while words.len() < MANY {
        let fields = rd(rng.range(6, 31) as u32) | rs1(rng.below(32)) | rs2(rng.below(32));
        let word = t.fixed(rng.pick(&names)) | fields;
        if !words.contains(&word) {
            words.push(word);
        }
    }
    words
}

/// v1 holds the lane numbers, RPC is the JOIN of `trips`, eight words after the AUIPC.
fn to_join(t: &Table) -> Vec<u32> {
    vec![t.fixed("vid.v") | rd(1), t.fixed("auipc") | rd(6), t.fixed("setrpc") | rs1(6) | enc_i(32)]
}

/// Lane l goes round l + 1 times: 31 splits open, and the JOIN closes them (examples/loop31).
fn trips(t: &Table) -> Vec<u32> {
    vec![
        t.fixed("vmv.vi") | rd(2),
        t.fixed("vadd.vi") | rd(2) | rs2(2) | rs1(1),
        t.fixed("vblt") | rs1(1) | rs2(2) | enc_b(8),
        t.fixed("jal") | enc_j(-8),
        JOIN,
    ]
}

/// v2 holds a word's address a lane, at the data's beginning.
fn lane_addresses(t: &Table) -> Vec<u32> {
    vec![
        t.fixed("vid.v") | rd(1),
        t.fixed("vsll.vi") | rd(2) | rs2(1) | rs1(2),
        t.fixed("lui") | rd(6) | DATA_BASE,
        t.fixed("vadd.vx") | rd(2) | rs2(2) | rs1(6),
    ]
}

/// Each lane stores and loads a word, a half and a byte.
fn stores(t: &Table) -> Vec<u32> {
    let store = |name: &str, from: u32, off: i32| t.fixed(name) | rs1(2) | rs2(from) | enc_s(off);
    let load = |name: &str, to: u32, off: i32| t.fixed(name) | rs1(2) | rd(to) | enc_i(off);
    vec![
        store("vsw12", 3, 0),
        load("vlw12", 4, 0),
        store("vsh12", 4, 256),
        load("vlhu12", 5, 256),
        store("vsb12", 5, 512),
        load("vlb12", 6, 512),
        t.fixed("vadd.vi") | rd(3) | rs2(4) | rs1(1),
    ]
}

/// As `lane_addresses`, but lane l has word 13 l mod 32: each its own, in no order.
fn scattered_addresses(t: &Table) -> Vec<u32> {
    vec![
        t.fixed("vid.v") | rd(1),
        t.fixed("addi") | rd(7) | enc_i(13),
        t.fixed("vmul.vx") | rd(2) | rs2(1) | rs1(7),
        t.fixed("addi") | rd(7) | enc_i(31),
        t.fixed("vand.vx") | rd(2) | rs2(2) | rs1(7),
        t.fixed("vsll.vi") | rd(2) | rs2(2) | rs1(2),
        t.fixed("lui") | rd(6) | DATA_BASE,
        t.fixed("vadd.vx") | rd(2) | rs2(2) | rs1(6),
    ]
}

/// v1 holds the lane numbers, v2 the data's beginning in every lane; v6 is 0.
fn one_address(t: &Table) -> Vec<u32> {
    vec![
        t.fixed("vid.v") | rd(1),
        t.fixed("lui") | rd(6) | DATA_BASE,
        t.fixed("vmv.vx") | rd(2) | rs1(6),
    ]
}

/// Each lane stores its word of v3 and loads it again; v3 is then that word plus one plus a lane's
/// own number, if `more` is v1, or else the same in all lanes.
fn store_and_add(t: &Table, more: u32) -> Vec<u32> {
    vec![
        t.fixed("vsw12") | rs1(2) | rs2(3) | enc_s(0),
        t.fixed("vlw12") | rs1(2) | rd(4) | enc_i(0),
        t.fixed("vadd.vi") | rd(4) | rs2(4) | rs1(1),
        t.fixed("vadd.vv") | rd(3) | rs2(4) | rs1(more),
    ]
}

/// Scalar and lane words, half and half by chance: any operation that is never refused and does
/// not jump, divisions too, with any fields; but no scalar word writes x5.
fn mix(t: &Table) -> Vec<u32> {
    let lane = |v: &Variant| v.fixed & 0x7f == t.fixed("vid.v") & 0x7f;
    let scalars = t.with(|v| v.shape == Shape::Plain && !lane(v));
    let lanes = t.with(|v| v.shape == Shape::Plain && lane(v));
    let mut rng = Rng::new(MIX_SEED);
    let mut words = Vec::new();
    while words.len() < MANY {
        let scalar = rng.chance(2);
        let variant = rng.pick(if scalar { &scalars } else { &lanes });
        let word = variant.fixed | rng.word() & variant.free;
        if !(scalar && word & RD == rd(5)) {
            words.push(word);
        }
    }
    words
}
