//! The generator's families of masked words: every form that can be masked and vmerge, over words
//! of v0 of every kind, under full and partial masks, in splits and behind prefixes; and words with
//! vm = 0 that are refused.

use crate::case::Case;
use crate::generate::{
    corner_ground, corner_register, extended_state, ground, launch_case, low_mask, plain_ground,
    some_lanes, state_case, Rng,
};
use crate::generate_prefixes::{digits, third};
use crate::isa::{ENDPRG, JOIN};
use crate::table::{
    enc_b, enc_i, rd, regext, regexti, rs1, rs2, File, Table, Variant, NOP, RD, RS1, RS2, VM,
};

/// The field funct3, and the forms in it but the M group's.
const FUNCT3: u32 = 7 << 12;
const VV: u32 = 0;
const VI: u32 = 3 << 12;
const VX: u32 = 4 << 12;

/// A word that gives v0 other words: the same in all lanes, or lane by lane.
pub(crate) fn new_v0(rng: &mut Rng, t: &Table) -> u32 {
    match rng.below(8) {
        0..=1 => t.fixed("vmv.vi") | rs1(rng.pick(&[0, 1, 2, 31])),
        2 => t.fixed("vid.v"),
        3 => t.fixed("vmv.vx") | rs1(rng.below(32)),
        4 => t.fixed("vmv.vv") | rs1(corner_register(rng)),
        5..=6 => {
            let v = rng.pick(&t.with(Variant::is_compare));
            v.fixed | rng.word() & v.free & !RD
        }
        _ => t.fixed("vxor.vi") | rs1(1), // the other lanes
    }
}

/// One of the masked words; vmerge, which has three forms of 73, in one of six.
pub(crate) fn any_masked<'a>(rng: &mut Rng, t: &'a Table) -> &'a Variant {
    if rng.chance(6) {
        t.get(rng.pick(&["vmerge.vvm", "vmerge.vxm", "vmerge.vim"]))
    } else {
        rng.pick(&t.masked())
    }
}

/// A masked word of any fields; v0 is its destination only if asked, and often a source.
fn masked_word(rng: &mut Rng, v: &Variant, into_v0: bool) -> u32 {
    let mut fields = rng.word() & (RS1 | RS2);
    if rng.chance(6) {
        fields &= !rng.pick(&[RS1, RS2]);
    }
    let to = if into_v0 { 0 } else { 1 + rng.below(31) };
    v.fixed | (fields | rd(to)) & v.free
}

pub(crate) fn masked_words(round: u32, t: &Table, out: &mut Vec<Case>) {
    let mut rng = Rng::of_family(round, 21);
    let rng = &mut rng;
    for v in t.masked() {
        over_corners(rng, t, v, out);
        in_splits(rng, t, v, out);
        behind_prefixes(rng, t, v, out);
    }
    refused_into_v0(rng, t, out);
    never_masked(rng, t, out);
    lacking_forms(rng, t, out);
    launched(rng, t, out);
}

/// All 32 lanes, over registers of corner values.
fn over_corners(rng: &mut Rng, t: &Table, v: &Variant, out: &mut Vec<Case>) {
    let mut kernel = Vec::new();
    for n in 0..4 {
        kernel.push(new_v0(rng, t));
        let source = match v.registers()[1] {
            Some(File::V) => corner_register(rng),
            _ => rng.below(32),
        };
        let into_v0 = v.is_compare() && n % 2 == 1;
        let fields = rs2(corner_register(rng)) | rs1(source) | rd(if into_v0 { 0 } else { 4 + n });
        kernel.push(v.fixed | fields & v.free);
    }
    let g = corner_ground(rng, 8);
    let warp = extended_state(rng, &g, 8, 0);
    out.push(state_case(&warp, kernel, g, 8));
}

/// Any lanes, in splits or not; the last word's destination is v0 in one of three.
fn in_splits(rng: &mut Rng, t: &Table, v: &Variant, out: &mut Vec<Case>) {
    let mut kernel = Vec::new();
    for n in 0..5 {
        if n != 0 {
            kernel.push(new_v0(rng, t));
        }
        let into_v0 = if n == 4 { rng.chance(3) } else { v.is_compare() && rng.chance(2) };
        kernel.push(masked_word(rng, v, into_v0));
    }
    let words = kernel.len() as u32;
    let g = ground(rng, words);
    let depth = rng.pick(&[0, 1, 2, 3]);
    let warp = extended_state(rng, &g, words, depth);
    out.push(state_case(&warp, kernel, g, words));
}

/// Behind REGEXT, and a VI form behind REGEXTI too: v32 and other registers whose field is 0 are
/// destinations, and v0 masks.
fn behind_prefixes(rng: &mut Rng, t: &Table, v: &Variant, out: &mut Vec<Case>) {
    let prefixes = if v.is_vi() { 2 } else { 1 };
    for n in 0..prefixes {
        let mut kernel = Vec::new();
        for _ in 0..6 {
            kernel.push(new_v0(rng, t));
            let [_, x1, x2] = digits(rng, v);
            let xd = rng.pick(&[1, 1, 2, 7]);
            let high = rng.pick(&[0, 1, 31, 32, 63]);
            let prefix =
                if n == 0 { regext(x2, x1, xd) | third(rng) } else { regexti(high, x2, xd) };
            kernel.push(prefix);
            let into_field_0 = rng.chance(2);
            kernel.push(masked_word(rng, v, into_field_0));
        }
        let words = kernel.len() as u32;
        let g = ground(rng, words);
        let depth = rng.pick(&[0, 0, 1]);
        let warp = extended_state(rng, &g, words, depth);
        out.push(state_case(&warp, kernel, g, words));
    }
}

/// Every masked word but a compare with the destination v0: alone, and behind a prefix whose digit
/// xd is 0.
fn refused_into_v0(rng: &mut Rng, t: &Table, out: &mut Vec<Case>) {
    for v in t.masked().into_iter().filter(|v| v.spares_v0()) {
        for behind in [false, true] {
            let [_, x1, x2] = digits(rng, v);
            let mut kernel = vec![new_v0(rng, t)];
            if behind {
                let lengthened = v.is_vi() && rng.chance(2);
                let high = rng.below(64);
                kernel.push(if lengthened { regexti(high, x2, 0) } else { regext(x2, x1, 0) });
            }
            kernel.extend([masked_word(rng, v, true), NOP]);
            let words = kernel.len() as u32;
            let g = ground(rng, words);
            let warp = extended_state(rng, &g, words, 0);
            out.push(state_case(&warp, kernel, g, words));
        }
    }
}

/// vmv.x.s and vmv.s.x with vm = 0, where all lanes agree, alone and behind REGEXT.
fn never_masked(rng: &mut Rng, t: &Table, out: &mut Vec<Case>) {
    for name in ["vmv.x.s", "vmv.s.x"] {
        let v = t.get(name);
        for n in 0..6 {
            let (from, x2) = (rng.below(32), if n % 2 == 0 { 0 } else { rng.below(8) });
            let agree = t.fixed("vmv.vi") | rd(from) | rs1(rng.below(32));
            let mut kernel = vec![regext(0, 0, x2), agree, new_v0(rng, t)];
            if n % 2 != 0 {
                kernel.push(regext(x2, 0, rng.below(2)));
            }
            let fields = (rd(1 + rng.below(31)) | rs1(rng.below(32)) | rs2(from)) & v.free;
            kernel.extend([v.fixed & !VM | fields, NOP]);
            let words = kernel.len() as u32;
            let g = ground(rng, words);
            let warp = extended_state(rng, &g, words, 0);
            out.push(state_case(&warp, kernel, g, words));
        }
    }
}

/// Masked words of a row in a form that it lacks, and vid.v with other fields than its own.
fn lacking_forms(rng: &mut Rng, t: &Table, out: &mut Vec<Case>) {
    let vid = t.fixed("masked vid.v");
    let mut words = vec![vid ^ rs1(1), vid | rs2(1), vid | rs2(16), vid | VX];
    let is_row = |v: &&&Variant| v.fixed & FUNCT3 == VX; // each row without M has this form
    for row in t.masked().iter().filter(is_row) {
        let others = [VV, VI].map(|form| row.fixed & !FUNCT3 | form);
        let is_there = |word: &u32| t.all.iter().any(|v| v.fixed == *word);
        words.extend(others.iter().filter(|word| !is_there(word)));
    }
    for word in words {
        let fields = rd(1 + rng.below(31)) | if word & RS1 == 0 { rs1(rng.below(32)) } else { 0 };
        let kernel = vec![t.fixed("vmv.vi") | rs1(1), word | fields, NOP];
        let g = plain_ground();
        let entry = g.fixed.code_base;
        out.push(launch_case(g, entry, kernel, 3));
    }
}

/// Launched: v0 by a compare, masked words, and a branch by what they have written.
fn launched(rng: &mut Rng, t: &Table, out: &mut Vec<Case>) {
    for _ in 0..60 {
        let mut g = plain_ground();
        g.fixed.numt = rng.pick(&[2, 3, 4, 4, 8, 17, 32, 32]);
        g.fixed.mask = low_mask(g.fixed.numt);
        if rng.chance(3) {
            g.fixed.mask = some_lanes(rng, g.fixed.mask);
        }
        let entry = g.fixed.code_base;
        let kernel = launched_kernel(rng, t);
        let budget = kernel.len() as u32 + 8;
        out.push(launch_case(g, entry, kernel, budget));
    }
}

/// A word of the first six registers; a compare's destination is v0 in one of three.
fn among_few(rng: &mut Rng, v: &Variant) -> u32 {
    let fields = rs1(rng.below(6)) | rs2(rng.below(6));
    let to = if v.is_compare() && rng.chance(3) { 0 } else { 2 + rng.below(4) };
    v.fixed | (fields | rd(to)) & v.free
}

/// v1 holds the lane numbers; v2 to v5 are written under masks and compared by a VBRANCH, whose two
/// parts meet at the JOIN.
fn launched_kernel(rng: &mut Rng, t: &Table) -> Vec<u32> {
    let mut kernel = vec![
        t.fixed("vid.v") | rd(1),
        t.fixed("addi") | rd(3) | enc_i(rng.range(-4, 9)),
        t.fixed("vmsgtu.vi") | rs2(1) | rs1(rng.below(8)),
    ];
    for _ in 0..3 {
        if rng.chance(3) {
            kernel.push(new_v0(rng, t));
        }
        let v = any_masked(rng, t);
        kernel.push(among_few(rng, v));
    }
    let branch = rng.pick(&["vbeq", "vbne", "vblt", "vbge", "vbltu", "vbgeu"]);
    kernel.extend([t.fixed("auipc") | rd(5), t.fixed("setrpc") | rs1(5) | enc_i(20)]);
    kernel.push(t.fixed(branch) | rs1(rng.below(6)) | rs2(1 + rng.below(5)) | enc_b(8));
    for _ in 0..2 {
        let v = any_masked(rng, t);
        kernel.push(among_few(rng, v));
    }
    kernel.extend([JOIN, ENDPRG]);
    kernel
}

/// Masked words in any order, some behind a prefix; v0 is seldom the destination of one that is then
/// refused.
pub(crate) fn masked_kernel(rng: &mut Rng, t: &Table) -> Vec<u32> {
    let mut kernel = Vec::new();
    for _ in 0..8 {
        if rng.chance(2) {
            kernel.push(new_v0(rng, t));
        }
        let v = any_masked(rng, t);
        if rng.chance(4) {
            let [_, x1, x2] = digits(rng, v);
            kernel.push(regext(x2, x1, rng.below(3)));
        }
        let into_v0 = rng.chance(if v.is_compare() { 2 } else { 16 });
        kernel.push(masked_word(rng, v, into_v0));
    }
    kernel
}

/// A few jobs for sheets: a run's branch goes by what a masked word has written, or its last or its
/// first word is refused.
pub(crate) fn masked_kernels(t: &Table) -> Vec<Vec<u32>> {
    let add = t.fixed("masked vadd.vi") | rs2(1) | rs1(4);
    let (lane, odd) = (t.fixed("vid.v") | rd(1), t.fixed("vid.v"));
    let apart = t.fixed("vbltu") | rs1(1) | rs2(2) | enc_b(8);
    vec![
        vec![lane, odd, add | rd(2), apart, NOP, ENDPRG],
        vec![lane, odd, t.fixed("vmerge.vim") | rd(2) | rs2(1) | rs1(9), apart, NOP, ENDPRG],
        vec![lane, t.fixed("masked vid.v") | rd(2), apart, NOP, ENDPRG],
        vec![lane, t.fixed("masked vmseq.vi") | rs2(1), ENDPRG],
        vec![lane, odd, regext(0, 0, 1), add, ENDPRG],
        vec![lane, odd, add],
        vec![lane, regext(0, 0, 0), add],
        vec![add],
        vec![NOP, t.fixed("vmv.x.s") & !VM | rd(1)],
        vec![NOP, t.fixed("vmv.s.x") & !VM | rd(1)],
    ]
}
