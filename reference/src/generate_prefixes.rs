//! The generator's families of register extension: prefixes before every word, those that take
//! one and those that don't, in kernels and pending in saved states.

use crate::case::Case;
use crate::generate::{
    access, corner_ground, corner_state, csr_ground, draw, extended_state, ground, is_private,
    launch_case, plain_ground, state_case, Ground, Place, Rng,
};
use crate::isa::{decode, Insn, Prefix, ENDPRG, JOIN};
use crate::state::Warp;
use crate::table::{
    enc_b, enc_i, enc_j, enc_s, rd, regext, regexti, rs1, rs2, File, Shape, Table, Variant,
    BARRIER, NOP, RD, REGEXT, REGEXTI,
};

/// Digits xd, x1 and x2 for a word's registers, all of which are there; any where the field is no
/// register.
pub(crate) fn digits(rng: &mut Rng, v: &Variant) -> [u32; 3] {
    v.registers().map(|file| rng.below(if file == Some(File::X) { 2 } else { 8 }))
}

/// The digit x3, which goes on no field.
pub(crate) fn third(rng: &mut Rng) -> u32 {
    rng.below(8) << 29
}

/// A REGEXT that the word takes.
fn fitting(rng: &mut Rng, v: &Variant) -> u32 {
    let [xd, x1, x2] = digits(rng, v);
    regext(x2, x1, xd) | third(rng)
}

/// A prefix before a word, mostly one that it takes: a REGEXT, and before half of the VI forms a
/// REGEXTI; seldom any.
pub(crate) fn random_prefix(rng: &mut Rng, v: &Variant) -> u32 {
    let any = rng.word() & 0xfff0_0000;
    match rng.below(20) {
        0 => REGEXT | any,
        1 => REGEXTI | any,
        n if n % 2 == 0 && v.is_vi() => REGEXTI | any,
        _ => fitting(rng, v),
    }
}

/// What a prefix's word leaves pending.
fn pending(word: u32) -> Prefix {
    match decode(word) {
        Some(Insn::RegExt(bits)) => Prefix::RegExt(bits),
        Some(Insn::RegExtI(bits)) => Prefix::RegExtI(bits),
        _ => Prefix::None,
    }
}

/// The state after the kernel's first word, a prefix.
fn begin_behind(warp: &mut Warp, kernel: &[u32]) {
    warp.prefix = pending(kernel[0]);
    warp.pc = warp.pc.wrapping_add(4);
}

/// A kernel on the small fixed ground, to be launched and run to its end.
fn launched(kernel: Vec<u32>) -> Case {
    let g = plain_ground();
    let (entry, budget) = (g.fixed.code_base, kernel.len() as u32);
    launch_case(g, entry, kernel, budget)
}

pub(crate) fn prefixes(round: u32, t: &Table, out: &mut Vec<Case>) {
    let mut rng = Rng::of_family(round, 20);
    let rng = &mut rng;
    behind_regext(rng, t, out);
    immediates(rng, t, out);
    not_lengthened(rng, t, out);
    barred(rng, t, out);
    too_high(rng, t, out);
    refused_behind(rng, t, out);
    plain_between(rng, t, out);
}

/// Each variant behind REGEXT, a few times over; the first prefix is pending or in the kernel.
fn behind_regext(rng: &mut Rng, t: &Table, out: &mut Vec<Case>) {
    for v in t.with(Variant::takes_regext) {
        // These take four words, and are refused more often.
        let four = is_private(v) || matches!(v.shape, Shape::Vstore | Shape::VmvXS);
        let (cases, words) = if four { (8, 16) } else { (4, 8) };
        for n in 0..cases {
            let mut kernel = Vec::new();
            while (kernel.len() as u32) < words {
                let at = kernel.len() as u32 + 1;
                let place = Place { at, words, forward: true, wild: n == 3 };
                push_behind(rng, t, v, place, &mut kernel);
            }
            let g = ground(rng, kernel.len() as u32);
            let depth = rng.pick(&[0, 0, 1, 2]);
            let mut warp = extended_state(rng, &g, words, depth);
            if n % 2 == 0 {
                begin_behind(&mut warp, &kernel);
            }
            let budget = rng.pick(&[words, words, words, words - 1, 20, 3, 1, 0]);
            out.push(state_case(&warp, kernel, g, budget));
        }
    }
}

/// A word of the variant behind a REGEXT, after what makes it likely to be taken.
fn push_behind(rng: &mut Rng, t: &Table, v: &Variant, p: Place, kernel: &mut Vec<u32>) {
    let [xd, x1, x2] = digits(rng, v);
    if v.shape == Shape::VmvXS {
        // A register whose lanes agree.
        let from = rng.below(32);
        let mv = t.fixed(rng.pick(&["vmv.vx", "vmv.vi", "vmv.s.x"]));
        kernel.extend([regext(rng.below(8), 0, x2), mv | rd(from) | rs1(rng.below(32))]);
        kernel.extend([regext(x2, x1, xd), v.fixed | rd(rng.below(32)) | rs2(from)]);
    } else if is_private(v) {
        // u is small, and of a word that does not cross.
        let (base, from) = (rng.below(32), rng.below(32));
        kernel.extend([
            regext(rng.below(8), 0, x1),
            t.fixed("vand.vi") | rd(base) | rs2(from) | rs1(12),
            regext(x2, x1, xd),
            access(v, base, rng.below(32), 4 * rng.range(-1, 2)),
        ]);
    } else if v.shape == Shape::Vstore {
        // All lanes store bytes of one value, wherever they meet.
        let word = draw(rng, v, p);
        let same = t.fixed("vmv.vi") | word >> 13 & RD | rs1(rng.pick(&[0, 31]));
        kernel.extend([regext(rng.below(8), 0, x2), same, regext(x2, x1, xd) | third(rng), word]);
    } else {
        kernel.extend([regext(x2, x1, xd) | third(rng), draw(rng, v, p)]);
    }
}

/// The bits of immediates at their edges: the word's five, and the prefix's six on top of them.
const LOW: [u32; 6] = [0, 1, 15, 16, 17, 31];
const HIGH: [u32; 8] = [0, 1, 2, 30, 31, 32, 33, 63];

/// Each VI form with immediates of eleven bits, and with five behind REGEXT.
fn immediates(rng: &mut Rng, t: &Table, out: &mut Vec<Case>) {
    for v in t.with(Variant::is_vi) {
        for n in 0..5 {
            let mut kernel = Vec::new();
            for _ in 0..5 {
                let [xd, x1, x2] = digits(rng, v);
                let high = if rng.chance(3) { rng.below(64) } else { rng.pick(&HIGH) };
                let low = if rng.chance(3) { rng.below(32) } else { rng.pick(&LOW) };
                kernel.push(if n < 4 { regexti(high, x2, xd) } else { regext(x2, x1, xd) });
                let fields = rd(rng.below(32)) | rs1(low) | rs2(rng.below(32));
                kernel.push(v.fixed | fields & v.free);
            }
            let g = corner_ground(rng, 10);
            let mut warp = corner_state(&g);
            if n % 2 == 0 {
                begin_behind(&mut warp, &kernel);
            }
            out.push(state_case(&warp, kernel, g, rng.pick(&[10, 10, 9])));
        }
    }
}

/// REGEXTI before every word that is no VI form, with digits that REGEXT could have.
fn not_lengthened(rng: &mut Rng, t: &Table, out: &mut Vec<Case>) {
    for v in t.with(|v| v.takes_regext() && !v.is_vi()) {
        let [xd, _, x2] = digits(rng, v);
        let imm = rng.below(64);
        let prefix = regexti(rng.pick(&[0, imm]), x2, xd);
        let word = draw(rng, v, Place { at: 2, words: 4, forward: true, wild: false });
        out.push(launched(vec![t.fixed("vid.v") | rd(1), prefix, word, NOP]));
    }
}

/// Either prefix before each word that takes none: launched, and pending where the word would
/// have an effect or another number.
fn barred(rng: &mut Rng, t: &Table, out: &mut Vec<Case>) {
    for v in t.with(|v| !v.takes_regext()) {
        for n in 0..12 {
            let any = rng.word() & 0xfff0_0000;
            let bits = rng.pick(&[0, any, any]);
            let prefix = bits | if n % 2 == 0 { REGEXT } else { REGEXTI };
            let word = draw(rng, v, Place { at: 2, words: 4, forward: true, wild: false });
            if n < 4 {
                out.push(launched(vec![t.fixed("vid.v") | rd(1), prefix, word, NOP]));
                continue;
            }
            let kernel = vec![prefix, word, NOP, JOIN];
            let g = ground(rng, 4);
            let depth = if n < 8 { 2 } else { 0 };
            let mut warp = extended_state(rng, &g, 4, depth);
            begin_behind(&mut warp, &kernel);
            let open = warp.depth as usize;
            warp.splits[..open].iter_mut().for_each(|split| split.rpc = warp.pc);
            out.push(state_case(&warp, kernel, g, 3));
        }
    }
}

/// Each scalar register of each word once too high, and all others there.
fn too_high(rng: &mut Rng, t: &Table, out: &mut Vec<Case>) {
    for v in t.with(Variant::takes_regext) {
        let registers = v.registers();
        for field in (0..3).filter(|field| registers[*field] == Some(File::X)) {
            let mut digits = digits(rng, v);
            digits[field] = rng.pick(&[2, 2, 3, 4, 5, 6, 7]);
            let [xd, x1, x2] = digits;
            let word = draw(rng, v, Place { at: 2, words: 4, forward: true, wild: false });
            let kernel = vec![t.fixed("vid.v") | rd(1), regext(x2, x1, xd), word, NOP];
            out.push(launched(kernel));
        }
    }
}

/// A word that is refused, for another reason, behind a prefix that it would take: the prefix
/// stays.
fn refused_behind(rng: &mut Rng, t: &Table, out: &mut Vec<Case>) {
    let accesses = ["lw", "sw", "lbu", "vlw12", "vsw12", "vlb12", "vlw.p", "vsw.p", "vlhu.p"];
    for n in 0..72 {
        let half = 4 * rng.range(-2, 2) + 2;
        // Registers of number 1 modulo 4 are small: no addresses, and lanes differ.
        let small = 1 + 4 * rng.below(8);
        let (v, fields) = match n % 6 {
            0 => {
                let v = t.get(rng.pick(&["csrrw", "csrrs", "csrrc", "csrrwi", "csrrsi", "csrrci"]));
                (v, rs1(1 + rng.below(31)) | enc_i(rng.pick(&[0x7ff, 0x800, 0x80a, 0x80d])))
            }
            1 => match rng.below(3) {
                0 => (t.get("jal"), enc_j(half)),
                1 => (t.get("jalr"), rs1(31) | enc_i(half)),
                _ => (t.get(rng.pick(&["beq", "bge", "bgeu"])), enc_b(half)),
            },
            2 => (t.get("vmv.x.s"), rs2(small)),
            3 => (t.get("vmv.x.s"), rs2(rng.below(32))),
            _ => {
                let v = t.get(rng.pick(&accesses));
                let off = rng.range(-9, 9);
                let off = if is_private(v) { off & 0x7ff } else { off };
                let store = v.name.contains('s');
                (v, rs1(small) | if store { enc_s(off) } else { enc_i(off) })
            }
        };
        let [xd, x1, x2] = digits(rng, v);
        let mut kernel = vec![regext(x2, x1, xd) | third(rng), v.fixed | fields];
        if n % 12 == 11 {
            kernel.pop(); // no word at all
        }
        let mut g = ground(rng, 2);
        (g.fixed.numt, g.fixed.mask) = (32, u32::MAX);
        let warp = equal_sources(extended_state(rng, &g, 2, 0), v);
        out.push(state_case(&warp, kernel, g, 4));
    }
}

/// Of a branch the two sources are equal, whatever its digits.
fn equal_sources(mut warp: Warp, v: &Variant) -> Warp {
    if v.shape == Shape::Branch {
        warp.x[32] = 0;
    }
    warp
}

/// Words with and without a prefix in turn, over the same fields: each digit is for one word.
fn plain_between(rng: &mut Rng, t: &Table, out: &mut Vec<Case>) {
    let words = ["add", "sub", "addi", "vadd.vv", "vsub.vx", "vadd.vi", "vmv.vx", "vid.v", "fence"];
    for _ in 0..60 {
        let kernel: Vec<u32> = (0..4)
            .flat_map(|_| {
                let v = t.get(rng.pick(&words));
                let word = v.fixed | (rd(1 + rng.below(2)) | rs1(3) | rs2(4)) & v.free;
                [fitting(rng, v), word, word]
            })
            .collect();
        let g = ground(rng, 12);
        let warp = extended_state(rng, &g, 12, 0);
        out.push(state_case(&warp, kernel, g, 12));
    }
}

/// CSRs by x32, whose field is 0 and which writes, and by x37; the immediate forms go by the field.
pub(crate) fn csrs_behind_a_prefix(t: &Table, out: &mut Vec<Case>) {
    for csr in (0x7ff..0x80e).chain([0x300]) {
        for v in t.with(|v| v.shape == Shape::Csr) {
            let (field, x1, xd) = if csr % 4 == 3 { (5, 1, 0) } else { (0, 1, csr as u32 % 2) };
            let Ground { fixed, .. } = csr_ground();
            let kernel = vec![
                regext(0, 0, 1),
                t.fixed("addi") | rd(field) | enc_i(if csr % 3 == 0 { 0 } else { 0x155 }),
                t.fixed("csrrwi") | rs1(28) | enc_i(0x80b),
                t.fixed("csrrwi") | rs1(26) | enc_i(0x80c),
                regext(7, x1, xd),
                v.fixed | rd(6) | rs1(field) | enc_i(csr),
            ];
            out.push(launch_case(csr_ground(), fixed.code_base, kernel, 6));
        }
    }
}

/// A few jobs for sheets: a prefix in the first step, in the last one, and many of them.
pub(crate) fn prefixed_kernels(t: &Table) -> Vec<Vec<u32>> {
    let add = t.fixed("vadd.vi") | rd(1) | rs2(1) | rs1(1);
    vec![
        vec![regext(0, 0, 3), t.fixed("vid.v") | rd(1), ENDPRG],
        vec![NOP, regext(0, 0, 0)],
        vec![regext(1, 0, 1), add, regexti(1, 1, 1), add, add, ENDPRG],
        vec![regext(0, 0, 2), NOP | rd(1)],
        vec![regexti(0, 0, 0), add, regexti(0, 0, 0), NOP],
        vec![regext(1, 1, 1), JOIN],
        vec![regext(1, 1, 1), BARRIER],
        vec![regext(1, 1, 1), ENDPRG],
    ]
}
