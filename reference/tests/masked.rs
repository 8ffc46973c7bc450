//! Masked words: which lanes they write, which of them are refused, and vmerge.

mod common;

use common::*;
use reference::generate::card_of;
use reference::group::{self, state_words};
use reference::isa::{decode, decode_after, Prefix, ENDPRG};
use reference::run::VECTOR_WORDS;
use reference::state::{Split, Warp};
use reference::table::{self, regext, regexti, Variant, NOP};

const VM: u32 = 1 << 25;
const OLD: u32 = 0xa5a5_a5a5;

/// Words of v0 with bit 0 clear or set, whatever their other bits are.
const MASKS: [u32; 8] = [0, 1, 2, 3, 0x8000_0000, 0x8000_0001, 0xffff_fffe, 0xffff_ffff];

/// vd = op(vs2, src) with vm = 0.
fn m(name: &str, vd: u32, vs2: u32, src: u32) -> u32 {
    v(name, vd, vs2, src) & !VM
}

/// vmerge of the form of this vmv.v.
fn merge(form: &str, vd: u32, vs2: u32, src: u32) -> u32 {
    m(form, vd, vs2, src)
}

/// The forms that can be masked, as they are unmasked, counted in the rules' table: 33 of sums,
/// minima, bits and shifts, 20 compares, 16 of the M group, and vid.v.
fn maskable() -> Vec<Variant> {
    let moves = ["vmv.vv", "vmv.vx", "vmv.vi", "vmv.x.s", "vmv.s.x"];
    let all: Vec<Variant> = table::variants()
        .into_iter()
        .filter(|v| v.fixed & 0x7f == 0x57 && v.fixed & VM != 0 && !moves.contains(&&v.name[..]))
        .collect();
    assert_eq!(all.len(), 33 + 20 + 16 + 1);
    all
}

fn is_compare(v: &Variant) -> bool {
    ["vmseq", "vmsne", "vmslt", "vmsle", "vmsgt"].iter().any(|name| v.name.starts_with(name))
}

/// A bench of all lanes whose vector file and scalar registers are any words.
fn any_bench(kernel: &[u32], draw: &mut impl FnMut() -> u32) -> Bench {
    let mut bench = Bench::new(32, kernel, 0);
    bench.vector.iter_mut().for_each(|word| *word = draw());
    bench.warp.x[1..].iter_mut().for_each(|word| *word = draw());
    bench
}

/// Lanes that are not active, or not in a split's running part.
fn deactivate(bench: &mut Bench, mask: u32) {
    let (rpc, else_pc, else_mask) = (CODE, CODE, !mask);
    if mask != u32::MAX {
        bench.warp.splits[0] = Split { rpc, full: u32::MAX, else_mask, else_pc, phase_two: false };
        (bench.warp.depth, bench.warp.mask) = (1, mask);
    }
    assert!(bench.warp.well_formed());
}

/// As published assemblers write them, with v0.t or v0 at the end.
#[test]
fn codes() {
    let known = [
        (0x0021_80d7, "masked vadd.vv"),  // vadd.vv v1, v2, v3, v0.t
        (0x6011_b057, "masked vmseq.vi"), // vmseq.vi v0, v1, 3, v0.t
        (0x9421_a0d7, "masked vmul.vv"),  // vmul.vv v1, v2, v3, v0.t
        (0x5008_a0d7, "masked vid.v"),    // vid.v v1, v0.t
        (0x5c21_80d7, "vmerge.vvm"),      // vmerge.vvm v1, v2, v3, v0
        (0x5c20_c0d7, "vmerge.vxm"),      // vmerge.vxm v1, v2, x1, v0
        (0x5c20_b0d7, "vmerge.vim"),      // vmerge.vim v1, v2, 1, v0
    ];
    for (word, name) in known {
        let read = decode(word).map(|insn| table::name(&insn));
        assert_eq!(read.as_deref(), Some(name), "{word:08x}");
    }
}

/// Every form: an active lane with bit 0 of v0 gets what the unmasked word gives it, every other
/// lane keeps its word, and nothing else changes.
#[test]
fn written_lanes_of_every_form() {
    let mut draw = any_words(0x9e37_79b9);
    for form in maskable() {
        for round in 0..60 {
            let mut fields = draw() & form.free;
            if !is_compare(&form) && fields & 31 << 7 == 0 {
                fields |= 1 << 7;
            }
            let word = form.fixed | fields;
            let mut bench = any_bench(&[word & !VM], &mut draw);
            (0..32).for_each(|lane| bench.vector[lane] = MASKS[draw() as usize % 8]);
            deactivate(&mut bench, if round % 3 == 0 { u32::MAX } else { draw() | 1 });
            let (before, active) = (bench.vector.clone(), bench.warp.mask);
            let mut unmasked = Bench { kernel: vec![word], ..copy(&bench) };
            assert_eq!(unmasked.step(), 0);
            assert_eq!(bench.step(), 0, "{} {word:08x}", form.name);
            let vd = (word >> 7 & 31) as usize;
            for (at, now) in bench.vector.iter().enumerate() {
                let lane = at % 32;
                let written = at / 32 == vd && active >> lane & 1 == 1 && before[lane] & 1 == 1;
                let meant = if written { unmasked.vector[at] } else { before[at] };
                assert_eq!(*now, meant, "{} {word:08x} lane {lane}", form.name);
            }
            assert_eq!(bench.warp, unmasked.warp);
        }
    }
}

fn copy(bench: &Bench) -> Bench {
    let Bench { warp, kernel, vector, data } = bench;
    Bench { warp: warp.clone(), kernel: kernel.clone(), vector: vector.clone(), data: data.clone() }
}

/// Only bit 0 of a v0 word counts.
#[test]
fn bit_0_of_v0() {
    let mut bench = Bench::new(8, &[m("vadd.vi", 1, 2, 5)], 0);
    bench.set_v(0, &MASKS);
    bench.set_v(1, &[OLD; 9]);
    bench.set_v(2, &[100, 101, 102, 103, 104, 105, 106, 107, 108]);
    assert_eq!(bench.step(), 0);
    assert_eq!(bench.vector[32..41], [OLD, 106, OLD, 108, OLD, 110, OLD, 112, OLD]);
}

/// Lanes are not written while they are not active, whatever v0 holds.
#[test]
fn lanes_that_are_not_active() {
    for word in [m("vadd.vi", 1, 2, 5), merge("vmv.vi", 1, 2, 5), m("vid.v", 1, 0, 17)] {
        // The launch mask has holes, and the warp two lanes fewer than v0 has words for.
        let mut l = launch(6);
        l.fixed.mask = 0b01_1010;
        let mut bench = Bench::launched(&l, &[word], 0);
        bench.set_v(0, &[u32::MAX; 32]);
        bench.set_v(1, &[OLD; 32]);
        assert_eq!(bench.step(), 0);
        let kept: Vec<usize> = (0..32).filter(|lane| bench.v(1, *lane) == OLD).collect();
        assert_eq!(kept, [vec![0, 2, 5], (6..32).collect()].concat(), "{word:08x}");
    }
}

/// No written lane is a legal step: the PC moves on and nothing else changes.
#[test]
fn no_written_lane() {
    for form in maskable() {
        for v0 in [0, 2, 0xffff_fffe] {
            let word = (form.fixed & !VM) | (1 << 7 | 3 << 20 | 4 << 15) & form.free;
            let mut bench = any_bench(&[word], &mut any_words(7));
            bench.vector[..32].fill(v0);
            let (before, vector) = (bench.warp.clone(), bench.vector.clone());
            assert_eq!(bench.run(9), (5, 1), "{}", form.name);
            assert_eq!(bench.warp, Warp { pc: CODE + 4, ..before });
            assert_eq!(bench.vector, vector);
        }
    }
    // v0 is set only where no lane is active; a prefix is used up all the same.
    let mut bench = Bench::new(2, &[regext(0, 0, 1), m("vadd.vi", 0, 0, 1), NOP], 0);
    bench.set_v(0, &[0, 0, 1, 1]);
    let vector = bench.vector.clone();
    assert_eq!(bench.run(2), (0, 2));
    assert_eq!((bench.warp.prefix, bench.warp.pc), (Prefix::None, CODE + 8));
    assert_eq!(bench.vector, vector);
}

/// Of all masked words only a compare has v0 as its destination; v32 is not v0.
#[test]
fn destination_v0() {
    let moves = |v: &Variant| ["vmv.vv", "vmv.vx", "vmv.vi"].contains(&&v.name[..]);
    let merges = table::variants().into_iter().filter(moves);
    let merges = merges.map(|v| Variant { free: v.free | table::RS2, ..v });
    for form in maskable().into_iter().chain(merges) {
        let word = (form.fixed & !VM) | (3 << 20 | 4 << 15) & form.free;
        let number = if is_compare(&form) { 0 } else { 6 };
        let alone = |word: u32| {
            let mut bench = Bench::new(2, &[word], 0);
            bench.set_v(0, &[1, 1]);
            bench
        };
        assert_eq!(alone(word).step(), number, "{} into v0", form.name);
        assert_eq!(decode(word).is_some(), number == 0);
        assert_eq!(alone(word | 1 << 7).step(), 0, "{} into v1", form.name);
        // Unmasked, v0 is a destination as any other.
        if !form.name.starts_with("vmv") {
            assert_eq!(alone(word | VM).step(), 0);
        }
        let vi = word >> 12 & 7 == 3;
        let mut prefixes = vec![(regext(0, 0, 0), 0), (regext(0, 0, 1), 1), (regext(0, 0, 7), 7)];
        if vi {
            prefixes.extend([(regexti(3, 0, 0), 0), (regexti(3, 0, 1), 1)]);
        }
        for (prefix, xd) in prefixes {
            let mut bench = Bench::new(2, &[prefix, word], 0);
            bench.set_v(0, &[1, 1]);
            bench.set_v(32, &[OLD, OLD]);
            assert_eq!(bench.step(), 0);
            if xd == 0 && number == 6 {
                bench.refused(6);
                bench.refused(6);
            } else {
                assert_eq!(bench.step(), 0, "{} into v{}", form.name, 32 * xd);
            }
        }
    }
    // Into v32 behind a prefix, masked by v0 and not by v32.
    let mut bench = Bench::new(4, &[regext(1, 0, 1), m("vadd.vi", 0, 0, 5)], 0);
    bench.set_v(0, &[1, 0, 3, 2]);
    bench.set_v(32, &[10, 11, 12, 13, 14]);
    assert_eq!(bench.run(2), (0, 2));
    assert_eq!(bench.vector[32 * 32..][..5], [15, 11, 17, 13, 14]);
    assert_eq!(bench.vector[..4], [1, 0, 3, 2]);
}

/// A compare's written lanes are those of v0 before the step, also where it writes v0 itself.
#[test]
fn compares_into_v0() {
    // Lanes at or above 2, then those of them below 5, then those of them that are odd.
    let kernel = [
        v("vid.v", 1, 0, 17),
        v("vmsgtu.vi", 0, 1, 1),
        m("vmsleu.vi", 0, 1, 4),
        v("vand.vi", 2, 1, 1),
        m("vmsne.vi", 0, 2, 0),
        m("vadd.vi", 1, 1, 10),
    ];
    let mut bench = Bench::new(8, &kernel, 0);
    assert_eq!(bench.run(9), (5, 6));
    assert_eq!(bench.vector[..9], [0, 0, 0, 1, 0, 0, 0, 0, 0]);
    assert_eq!(bench.vector[32..41], [0, 1, 2, 13, 4, 5, 6, 7, 0]);
    // A lane that is not written keeps its word of v0, even one that is neither 0 nor 1.
    let mut bench = Bench::new(4, &[m("vmseq.vi", 0, 1, 0)], 0);
    bench.set_v(0, &[2, 3, 0xffff_fffe, 5]);
    bench.set_v(1, &[0, 0, 9, 9]);
    assert_eq!(bench.step(), 0);
    assert_eq!(bench.vector[..4], [2, 1, 0xffff_fffe, 0]);
    // v0 is also its first operand.
    let mut bench = Bench::new(2, &[m("vmseq.vi", 0, 0, 5)], 0);
    bench.set_v(0, &[5, 7]);
    assert_eq!(bench.step(), 0);
    assert_eq!(bench.vector[..2], [1, 0]);
    let vmsgt = [m("vmsgt.vi", 0, 0, 5), m("vmsgt.vx", 0, 0, 0)];
    let mut bench = Bench::new(2, &vmsgt, 0);
    bench.set_v(0, &[5, 7]);
    assert_eq!(bench.run(2), (0, 2));
    assert_eq!(bench.vector[..2], [0, 1]);
}

/// vmerge writes every active lane: the last operand where bit 0 of v0 is set, vs2's word elsewhere.
#[test]
fn vmerge() {
    let mut draw = any_words(0x1357_9bdf);
    for form in ["vmv.vv", "vmv.vx", "vmv.vi"] {
        for round in 0..300 {
            let (vd, vs2, src) = (1 + draw() % 31, draw() % 32, draw() % 32);
            let mut bench = any_bench(&[merge(form, vd, vs2, src)], &mut draw);
            (0..32).for_each(|lane| bench.vector[lane] = MASKS[draw() as usize % 8]);
            deactivate(&mut bench, if round % 3 == 0 { u32::MAX } else { draw() | 1 });
            let (before, warp) = (bench.vector.clone(), bench.warp.clone());
            assert_eq!(bench.step(), 0);
            for (at, now) in bench.vector.iter().enumerate() {
                let lane = at % 32;
                let last = match form {
                    "vmv.vv" => before[32 * src as usize + lane],
                    "vmv.vx" => warp.x[src as usize],
                    _ if src < 16 => src,
                    _ => src.wrapping_sub(32),
                };
                let meant = match (at / 32 == vd as usize, warp.mask >> lane & 1 == 1) {
                    (true, true) if before[lane] & 1 == 1 => last,
                    (true, true) => before[32 * vs2 as usize + lane],
                    _ => before[at],
                };
                assert_eq!(*now, meant, "{form} v{vd} v{vs2} {src} lane {lane}");
            }
            assert_eq!(bench.warp, Warp { pc: CODE + 4, ..warp });
        }
    }
    // With vm = 1 the same code is vmv.v, and vs2 is 0.
    for form in ["vmv.vv", "vmv.vx", "vmv.vi"] {
        for vs2 in [1, 16, 31] {
            Bench::new(2, &[v(form, 1, vs2, 0)], 0).refused(6);
            assert_eq!(Bench::new(2, &[merge(form, 1, vs2, 0)], 0).step(), 0);
        }
        assert_eq!(Bench::new(2, &[merge(form, 1, 0, 0)], 0).step(), 0);
    }
}

#[test]
fn moves_to_and_from_scalars_are_never_masked() {
    for v0 in [0, 1, 2, u32::MAX] {
        for word in [r("vmv.x.s", 1, 0, 2), r("vmv.x.s", 0, 0, 2), v("vmv.s.x", 1, 0, 2)] {
            for prefix in [None, Some(regext(0, 0, 0)), Some(regext(1, 1, 1))] {
                let kernel: Vec<u32> = prefix.into_iter().chain([word & !VM]).collect();
                let mut bench = Bench::new(2, &kernel, 0);
                bench.set_v(0, &[v0; 32]);
                assert_eq!(bench.run(kernel.len() as u32 - 1).0, 0);
                bench.refused(6);
            }
        }
    }
    // vid.v with other fields than its own, and rows without a form, are no words either.
    let vid = m("vid.v", 1, 0, 17);
    for word in [
        vid ^ 1 << 15,
        vid | 1 << 20,
        vid | 4 << 12,
        m("vsub.vx", 1, 2, 3) & !(7 << 12) | 3 << 12,
        m("vrsub.vx", 1, 2, 3) & !(7 << 12),
        m("vmin.vv", 1, 2, 3) | 3 << 12,
        m("vmslt.vv", 1, 2, 3) | 3 << 12,
        m("vmsgt.vx", 1, 2, 3) & !(7 << 12),
        m("vmulhu.vv", 1, 2, 3) | 1 << 12,
    ] {
        Bench::new(2, &[word], 0).refused(6);
    }
}

/// VBRANCH, loads and stores go by the active lanes alone.
#[test]
fn what_v0_does_not_mask() {
    for v0 in [[0; 4], [1; 4], [0, 1, 0, 1], [2, u32::MAX, 1, 0]] {
        let mut bench = Bench::new(4, &[b("vbne", 1, 31, 8)], 0);
        bench.set_v(0, &v0);
        bench.set_v(1, &[0, 1, 1, 0]);
        assert_eq!(bench.step(), 0);
        assert_eq!((bench.warp.mask, bench.warp.splits[0].else_mask), (0b1001, 0b0110));
        let mut bench = Bench::new(4, &[s("vsw12", 1, 2, 0), i("vlw12", 3, 1, 0)], 16);
        bench.set_v(0, &v0);
        bench.set_v(1, &[DATA, DATA + 4, DATA + 8, DATA + 12]);
        bench.set_v(2, &[5, 6, 7, 8]);
        assert_eq!(bench.run(2), (0, 2));
        assert_eq!(bench.vector[96..100], [5, 6, 7, 8]);
        // Unmasked words neither.
        let mut bench = Bench::new(4, &[v("vadd.vi", 1, 1, 1), v("vid.v", 2, 0, 17)], 0);
        bench.set_v(0, &v0);
        assert_eq!(bench.run(2), (0, 2));
        assert_eq!(bench.vector[32..36], [1; 4]);
        assert_eq!(bench.vector[64..68], [0, 1, 2, 3]);
    }
}

/// A VI form and vmerge's have eleven bits behind REGEXTI, masked or not; a shift's low five count.
#[test]
fn regexti_before_masked_words() {
    for (six, five, value) in [(0, 16, 16), (31, 31, 1023), (32, 0, -1024), (63, 31, -1)] {
        let value = value as u32;
        for (word, result) in [
            (m("vadd.vi", 1, 2, five), 1000u32.wrapping_add(value)),
            (m("vrsub.vi", 1, 2, five), value.wrapping_sub(1000)),
            (m("vmsleu.vi", 1, 2, five), (1000 <= value).into()),
            (m("vsll.vi", 1, 2, five), 1000 << five),
            (merge("vmv.vi", 1, 2, five), value),
        ] {
            let mut bench = Bench::new(2, &[regexti(six, 1, 5), word, NOP], 0);
            bench.set_v(0, &[0, 1]);
            bench.set_v(34, &[1000, 1000]);
            bench.set_v(161, &[OLD, OLD, OLD]);
            assert_eq!(bench.run(2), (0, 2));
            let other = if word >> 26 == 0b010111 { 1000 } else { OLD };
            assert_eq!(bench.vector[161 * 32..][..3], [other, result, OLD], "{word:08x}");
        }
    }
    for word in [m("vadd.vv", 1, 2, 3), merge("vmv.vv", 1, 2, 3), merge("vmv.vx", 1, 2, 3)] {
        let mut bench = Bench::new(2, &[regexti(0, 0, 0), word], 0);
        assert_eq!(bench.step(), 0);
        bench.refused(6);
    }
}

/// The digits go on a masked word's registers as on an unmasked one's; v0 masks whatever they are.
#[test]
fn regext_before_masked_words() {
    for form in maskable() {
        let word = form.fixed | (9 << 7 | 3 << 20 | 4 << 15) & form.free;
        for (x2, x1, xd) in [(0, 0, 0), (1, 1, 1), (7, 1, 7), (3, 0, 5), (0, 2, 1), (0, 7, 0)] {
            let bits = x2 << 6 | x1 << 3 | xd;
            let [masked, unmasked] =
                [word & !VM, word].map(|w| decode_after(Prefix::RegExt(bits), w));
            assert_eq!(masked.is_some(), unmasked.is_some(), "{} {bits:03x}", form.name);
        }
    }
    let kernel = [
        regext(1, 1, 1),
        m("vsub.vv", 2, 1, 3), // v34 = v33 - v35
        regext(2, 1, 1),
        merge("vmv.vx", 3, 1, 5), // v35 = v65 or x37
        regext(0, 0, 7),
        m("vid.v", 31, 0, 17), // v255
    ];
    let mut bench = Bench::new(2, &kernel, 0);
    bench.set_v(0, &[0, 1]);
    bench.set_v(32, &[1, 0]); // masks nothing
    bench.set_v(33, &[50, 60]);
    bench.set_v(34, &[OLD, OLD]);
    bench.set_v(35, &[7, 8]);
    bench.set_v(65, &[70, 80]);
    bench.set_v(255, &[OLD, OLD]);
    bench.warp.x[37] = 99;
    assert_eq!(bench.run(6), (0, 6));
    assert_eq!((bench.v(34, 0), bench.v(34, 1)), (OLD, 52));
    assert_eq!((bench.v(35, 0), bench.v(35, 1)), (70, 99));
    assert_eq!((bench.v(255, 0), bench.v(255, 1)), (OLD, 1));
}

/// Each warp of a group is masked by its own v0.
#[test]
fn warps_of_a_group() {
    let kernel = [
        i("csrrs", 5, 0, 0x805), // WID
        v("vid.v", 1, 0, 17),
        v("vmseq.vx", 0, 1, 5), // lane WID of each warp
        m("vadd.vi", 2, 1, 7),
        merge("vmv.vi", 3, 1, 15),
        ENDPRG,
    ];
    let launches: Vec<_> = (0..3)
        .map(|wid| {
            let mut l = launch(4);
            (l.fixed.numw, l.fixed.wid) = (3, wid);
            l
        })
        .collect();
    let cards: Vec<u8> = launches.iter().flat_map(card_of).collect();
    let (mut state, mut vector) = (vec![0; state_words(3)], vec![7; 3 * VECTOR_WORDS]);
    let code = group::launch(&cards, &kernel, &mut vector, &[], &[], &mut state);
    assert_eq!(code, 0);
    let mut out = [9; 2];
    let code = group::run(&mut state, &kernel, &mut vector, &mut [], &mut [], 99, &mut out);
    assert_eq!((code, out), (3, [18, 0]));
    for wid in 0..3 {
        let file = &vector[wid * VECTOR_WORDS..][..VECTOR_WORDS];
        for lane in 0..4 {
            let own = lane == wid;
            assert_eq!(file[64 + lane], if own { lane as u32 + 7 } else { 0 });
            assert_eq!(file[96 + lane], if own { 15 } else { lane as u32 });
        }
    }
    // A masked word that is refused stops the group.
    let kernel = [m("vadd.vi", 0, 1, 7)];
    let code = group::launch(&cards, &kernel, &mut vector, &[], &[], &mut state);
    assert_eq!(code, 0);
    let code = group::run(&mut state, &kernel, &mut vector, &mut [], &mut [], 99, &mut out);
    assert_eq!((code, out), (6, [0, 0]));
}
