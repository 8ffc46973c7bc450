//! The trace cards, every refusal, and the edges.

mod common;

use common::*;
use reference::isa::{decode, Insn, Prefix, VOp, VSrc, ENDPRG, JOIN, V, X};
use reference::state::{Launch, Split, Warp};
use reference::{card, code, print, run, saved, table};

#[test]
fn p1_p2_codes() {
    assert_eq!(JOIN, 0x0000_205b);
    assert_eq!(ENDPRG, 0x0000_400b);
    assert_eq!(decode(0x0000_205b), Some(Insn::Join));
    assert_eq!(decode(0x0000_400b), Some(Insn::EndPrg));
    assert_eq!(decode(0x0102_b05b), Some(Insn::SetRpc { rd: X::new(0), rs1: X::new(5), imm: 16 }));
    assert_eq!(i("setrpc", 0, 5, 16), 0x0102_b05b);
}

/// Words as published assemblers write them.
#[test]
fn published_codes() {
    let known: [(u32, &str); 20] = [
        (0x0010_0093, "addi"),      // addi x1, x0, 1
        (0x0000_0013, "addi"),      // nop
        (0x4020_8133, "sub"),       // sub x2, x1, x2
        (0x0220_8133, "mul"),       // mul x2, x1, x2
        (0x4020_d093, "srai"),      // srai x1, x1, 2
        (0x0000_8067, "jalr"),      // ret
        (0xffdf_f06f, "jal"),       // j . - 4
        (0x0ff0_000f, "fence"),     // fence
        (0x0221_80d7, "vadd.vv"),   // vadd.vv v1, v2, v3
        (0x0a21_80d7, "vsub.vv"),   // vsub.vv v1, v2, v3
        (0x0e20_b0d7, "vrsub.vi"),  // vrsub.vi v1, v2, 1
        (0x5e00_30d7, "vmv.vi"),    // vmv.v.i v1, 0
        (0x5e05_40d7, "vmv.vx"),    // vmv.v.x v1, a0
        (0x5e01_00d7, "vmv.vv"),    // vmv.v.v v1, v2
        (0x4220_2557, "vmv.x.s"),   // vmv.x.s a0, v2
        (0x4205_60d7, "vmv.s.x"),   // vmv.s.x v1, a0
        (0x5208_a0d7, "vid.v"),     // vid.v v1
        (0x9621_a0d7, "vmul.vv"),   // vmul.vv v1, v2, v3
        (0x8621_a0d7, "vdiv.vv"),   // vdiv.vv v1, v2, v3
        (0x6a20_c0d7, "vmsltu.vx"), // vmsltu.vx v1, v2, x1
    ];
    for (word, name) in known {
        let insn = decode(word).unwrap_or_else(|| panic!("{word:08x}"));
        assert_eq!(table::name(&insn), name, "{word:08x}");
    }
    assert_eq!(
        decode(0x0a21_80d7),
        Some(Insn::Vec {
            masked: false,
            op: VOp::Sub,
            vd: V::new(1),
            vs2: V::new(2),
            src: VSrc::V(V::new(3))
        })
    );
}

#[test]
fn table_and_decoder_agree() {
    let variants = table::variants();
    let mut draw = any_words(0x1234_5678);
    let matching = |w: u32| {
        let mut m = variants.iter().filter(|v| v.has(w));
        let first = m.next().map(|v| v.name.clone());
        assert!(m.next().is_none(), "two variants match {w:08x}");
        first
    };
    for v in &variants {
        for _ in 0..200 {
            let word = v.fixed | draw() & v.free;
            let own = v.has(word).then(|| v.name.clone());
            assert_eq!(decode(word).map(|i| table::name(&i)), own, "{word:08x}");
            for bit in 0..32 {
                let near = word ^ 1 << bit;
                assert_eq!(decode(near).map(|i| table::name(&i)), matching(near), "{near:08x}");
            }
        }
    }
    for _ in 0..200_000 {
        let word = draw();
        assert_eq!(decode(word).map(|i| table::name(&i)), matching(word), "{word:08x}");
    }
}

/// All 2^32 words: as many are decoded as the table has. `--ignored`, release.
#[test]
#[ignore]
fn decoder_counts_all_words() {
    let words = |v: &table::Variant| {
        let of_one_register = 1u64 << (v.free & !table::RD).count_ones();
        let destinations = 1 << (v.free & table::RD).count_ones();
        of_one_register * (destinations - u64::from(v.spares_v0()))
    };
    let by_table: u64 = table::variants().iter().map(words).sum();
    let by_decoder = (0..=u32::MAX).filter(|w| decode(*w).is_some()).count() as u64;
    assert_eq!((by_table, by_decoder), (303_064_161, 303_064_161));
}

#[test]
fn p3_to_p6_split_and_join() {
    let mut kernel = vec![0x0000_0013; 16];
    kernel[4] = 0x0020_885b;
    kernel[12] = JOIN;
    let mut bench = Bench::new(4, &kernel, 0);
    bench.set_v(1, &[0, 1, 2, 3]);
    bench.set_v(2, &[2; 32]);
    bench.warp.pc = 0x8000_0010;
    bench.warp.rpc = 0x8000_0030;
    assert_eq!(bench.step(), 0);
    assert_eq!((bench.warp.mask, bench.warp.pc, bench.warp.depth), (0xb, 0x8000_0014, 1));
    let split =
        Split { rpc: 0x8000_0030, full: 0xf, else_mask: 4, else_pc: 0x8000_0020, phase_two: false };
    assert_eq!(bench.warp.splits[0], split);
    bench.warp.pc = 0x8000_0030;
    assert_eq!(bench.step(), 0);
    assert_eq!((bench.warp.mask, bench.warp.pc, bench.warp.depth), (4, 0x8000_0020, 1));
    bench.warp.pc = 0x8000_0030;
    assert_eq!(bench.step(), 0);
    assert_eq!((bench.warp.mask, bench.warp.pc, bench.warp.depth), (0xf, 0x8000_0030, 0));
    assert_eq!(bench.warp.splits[0], Split::default());
    assert_eq!(bench.step(), 0);
    assert_eq!((bench.warp.mask, bench.warp.pc, bench.warp.depth), (0xf, 0x8000_0034, 0));
}

#[test]
fn p7_signed_and_unsigned_branches() {
    for (name, target) in [("vblt", CODE + 8), ("vbltu", CODE + 4)] {
        let mut bench = Bench::new(4, &[b(name, 1, 2, 8)], 0);
        bench.set_v(1, &[u32::MAX; 4]);
        assert_eq!(bench.step(), 0);
        assert_eq!((bench.warp.pc, bench.warp.depth, bench.warp.mask), (target, 0, 0xf));
    }
}

#[test]
fn p8_sum_wraps() {
    let mut bench = Bench::new(1, &[r("add", 3, 1, 2), v("vadd.vi", 3, 1, 1)], 0);
    bench.warp.x[1] = u32::MAX;
    bench.warp.x[2] = 1;
    bench.warp.x[3] = 9;
    bench.set_v(1, &[u32::MAX]);
    bench.set_v(3, &[9, 9]);
    assert_eq!(bench.run(2), (0, 2));
    assert_eq!((bench.warp.x[3], bench.v(3, 0), bench.v(3, 1)), (0, 0, 9));
}

#[test]
fn p9_division_corners() {
    let min = 0x8000_0000u32;
    let cases = [
        ("div", 7, 0, u32::MAX),
        ("div", min, u32::MAX, min),
        ("rem", 7, 0, 7),
        ("rem", min, u32::MAX, 0),
        ("rem", -7i32 as u32, 3, -1i32 as u32),
        ("rem", 7, -3i32 as u32, 1),
        ("div", -7i32 as u32, 3, -2i32 as u32),
        ("divu", 7, 0, u32::MAX),
        ("remu", 7, 0, 7),
        ("divu", min, u32::MAX, 0),
        ("remu", min, u32::MAX, min),
    ];
    for (name, a, d, result) in cases {
        let vv = format!("v{name}.vv");
        let vx = format!("v{name}.vx");
        let kernel = [r(name, 3, 1, 2), v(&vv, 3, 1, 2), v(&vx, 4, 1, 2)];
        let mut bench = Bench::new(1, &kernel, 0);
        (bench.warp.x[1], bench.warp.x[2]) = (a, d);
        bench.set_v(1, &[a]);
        bench.set_v(2, &[d]);
        assert_eq!(bench.run(3), (0, 3));
        assert_eq!(
            (bench.warp.x[3], bench.v(3, 0), bench.v(4, 0)),
            (result, result, result),
            "{name}"
        );
    }
}

#[test]
fn operand_order_of_vector_operations() {
    // vs2 = 20, src = 3 (or -1 where signs matter)
    let cases: [(&str, u32, u32, u32); 14] = [
        ("vsub.vx", 20, 3, 17),
        ("vrsub.vx", 20, 3, -17i32 as u32),
        ("vdivu.vx", 20, 3, 6),
        ("vremu.vx", 20, 3, 2),
        ("vsll.vx", 20, 33, 40),
        ("vsrl.vx", 20, 34, 5),
        ("vsra.vx", -20i32 as u32, 34, -5i32 as u32),
        ("vmsltu.vx", 20, 3, 0),
        ("vmsltu.vx", 3, 20, 1),
        ("vmslt.vx", u32::MAX, 3, 1),
        ("vmsgt.vx", u32::MAX, 3, 0),
        ("vmsgtu.vx", u32::MAX, 3, 1),
        ("vmulhsu.vx", u32::MAX, 2, u32::MAX),
        ("vmulhsu.vx", 2, u32::MAX, 1),
    ];
    for (name, vs2, x, result) in cases {
        let mut bench = Bench::new(2, &[v(name, 3, 2, 1)], 0);
        bench.warp.x[1] = x;
        bench.set_v(2, &[vs2, vs2]);
        assert_eq!(bench.step(), 0);
        assert_eq!(bench.v(3, 1), result, "{name}");
    }
    // Immediates are sign-extended, except for shifts.
    let immediates: [(&str, u32, u32, u32); 5] = [
        ("vadd.vi", 5, 31, 4),
        ("vmsleu.vi", 0xffff_fffe, 31, 1),
        ("vmsgtu.vi", 5, 31, 0),
        ("vsrl.vi", 0x8000_0000, 31, 1),
        ("vrsub.vi", 5, 30, -7i32 as u32),
    ];
    for (name, vs2, imm, result) in immediates {
        let mut bench = Bench::new(1, &[v(name, 3, 2, imm)], 0);
        bench.set_v(2, &[vs2]);
        assert_eq!(bench.step(), 0);
        assert_eq!(bench.v(3, 0), result, "{name}");
    }
}

#[test]
fn p10_store_with_one_lane_outside() {
    let mut bench = Bench::new(4, &[s("vsw12", 1, 2, 0)], 16);
    bench.set_v(1, &[DATA, DATA + 4, DATA + 8, DATA + 13]);
    bench.set_v(2, &[0x0102_0304; 4]);
    bench.refused(9);
    assert!(bench.data.iter().all(|b| *b == 0));
    bench.set_v(1, &[DATA, DATA + 4, DATA + 8, DATA + 12]);
    assert_eq!(bench.step(), 0);
    assert_eq!(&bench.data[12..], &[4, 3, 2, 1]);
}

#[test]
fn p11_vmv_x_s() {
    let mut bench = Bench::new(2, &[r("vmv.x.s", 3, 0, 1)], 0);
    bench.set_v(1, &[5, 6, 9]);
    bench.refused(10);
    bench.set_v(1, &[5, 5, 9]);
    assert_eq!(bench.step(), 0);
    assert_eq!(bench.warp.x[3], 5);
}

#[test]
fn p12_endprg_and_barrier_in_a_split() {
    for word in [ENDPRG, 0x0400_400b, 0x0400_c00b] {
        let mut bench = Bench::new(2, &[b("vbne", 1, 2, 8), word, word], 0);
        bench.set_v(1, &[0, 1]);
        assert_eq!(bench.step(), 0);
        assert_eq!(bench.warp.depth, 1);
        bench.refused(11);
    }
}

#[test]
fn ended_and_waiting() {
    let mut bench = Bench::new(4, &[0x0400_400b, ENDPRG], 0);
    assert_eq!(code(run::release(&mut bench.warp)), 12);
    assert_eq!(bench.step(), 0);
    assert_eq!((bench.warp.pc, bench.warp.waiting), (CODE + 4, true));
    bench.refused(4);
    assert_eq!(bench.run(0), (0, 0));
    assert_eq!(code(run::release(&mut bench.warp)), 0);
    assert_eq!(bench.run(9), (3, 1));
    assert_eq!((bench.warp.pc, bench.warp.ended), (CODE + 4, true));
    bench.refused(3);
    assert_eq!(code(run::release(&mut bench.warp)), 12);
}

#[test]
fn printout() {
    let mut bench = Bench::new(4, &[ENDPRG], 0);
    let (code, steps) = bench.run(65_536);
    assert_eq!(
        print::five_lines(code, steps, &bench.warp),
        "code 3\nsteps 1\npc 80000000\nmask 0000000f\nsplits 0\n"
    );
}

/// Lane l leaves the loop after l + 1 turns.
fn trip_loop() -> Vec<u32> {
    vec![
        v("vid.v", 1, 0, 17),
        i("auipc", 5, 0, 0),
        i("setrpc", 0, 5, 20), // the JOIN
        v("vadd.vi", 3, 3, 1), // loop
        b("vblt", 1, 3, 8),
        j(0, -8),
        JOIN,
        ENDPRG,
    ]
}

#[test]
fn trip_counts_1_to_32() {
    let kernel = trip_loop();
    for numt in 1..=32u32 {
        let mut bench = Bench::new(numt, &kernel, 0);
        let mut deepest = 0;
        let mut steps = 0;
        let code = loop {
            let code = bench.step();
            assert!(bench.warp.well_formed());
            if code != 0 {
                break code;
            }
            steps += 1;
            deepest = deepest.max(bench.warp.depth);
        };
        assert_eq!(code, 3);
        assert_eq!(deepest, numt - 1);
        assert_eq!((bench.warp.mask, bench.warp.depth), (bench.warp.fixed.mask, 0));
        for lane in 0..32 {
            let turns = if lane < numt { lane + 1 } else { 0 };
            assert_eq!(bench.v(3, lane as usize), turns);
        }
        let mut again = Bench::new(numt, &kernel, 0);
        assert_eq!(again.run(u32::MAX), (3, steps));
        assert_eq!(again.warp, bench.warp);
    }
}

#[test]
fn one_lane_never_splits() {
    let kernel = trip_loop();
    for lane in 0..32 {
        let mut l = launch(32);
        l.fixed.mask = 1 << lane;
        let mut bench = Bench::launched(&l, &kernel, 0);
        while bench.step() == 0 {
            assert_eq!(bench.warp.depth, 0);
        }
        assert_eq!(bench.v(3, lane), lane as u32 + 1);
    }
}

#[test]
fn splits_sharing_an_rpc_all_close_on_one_join() {
    let kernel = [
        i("setrpc", 0, 5, 12),
        b("vbeq", 1, 0, 8), // lane 0 goes to the JOIN
        b("vbeq", 1, 2, 4), // lane 1 too
        JOIN,
        ENDPRG,
    ];
    let mut bench = Bench::new(4, &kernel, 0);
    bench.warp.x[5] = CODE;
    bench.set_v(1, &[0, 1, 2, 3]);
    bench.set_v(2, &[1; 4]);
    assert_eq!(bench.run(3), (0, 3));
    assert_eq!((bench.warp.depth, bench.warp.mask), (2, 0xc));
    assert_eq!(bench.run(4), (0, 4));
    assert_eq!((bench.warp.depth, bench.warp.mask, bench.warp.pc), (0, 0xf, CODE + 12));
    assert_eq!(bench.run(9), (3, 2));
}

#[test]
fn pc_off_the_kernel() {
    let nop = 0x13;
    let mut bench = Bench::new(1, &[nop], 0);
    assert_eq!(bench.step(), 0);
    bench.refused(5);
    bench.warp.pc = CODE - 4;
    bench.refused(5);
    // The kernel's end is the end of the space: the PC wraps to 0.
    let mut l = launch(1);
    l.fixed.code_base = 0xffff_fffc;
    l.entry = 0xffff_fffc;
    let mut bench = Bench::launched(&l, &[j(1, 0)], 0);
    assert_eq!(bench.step(), 0);
    assert_eq!((bench.warp.x[1], bench.warp.pc), (0, 0xffff_fffc));
    bench.kernel[0] = nop;
    assert_eq!(bench.step(), 0);
    assert_eq!(bench.warp.pc, 0);
    bench.refused(5);
    // And from the start of the space backwards to its end.
    let mut l = launch(1);
    l.fixed.code_base = 0;
    l.entry = 0;
    let mut bench = Bench::launched(&l, &[j(0, -8)], 0);
    assert_eq!(bench.step(), 0);
    assert_eq!(bench.warp.pc, 0xffff_fff8);
    bench.refused(5);
    // An entry off the kernel launches and then has no word.
    let mut l = launch(1);
    l.entry = 4;
    let mut bench = Bench::launched(&l, &[nop], 0);
    bench.refused(5);
}

#[test]
fn words_not_in_the_tables() {
    let words = [
        0x0000_0000,
        0xffff_ffff,
        0x0000_0073, // ecall
        0x0010_0073, // ebreak
        0x0000_100f, // fence.i
        0x0000_20db, // JOIN with rd 1
        0x0000_408b, // ENDPRG with rd 1
        0x0000_c00b, // ENDPRG with rs1 1
        0x0600_400b, // BARRIERSUB
        0x0021_8057, // vadd.vv into v0, vm = 0
        0x0001_7057, // vsetvli
        0x4220_a557, // vmv.x.s with vs1 1
        0x5e10_40d7, // vmv.v.x with vs2 1
        0x8000_202b, // private load, bit 31
        0x4000_9093, // slli with funct7 0x20
        0x0000_3003, // ld
    ];
    for word in words {
        let mut bench = Bench::new(2, &[word], 0);
        bench.refused(6);
    }
}

#[test]
fn csr_rules() {
    let mut l = launch(4);
    (l.fixed.numw, l.fixed.wid) = (8, 3);
    (l.fixed.knl, l.fixed.wgid, l.fixed.lds, l.fixed.pds) = (21, 22, 23, 24);
    (l.fixed.gidx, l.fixed.gidy, l.fixed.gidz) = (25, 26, 27);
    let expected = [12, 8, 4, 21, 22, 3, 23, 24, 25, 26, 27, 0, 0];
    for (n, value) in expected.into_iter().enumerate() {
        let csr = 0x800 + n as i32;
        let mut bench = Bench::launched(&l, &[i("csrrs", 1, 0, csr), i("csrrci", 2, 0, csr)], 0);
        (bench.warp.x[1], bench.warp.x[2]) = (9, 9);
        assert_eq!(bench.run(2), (0, 2));
        assert_eq!((bench.warp.x[1], bench.warp.x[2]), (value, value));
        // A write, with rd = x0 or a zero operand too, only to PRINT and RPC.
        for word in [
            i("csrrw", 0, 0, csr),
            i("csrrwi", 0, 0, csr),
            i("csrrs", 1, 2, csr),
            i("csrrc", 1, 2, csr),
            i("csrrsi", 1, 1, csr),
            i("csrrci", 1, 1, csr),
        ] {
            let mut bench = Bench::launched(&l, &[word], 0);
            if n >= 11 {
                assert_eq!(bench.step(), 0);
            } else {
                bench.refused(7);
            }
        }
    }
    for csr in [0x7ff, 0x80d, 0, 0xfff, 0xc00] {
        Bench::launched(&l, &[i("csrrs", 1, 0, csr)], 0).refused(7);
    }
    let kernel = [
        i("csrrw", 1, 1, 0x80c), // rd = rs1
        i("csrrsi", 2, 5, 0x80b),
        i("csrrci", 3, 4, 0x80b),
    ];
    let mut bench = Bench::launched(&l, &kernel, 0);
    (bench.warp.x[1], bench.warp.rpc, bench.warp.print) = (100, 200, 0x10);
    assert_eq!(bench.run(3), (0, 3));
    assert_eq!((bench.warp.x[1], bench.warp.rpc), (200, 100));
    assert_eq!((bench.warp.x[2], bench.warp.x[3], bench.warp.print), (0x10, 0x15, 0x11));
}

#[test]
fn misaligned_targets() {
    for word in
        [j(1, 2), i("jalr", 1, 1, 2), i("jalr", 1, 1, 3), b("beq", 0, 0, 6), b("vbeq", 0, 0, -2)]
    {
        Bench::new(2, &[word], 0).refused(8);
    }
    // Not taken: nothing to refuse.
    for word in [b("bne", 0, 0, 6), b("vbne", 0, 0, 6)] {
        assert_eq!(Bench::new(2, &[word], 0).step(), 0);
    }
    // One lane is enough.
    let mut bench = Bench::new(2, &[b("vbeq", 1, 0, 6)], 0);
    bench.set_v(1, &[0, 1]);
    bench.refused(8);
    // JALR clears bit 0 first; the link is written after the source is read.
    let mut bench = Bench::new(1, &[i("jalr", 1, 1, 1)], 0);
    bench.warp.x[1] = CODE + 8;
    assert_eq!(bench.step(), 0);
    assert_eq!((bench.warp.pc, bench.warp.x[1]), (CODE + 8, CODE + 4));
}

#[test]
fn data_end() {
    for (name, size) in [("lb", 1), ("lbu", 1), ("lh", 2), ("lhu", 2), ("lw", 4)] {
        let mut bench = Bench::new(1, &[i(name, 0, 1, 0)], 8);
        bench.warp.x[1] = DATA + 8 - size + 1;
        bench.refused(9);
        bench.warp.x[1] = DATA - 1;
        bench.refused(9);
        bench.warp.x[1] = DATA + 8 - size;
        assert_eq!(bench.step(), 0);
    }
    for (name, size) in [("sb", 1), ("sh", 2), ("sw", 4)] {
        let mut bench = Bench::new(1, &[s(name, 1, 1, 0)], 8);
        bench.warp.x[1] = DATA + 8 - size + 1;
        bench.refused(9);
        bench.warp.x[1] = DATA + 8 - size;
        assert_eq!(bench.step(), 0);
    }
    // Data that ends with the space: no access goes round it.
    let mut l = launch(1);
    l.fixed.data_base = 0xffff_fff8;
    let mut bench = Bench::launched(&l, &[i("lw", 2, 1, 0)], 8);
    for address in [0xffff_fffd, 0xffff_ffff, 0] {
        bench.warp.x[1] = address;
        bench.refused(9);
    }
    bench.warp.x[1] = 0xffff_fffc;
    assert_eq!(bench.step(), 0);
    // No data at all.
    Bench::new(1, &[i("lb", 2, 0, 0)], 0).refused(9);
    // An inactive lane's address does not count.
    let mut bench = Bench::new(1, &[i("vlw12", 2, 1, 0)], 8);
    bench.set_v(1, &[DATA, 5]);
    assert_eq!(bench.step(), 0);
}

#[test]
fn loads_extend_and_stores_are_little_endian() {
    let kernel = [
        s("sw", 1, 2, 1),
        i("lb", 3, 1, 1),
        i("lbu", 4, 1, 1),
        i("lh", 5, 1, 1),
        i("lhu", 6, 1, 1),
        i("lw", 7, 1, 1),
        s("sh", 1, 2, 6),
        s("sb", 1, 2, 5),
    ];
    let mut bench = Bench::new(1, &kernel, 8);
    (bench.warp.x[1], bench.warp.x[2]) = (DATA, 0x8182_8384);
    assert_eq!(bench.run(8), (0, 8));
    assert_eq!(bench.data, [0, 0x84, 0x83, 0x82, 0x81, 0x84, 0x84, 0x83]);
    assert_eq!(bench.warp.x[3..8], [0xffff_ff84, 0x84, 0xffff_8384, 0x8384, 0x8182_8384]);
}

/// The plain stores of lanes and their sizes.
const STORES: [(&str, usize); 3] = [("vsb12", 1), ("vsh12", 2), ("vsw12", 4)];

/// NUMT lanes that store v2 at v1, twice.
fn store_bench(numt: u32, name: &str, at: &[u32], values: &[u32]) -> Bench {
    let mut bench = Bench::new(numt, &[s(name, 1, 2, 0); 2], 300);
    bench.set_v(1, at);
    bench.set_v(2, values);
    bench
}

#[test]
fn no_lane_wins_a_byte() {
    let at = [3, 2, 4, 0].map(|at| DATA + at);
    let values = [0x1111_1111, 0x2222_2222, 0x3333_3333, 0x4444_4444];
    store_bench(4, "vsw12", &at, &values).refused(15);
    let mut bench = store_bench(4, "vsw12", &at, &[0x4444_4444; 4]);
    assert_eq!(bench.step(), 0);
    assert_eq!(bench.data[..9], [0x44, 0x44, 0x44, 0x44, 0x44, 0x44, 0x44, 0x44, 0]);
}

/// Two lanes at every distance: each byte that they have in common decides, and no other.
#[test]
fn common_bytes_decide() {
    let image = [0x81, 0x92, 0xa3, 0xb4, 0xc5, 0xd6, 0xe7, 0xf8, 0x09, 0x1a, 0x2b, 0x3c];
    let value = |at: u32| u32::from_le_bytes(image[at as usize..][..4].try_into().unwrap());
    for (name, size) in STORES {
        for other in 0..=8 {
            let at = [4, other];
            let common = |n: usize| {
                let byte = other as usize + n;
                n < size && (4..4 + size).contains(&byte)
            };
            for changed in 0..4 {
                for bit in [0, 7] {
                    let values = [value(4), value(other) ^ 1 << (8 * changed + bit)];
                    let mut bench = store_bench(2, name, &at.map(|at| DATA + at), &values);
                    if common(changed) {
                        bench.refused(15);
                    } else {
                        assert_eq!(bench.step(), 0, "{name} at {other}, byte {changed}");
                    }
                    // The same with the lanes exchanged.
                    let at = [DATA + other, DATA + 4];
                    let code = store_bench(2, name, &at, &[values[1], values[0]]).step();
                    assert_eq!(code, if common(changed) { 15 } else { 0 });
                }
            }
            let mut bench =
                store_bench(2, name, &at.map(|at| DATA + at), &[value(4), value(other)]);
            assert_eq!(bench.step(), 0);
            for (n, byte) in bench.data.iter().enumerate().take(12) {
                let stored = at.iter().any(|at| (*at as usize..*at as usize + size).contains(&n));
                assert_eq!(*byte, if stored { image[n] } else { 0 }, "{name} at {other}, byte {n}");
            }
        }
    }
}

/// A byte store looks at one byte of its value, a half at two.
#[test]
fn bytes_that_are_not_stored_may_differ() {
    for (name, values, number) in [
        ("vsb12", [0x1234_5678, 0x8765_4378], 0),
        ("vsb12", [0x1234_5678, 0x1234_5679], 15),
        ("vsh12", [0x1234_5678, 0x8765_5678], 0),
        ("vsh12", [0x1234_5678, 0x1234_5778], 15),
        ("vsw12", [0x1234_5678, 0x1234_5678], 0),
        ("vsw12", [0x1234_5678, 0x9234_5678], 15),
    ] {
        assert_eq!(store_bench(2, name, &[DATA; 2], &values).step(), number, "{name}");
    }
}

/// Lanes far apart are compared as neighbours are, in whatever order the lanes lie.
#[test]
fn any_two_lanes_can_clash() {
    let orders: [fn(u32) -> u32; 3] = [|lane| lane, |lane| 31 - lane, |lane| 13 * lane % 32];
    for order in orders {
        for high in 1..32 {
            for low in 0..high {
                let mut at: Vec<u32> = (0..32).map(|lane| DATA + 8 * order(lane)).collect();
                let values: Vec<u32> = (1..33).map(|lane| 0x0101_0101 * lane).collect();
                assert_eq!(store_bench(32, "vsw12", &at, &values).step(), 0);
                for (from, to) in [(low, high), (high, low)] {
                    let own = at[to as usize];
                    at[to as usize] = at[from as usize] + 3;
                    store_bench(32, "vsw12", &at, &values).refused(15);
                    // One byte of it is the other's last.
                    let mut equal = values.clone();
                    equal[to as usize] &= !0xff;
                    equal[to as usize] |= values[from as usize] & 0xff;
                    assert_eq!(store_bench(32, "vsw12", &at, &equal).step(), 0);
                    at[to as usize] = own;
                }
            }
        }
    }
}

#[test]
fn outside_comes_before_a_clash() {
    for (name, _) in STORES {
        for outside in 0..4 {
            let mut at = [DATA; 4];
            at[outside] = DATA + 300;
            store_bench(4, name, &at, &[1, 2, 3, 4]).refused(9);
            at[outside] = DATA - 1;
            store_bench(4, name, &at, &[1, 2, 3, 4]).refused(9);
            at[outside] = DATA + 8;
            store_bench(4, name, &at, &[1, 2, 3, 4]).refused(15);
            // Two lanes outside, which would meet there, are outside.
            store_bench(4, name, &[DATA + 300; 4], &[1, 2, 3, 4]).refused(9);
        }
    }
}

#[test]
fn lanes_that_are_not_active_clash_with_none() {
    for (name, _) in STORES {
        let at = [DATA, DATA, DATA + 8, DATA + 8, DATA];
        let values = [1, 2, 3, 4, 5];
        let mut l = launch(4);
        for (mask, number) in [(0b0101, 0), (0b1010, 0), (0b0110, 0), (0b0111, 15), (0b1100, 15)] {
            l.fixed.mask = mask;
            let mut bench = Bench::launched(&l, &[s(name, 1, 2, 0)], 16);
            bench.set_v(1, &at);
            bench.set_v(2, &values);
            match number {
                0 => assert_eq!(bench.step(), 0),
                _ => bench.refused(number),
            }
        }
        // Lanes 1 and 3 parked in a split, then running; then the split is closed.
        let mut bench = store_bench(4, name, &at, &values);
        let (rpc, else_pc) = (CODE, CODE);
        bench.warp.splits[0] = Split { rpc, full: 15, else_mask: 10, else_pc, phase_two: false };
        (bench.warp.depth, bench.warp.mask) = (1, 5);
        assert_eq!(bench.step(), 0);
        assert_eq!((bench.data[0], bench.data[8]), (1, 3));
        (bench.warp.splits[0].phase_two, bench.warp.mask) = (true, 10);
        assert_eq!(bench.step(), 0);
        assert_eq!((bench.data[0], bench.data[8]), (2, 4));
        (bench.warp.splits[0], bench.warp.depth, bench.warp.mask) = (Split::default(), 0, 15);
        bench.warp.pc = CODE;
        bench.refused(15);
    }
}

#[test]
fn one_lane_alone_and_scalar_stores_never_clash() {
    for lane in 0..32 {
        let mut l = launch(32);
        l.fixed.mask = 1 << lane;
        let mut bench = Bench::launched(&l, &[s("vsw12", 1, 2, 0)], 4);
        bench.set_v(1, &[DATA; 32]);
        (0..32).for_each(|lane| bench.vector[64 + lane] = lane as u32);
        assert_eq!(bench.step(), 0);
        assert_eq!(bench.data, [lane as u8, 0, 0, 0]);
    }
    let kernel = ["sb", "sh", "sw"].map(|name| s(name, 1, 2, 0));
    let mut bench = Bench::new(32, &kernel, 4);
    (bench.warp.x[1], bench.warp.x[2]) = (DATA, 0x8182_8384);
    assert_eq!(bench.run(3), (0, 3));
    assert_eq!(bench.data, [0x84, 0x83, 0x82, 0x81]);
}

#[test]
fn loads_of_one_address_never_clash() {
    let plain = ["vlb12", "vlbu12", "vlh12", "vlhu12", "vlw12"].map(|name| i(name, 4, 1, 0));
    let mut bench = Bench::new(32, &plain, 8);
    bench.set_v(1, &[DATA + 1; 32]);
    (0..32).for_each(|lane| bench.vector[128 + lane] = lane as u32);
    assert_eq!(bench.run(5), (0, 5));
    // Into the register that the addresses are in.
    let mut bench = Bench::new(32, &[i("vlw12", 1, 1, 0)], 8);
    bench.set_v(1, &[DATA + 1; 32]);
    assert_eq!(bench.step(), 0);
}

/// The steps before a clash stay, and the prefix before the store is still pending.
#[test]
fn a_clash_ends_a_run_and_keeps_its_prefix() {
    let kernel = [
        v("vid.v", 2, 0, 0),
        s("vsb12", 1, 3, 0),
        table::regext(0, 0, 5), // xd, which a store has not
        s("vsw12", 1, 2, 0),
        ENDPRG,
    ];
    let mut bench = Bench::new(4, &kernel, 4);
    bench.set_v(1, &[DATA; 4]);
    bench.set_v(3, &[0x107, 7, 0x507, 7]);
    assert_eq!(bench.run(9), (15, 3));
    assert_eq!((bench.warp.pc, bench.warp.prefix), (CODE + 12, Prefix::RegExt(5)));
    assert_eq!(bench.data, [7, 0, 0, 0]);
    bench.refused(15);
    bench.set_v(2, &[9; 4]);
    assert_eq!(bench.run(9), (3, 2));
    assert_eq!((bench.data[0], bench.warp.prefix), (9, Prefix::None));
}

/// At both ends of the space.
#[test]
fn clashes_at_the_ends_of_the_space() {
    for base in [0, 0u32.wrapping_sub(8)] {
        let mut l = launch(2);
        l.fixed.data_base = base;
        let mut bench = Bench::launched(&l, &[s("vsw12", 1, 2, 0)], 8);
        bench.set_v(1, &[base + 4, base + 1]);
        bench.set_v(2, &[0x4433_2211, 0x8811_7766]);
        bench.refused(15);
        bench.set_v(2, &[0x4433_2211, 0x1188_7766]);
        assert_eq!(bench.step(), 0);
        assert_eq!(bench.data, [0, 0x66, 0x77, 0x88, 0x11, 0x22, 0x33, 0x44]);
        // What a store past the end would meet at the beginning is not there.
        bench.warp.pc = CODE;
        bench.set_v(1, &[base + 5, base]);
        bench.refused(9);
    }
}

/// Any lanes at any places of a few: clashing where some byte gets two values, and else each byte
/// gets its value.
#[test]
fn stores_by_the_byte() {
    let mut draw = any_words(0x0bad_cafe);
    let mut met = [0; 2];
    for n in 0..30_000 {
        let (name, size) = STORES[n % 3];
        let (numt, room) = (1 + draw() % 32, [2, 8, 40, 250][draw() as usize % 4]);
        let few = [1, 3, 0xff][draw() as usize % 3];
        let at: Vec<u32> = (0..numt).map(|_| draw() % room).collect();
        let values: Vec<u32> =
            (0..numt).map(|_| draw() & (0x0101_0101 * few) | 0x8000_0000).collect();
        let mut l = launch(numt);
        l.fixed.mask = draw() & l.fixed.mask | 1 << (draw() % numt);
        let mut bench = Bench::launched(&l, &[s(name, 1, 2, 0)], 256);
        bench.set_v(1, &at.iter().map(|at| DATA + at).collect::<Vec<_>>());
        bench.set_v(2, &values);
        let mut bytes = vec![None; 256];
        let mut clash = false;
        for lane in (0..numt as usize).filter(|lane| l.fixed.mask >> lane & 1 == 1) {
            for byte in 0..size {
                let value = values[lane].to_le_bytes()[byte];
                let place = &mut bytes[at[lane] as usize + byte];
                clash |= place.map_or(false, |other| other != value);
                *place = Some(value);
            }
        }
        met[usize::from(clash)] += 1;
        if clash {
            bench.refused(15);
        } else {
            assert_eq!(bench.step(), 0);
            assert!(bench.data.iter().zip(&bytes).all(|(is, byte)| *is == byte.unwrap_or(0)));
        }
    }
    assert!(met.iter().all(|times| *times > 3_000), "{met:?}");
}

/// The private accesses and their sizes.
const PRIVATE: [(&str, u32); 8] = [
    ("vlb.p", 1),
    ("vlbu.p", 1),
    ("vlh.p", 2),
    ("vlhu.p", 2),
    ("vlw.p", 4),
    ("vsb.p", 1),
    ("vsh.p", 2),
    ("vsw.p", 4),
];

/// A private access at v1 plus offset: a load into v4, or a store from v2.
fn private(name: &str, off: i32) -> u32 {
    if name.starts_with("vs") {
        s(name, 1, 2, off & 0x7ff)
    } else {
        i(name, 4, 1, off & 0x7ff)
    }
}

/// One private access, and a second of the same; lane l stores a0 + l in each byte.
fn private_bench(launch: &Launch, name: &str, off: i32, data: usize) -> Bench {
    let mut bench = Bench::launched(launch, &[private(name, off); 2], data);
    for lane in 0..32 {
        bench.vector[2 * 32 + lane] = 0x0101_0101 * (0xa0 + lane as u32);
    }
    bench
}

/// NUMT lanes, all active, with the private base.
fn private_launch(numt: u32, pds: u32) -> Launch {
    let mut l = launch(numt);
    l.fixed.pds = pds;
    l
}

#[test]
fn private_addresses() {
    let l = private_launch(4, DATA + 5);
    let mut bench = Bench::launched(&l, &[private("vsb.p", -3), private("vlb.p", -3)], 64);
    bench.set_v(1, &[3, 8, 13, 10]); // u: 0, 5, 10, 7
    bench.set_v(2, &[0x81, 0x82, 0x83, 0x84]);
    assert_eq!(bench.run(2), (0, 2));
    // PDS is 5: the word of u times 4, u mod 4, 4 times the lane
    for (lane, at) in [5, 5 + 16 + 1 + 4, 5 + 32 + 2 + 8, 5 + 16 + 3 + 12].into_iter().enumerate() {
        assert_eq!(bench.data[at], 0x81 + lane as u8);
        assert_eq!(bench.v(4, lane), 0xffff_ff81 + lane as u32);
    }
    assert_eq!(bench.data.iter().filter(|b| **b != 0).count(), 4);
}

/// 4 lanes, PDS 1000, u = 8, lane 1: 1024 (hexadecimal).
#[test]
fn private_worked_case() {
    let mut l = private_launch(4, 0x1000);
    (l.fixed.data_base, l.fixed.mask) = (0x1000, 2);
    let mut bench = private_bench(&l, "vsw.p", 0, 0x28);
    bench.set_v(1, &[0, 8]);
    assert_eq!(bench.step(), 0);
    assert_eq!(bench.data[0x24..], [0xa1; 4]);
    assert_eq!(bench.data[..0x24], [0; 0x24]);
}

#[test]
fn private_words_stand_side_by_side() {
    let l = private_launch(4, DATA);
    let mut bench = Bench::launched(&l, &[private("vsw.p", 0), private("vsw.p", 4)], 32);
    bench.set_v(2, &[10, 11, 12, 13]);
    assert_eq!(bench.step(), 0);
    bench.set_v(2, &[14, 15, 16, 17]);
    assert_eq!(bench.step(), 0);
    for word in 0..8 {
        assert_eq!(bench.data[4 * word..][..4], [10 + word as u8, 0, 0, 0]);
    }
}

#[test]
fn numt_enters_a_private_address_and_numw_and_wid_do_not() {
    for numt in 1..=32 {
        for (numw, wid) in [(1, 0), (2, 1), (3, 0), (32, 31)] {
            let mut l = private_launch(numt, DATA + 1);
            (l.fixed.numw, l.fixed.wid) = (numw, wid);
            let mut bench = private_bench(&l, "vsb.p", 3, 2000);
            bench.set_v(1, &[8; 32]);
            assert_eq!(bench.step(), 0);
            for lane in 0..numt {
                let at = 1 + 8 * numt + 3 + 4 * lane;
                assert_eq!(bench.data[at as usize], 0xa0 + lane as u8);
            }
            let stored = bench.data.iter().filter(|b| **b != 0).count();
            assert_eq!(stored, numt as usize);
        }
    }
}

#[test]
fn private_sums_and_addresses_wrap() {
    // (NUMT, PDS, v1, offset, place in the data, whose base is 0), of lane 0
    let cases = [
        (4, 32, 0, -4, 16),
        (4, 32, u32::MAX - 1, 6, 48),
        (4, 0u32.wrapping_sub(16), 4, 0, 0),
        (4, 0u32.wrapping_sub(16), 12, 4, 48),
        (32, 0, 1 << 27, 0, 0),
        (32, 0, 1 << 27, -1024, 0u32.wrapping_sub(32 * 1024)),
        (3, 4, 0x5555_5555, -1, 0),
        (1, 64, 1023, -1023, 64),
        (1, 0, 0u32.wrapping_sub(1020), 1020, 0),
    ];
    for (numt, pds, base, off, at) in cases {
        let mut l = private_launch(numt, pds);
        (l.fixed.data_base, l.fixed.mask) = (0, 1);
        let mut bench = private_bench(&l, "vsw.p", off, 80);
        bench.set_v(1, &[base]);
        if at < 80 {
            assert_eq!(bench.step(), 0);
            assert_eq!(bench.data[at as usize..][..4], [0xa0; 4]);
        } else {
            bench.refused(9);
        }
    }
}

/// Three times 5555_5554 is 4 below 2^32: lane by lane, the words fall on one place.
#[test]
fn private_words_meet_by_wrapping_alone() {
    for (name, size) in PRIVATE.into_iter().filter(|(name, _)| name.starts_with("vs")) {
        let sums = [0, 0x5555_5554, 0xaaaa_aaa8];
        let mut bench = private_bench(&private_launch(3, DATA), name, 0, 4);
        bench.set_v(1, &sums);
        bench.refused(15);
        bench.set_v(2, &[0xa2a2_a2a2; 3]);
        assert_eq!(bench.step(), 0);
        assert_eq!(bench.data[..size as usize], [0xa2; 4][..size as usize]);
        // One lane of the three is elsewhere, or not active.
        let mut l = private_launch(3, DATA);
        for lane in 0..3 {
            let mut bench = private_bench(&private_launch(3, DATA), name, 0, 64);
            bench.set_v(1, &sums);
            bench.vector[32 + lane] = 16;
            bench.refused(15);
            bench.vector[64 + (lane + 1) % 3] = bench.v(2, (lane + 2) % 3);
            assert_eq!(bench.step(), 0);
            l.fixed.mask = 1 << lane;
            let mut bench = private_bench(&l, name, 0, 4);
            bench.set_v(1, &sums);
            assert_eq!(bench.step(), 0);
        }
    }
}

/// Private bytes and halves in one word meet by their places in it.
#[test]
fn private_bytes_and_halves_meet_in_a_word() {
    let meet = |name: &str, places: [u32; 2], values: [u32; 2], number: u32| {
        // 5 times 9999_9998 is 8 below a multiple of 2^32: lane 2 is back at lane 0's word.
        let mut l = private_launch(5, DATA);
        l.fixed.mask = 0b101;
        let mut bench = Bench::launched(&l, &[private(name, 0)], 8);
        bench.set_v(1, &[places[0], 0, 0x9999_9998 + places[1]]);
        bench.set_v(2, &[values[0], 0, values[1]]);
        assert_eq!(bench.step(), number, "{name} at {places:?}");
        bench.data
    };
    for one in 0..4 {
        for other in 0..4 {
            meet("vsb.p", [one, other], [1, 2], if one == other { 15 } else { 0 });
            meet("vsb.p", [one, other], [1, 0x101], 0);
        }
    }
    for one in 0..3u32 {
        for other in 0..3u32 {
            let number = if one.abs_diff(other) < 2 { 15 } else { 0 };
            meet("vsh.p", [one, other], [0x0102, 0x0304], number);
        }
    }
    assert_eq!(meet("vsh.p", [0, 1], [0x2211, 0x3322], 0)[..4], [0x11, 0x22, 0x33, 0]);
    assert_eq!(meet("vsh.p", [2, 1], [0x3322, 0x2211], 0)[..4], [0, 0x11, 0x22, 0x33]);
    meet("vsh.p", [2, 1], [0x3322, 0x2311], 15);
}

/// Lanes 0 and 1 meet and differ; what lane 2 does is told first.
#[test]
fn crossing_and_outside_come_before_a_clash() {
    for (name, size) in PRIVATE.into_iter().filter(|(name, _)| name.starts_with("vs")) {
        for (sum, number) in [(0, 15), (5 - size, 14), (1 << 20, 9), ((1 << 20) + 5 - size, 14)] {
            let number = if size == 1 && number == 14 { 9 } else { number };
            // u of 4 is no crossing for a byte, and outside here.
            let mut bench = private_bench(&private_launch(3, DATA), name, 0, 12);
            bench.set_v(1, &[0, 0x5555_5554, sum]);
            bench.refused(number);
        }
    }
}

#[test]
fn crossing_edges() {
    for (name, size) in PRIVATE {
        // where in a word an access of the size may begin at last
        let last = match size {
            1 => 3,
            2 => 2,
            _ => 0,
        };
        for u in [0u32, 8, 1020, 0xffff_fff8] {
            for low in 0..4 {
                let mut l = private_launch(2, DATA.wrapping_sub(2 * u));
                l.fixed.mask = 1;
                let mut bench = private_bench(&l, name, 0, 8);
                bench.set_v(1, &[u + low]);
                if low > last {
                    bench.refused(14);
                } else {
                    assert_eq!(bench.step(), 0, "{name} {low}");
                }
            }
        }
    }
}

/// The sum decides, not the register or the offset.
#[test]
fn crossing_is_of_the_sum() {
    for (base, off, crosses) in [
        (3u32, -3, false),
        (4, -1, true),
        (0, -4, false),
        (0, -3, true),
        (1, -1021, false),
        (1023, 1, false),
        (0, 1023, true),
        (u32::MAX, 1, false),
        (u32::MAX - 2, 1023, false),
        (u32::MAX, -1024, true),
    ] {
        let sum = base.wrapping_add(off as u32);
        for name in ["vlw.p", "vsw.p"] {
            let mut bench = private_bench(&private_launch(1, DATA.wrapping_sub(sum)), name, off, 8);
            bench.set_v(1, &[base]);
            if crosses {
                bench.refused(14);
            } else {
                assert_eq!(bench.step(), 0, "{name} {base} {off}");
            }
        }
    }
}

#[test]
fn any_active_lane_that_crosses_is_enough() {
    for (name, size) in PRIVATE.into_iter().filter(|(_, size)| *size > 1) {
        for lane in 0..32 {
            let mut bench = private_bench(&private_launch(32, DATA), name, 4, 256);
            bench.set_v(1, &[0; 32]);
            bench.vector[32 + lane] = 5 - size;
            bench.refused(14);
            bench.vector[32 + lane] = 4 - size;
            assert_eq!(bench.step(), 0);
        }
        let mut bench = private_bench(&private_launch(32, DATA), name, 0, 256);
        bench.set_v(1, &[3; 32]);
        bench.refused(14);
    }
}

#[test]
fn lanes_that_are_not_active_may_cross() {
    for (name, _) in PRIVATE.into_iter().filter(|(_, size)| *size > 1) {
        let mut l = private_launch(4, DATA);
        l.fixed.mask = 0b0101;
        let mut bench = private_bench(&l, name, 0, 16);
        bench.set_v(1, &[0, 3, 0, 3, 3]);
        assert_eq!(bench.step(), 0);
        // Lane 2 parked in a split, then running and lane 0 parked.
        let (rpc, else_pc) = (CODE, CODE);
        bench.warp.splits[0] = Split { rpc, full: 5, else_mask: 4, else_pc, phase_two: false };
        (bench.warp.depth, bench.warp.mask, bench.warp.pc) = (1, 1, CODE);
        bench.set_v(1, &[0, 3, 3, 3]);
        assert_eq!(bench.step(), 0);
        (bench.warp.splits[0].phase_two, bench.warp.mask) = (true, 4);
        bench.refused(14);
        bench.set_v(1, &[3, 3, 0, 3]);
        assert_eq!(bench.step(), 0);
    }
}

#[test]
fn crossing_comes_before_outside() {
    const FAR: u32 = 1 << 20;
    for (name, size) in PRIVATE.into_iter().filter(|(_, size)| *size > 1) {
        let cross = 5 - size;
        for (sums, number) in [
            ([FAR + cross, 0, 0, 0], 14), // one lane, both
            ([0, 0, 0, FAR + cross], 14),
            ([FAR, 0, 0, cross], 14), // a lane outside, a later one crosses
            ([cross, 0, 0, FAR], 14),
            ([FAR, FAR, cross, FAR], 14),
            ([FAR + cross; 4], 14),
            ([FAR, 0, 0, 0], 9),
            ([0, 0, 0, FAR], 9),
            ([FAR; 4], 9),
        ] {
            let mut bench = private_bench(&private_launch(4, DATA), name, 0, 32);
            bench.set_v(1, &sums);
            bench.refused(number);
        }
        // No data at all, and a lane that is not active.
        let mut bench = private_bench(&private_launch(4, DATA), name, 0, 0);
        bench.set_v(1, &[0, 0, 0, 0, cross]);
        bench.refused(9);
        bench.set_v(1, &[0, 0, 0, cross]);
        bench.refused(14);
    }
}

#[test]
fn private_accesses_at_the_data_end() {
    for (name, size) in PRIVATE {
        // One lane at u = 4 - size, so that its access ends at PDS + 4.
        for (pds, data, number) in [
            (DATA, 4, 0),
            (DATA, 3, 9),
            (DATA - 4 + size, size as usize, 0),
            (DATA - 5 + size, size as usize, 9),
        ] {
            let mut bench = private_bench(&private_launch(1, pds), name, 0, data);
            bench.set_v(1, &[4 - size]);
            match number {
                0 => assert_eq!(bench.step(), 0, "{name}"),
                _ => bench.refused(number),
            }
        }
    }
}

#[test]
fn plain_accesses_never_cross() {
    for (word, at) in [
        (s("vsw12", 1, 2, 0), 1),
        (i("vlw12", 4, 1, 0), 3),
        (s("vsh12", 1, 2, 0), 3),
        (i("vlhu12", 4, 1, 0), 3),
        (i("lw", 4, 1, 0), 1),
        (s("sh", 1, 2, 0), 3),
    ] {
        let mut bench = Bench::new(2, &[word], 8);
        bench.warp.x[1] = DATA + at;
        bench.set_v(1, &[DATA + at; 2]);
        assert_eq!(bench.step(), 0);
        let mut bench = Bench::new(2, &[word], 8);
        bench.warp.x[1] = DATA - at;
        bench.set_v(1, &[DATA, DATA - at]);
        bench.refused(9);
    }
}

/// The private steps and the stores by lanes that crates/traces/specs/Worked.antt works out: lanes 0, 2 and 3 of 4, warp 1
/// of 2, data and private memory at 0x1000.
#[test]
fn worked_lane_steps() {
    const LOW: [u8; 16] = [
        0x7f, 0x80, 0x81, 0xff, 0x11, 0x22, 0x33, 0x84, 0x91, 0x92, 0x93, 0x94, 0x95, 0x96, 0x97,
        0x98,
    ];
    let mut l = private_launch(4, 0x1000);
    (l.fixed.numw, l.fixed.wid, l.fixed.mask, l.fixed.data_base) = (2, 1, 0xd, 0x1000);
    let worked = |word: u32, v1: [u32; 4], v2: [u32; 4]| {
        let mut bench = Bench::launched(&l, &[word], 32);
        bench.data[..16].copy_from_slice(&LOW);
        bench.set_v(1, &v1);
        bench.set_v(2, &v2);
        let number = bench.step();
        assert_eq!(bench.warp.pc, if number == 0 { CODE + 4 } else { CODE });
        assert_eq!(bench.data[..16], LOW);
        let v2 = [0, 1, 2, 3].map(|lane| bench.v(2, lane));
        (number, v2, bench.data[16..].to_vec())
    };
    let nines = [9; 4];
    let words = [0xa1a2_a3a4, 0xb1b2_b3b4, 0xc1c2_c3c4, 0xd1d2_d3d4];
    let zeros = vec![0; 16];

    let loaded = [0xffff_ff80, 9, 0xffff_ff91, 0xffff_ff98];
    assert_eq!(worked(0x7ff0_812b, [2, 7, 1, 4], nines), (0, loaded, zeros.clone()));
    let bytes = vec![0xa4, 0, 0, 0, 0, 0, 0, 0, 0, 0, 0xc4, 0, 0, 0, 0, 0xd4];
    assert_eq!(worked(0x7e20_ffab, [5, 5, 7, 8], words), (0, words, bytes));
    let side = [words[0], 0, words[2], words[3]].map(u32::to_le_bytes).concat();
    assert_eq!(worked(0x0020_e02b, [4, 5, 4, 4], words), (0, words, side));

    assert_eq!(worked(0x0020_e02b, [4, 4, 4, 5], words), (14, words, zeros.clone()));
    assert_eq!(worked(0x0000_912b, [2, 2, 2, 3], nines), (14, nines, zeros.clone()));
    assert_eq!(worked(0x0020_e02b, [5, 4, 400, 4], words), (14, words, zeros.clone()));
    assert_eq!(worked(0x0020_e02b, [4, 4, 400, 4], words), (9, words, zeros.clone()));

    let padded = |bytes: &[u8]| [bytes, &vec![0; 16 - bytes.len()]].concat();
    let bytes = padded(&[0, 0xc4, 0xa4, 0, 0, 0xd4]);
    assert_eq!(worked(0x0020_f87b, [0x1002, 0, 0x1001, 0x1005], words), (0, words, bytes));
    let halves = padded(&[0, 0xc4, 0xc3, 0xa4, 0xa3, 0xd4, 0xd3]);
    assert_eq!(worked(0x0020_b87b, [0x1003, 0, 0x1001, 0x1005], words), (0, words, halves));
    let three = [words[2], words[3], words[0]].map(u32::to_le_bytes).concat();
    let side = padded(&[&[0], &three[..]].concat());
    assert_eq!(worked(0x0020_e87b, [0x1009, 0, 0x1001, 0x1005], words), (0, words, side));

    let clash = |word, v1| assert_eq!(worked(word, v1, words), (15, words, zeros.clone()));
    clash(0x0020_f87b, [0x1001, 0, 0x1002, 0x1001]);
    clash(0x0020_b87b, [0x1002, 0, 0x1001, 0x1005]);
    clash(0x0020_e87b, [0x1001, 0, 0x1002, 0x1008]);
    assert_eq!(worked(0x0020_b87b, [0x1002, 0, 0x1001, 0x100f], words), (9, words, zeros));
    let alike = [0x5555_5555, words[1], 0x6655_5555, 0x7788_6655];
    let met = padded(&[0, 0x55, 0x55, 0x55, 0x55, 0x66, 0x88, 0x77]);
    assert_eq!(worked(0x0020_e87b, [0x1001, 0x1001, 0x1002, 0x1004], alike), (0, alike, met));
}

#[test]
fn setrpc_writes_both() {
    let mut bench = Bench::new(1, &[i("setrpc", 5, 5, -1), i("setrpc", 0, 0, 7)], 0);
    assert_eq!(bench.run(1), (0, 1));
    assert_eq!((bench.warp.x[5], bench.warp.rpc), (u32::MAX, u32::MAX));
    assert_eq!(bench.run(1), (0, 1));
    assert_eq!((bench.warp.x[0], bench.warp.rpc), (0, 7));
}

#[test]
fn x0_stays_zero() {
    for word in [i("addi", 0, 0, 5), i("jalr", 0, 0, 0), variant("lui") | 1 << 12, j(0, 4)] {
        let mut bench = Bench::new(1, &[word], 0);
        assert_eq!(bench.step(), 0);
        assert_eq!(bench.warp.x[0], 0);
    }
}

/// The answer to a launch with runs of these lengths. A refused one leaves the
/// vector file, and a run over the same lengths is refused alike.
fn try_launch(l: &Launch, kernel: usize, vector: usize, data: usize) -> u32 {
    let (nops, mut v, mut d) = (vec![0x13; kernel], vec![5; vector], vec![0; data]);
    let (code, warp) = run::launch(l, &nops, &mut v, &d);
    if code != 0 {
        assert_eq!(warp, Warp::default());
        assert!(v.iter().all(|w| *w == 5));
    }
    let mut warp = Warp::launched(l);
    let before = warp.clone();
    let answer = run::run(&mut warp, &nops, &mut v, &mut d, 0);
    if l.in_range() {
        assert_eq!(answer, (code, 0));
    }
    assert_eq!(warp, before);
    code
}

const VECTOR: usize = 8_192;

#[test]
fn run_sizes() {
    let l = launch(4);
    assert_eq!(try_launch(&l, 1, VECTOR, 0), 0);
    assert_eq!(try_launch(&l, 16_384, VECTOR, 65_536), 0);
    for (kernel, vector, data) in [
        (0, VECTOR, 0),
        (16_385, VECTOR, 0),
        (1, 8191, 0),
        (1, 8193, 0),
        (1, 8224, 0),
        (1, 1024, 0),
        (1, 0, 0),
        (1, VECTOR, 65_537),
    ] {
        assert_eq!(try_launch(&l, kernel, vector, data), 1);
    }
}

#[test]
fn runs_at_the_end_of_the_space() {
    let mut l = launch(4);
    l.fixed.code_base = 0xffff_fff8;
    assert_eq!(try_launch(&l, 2, VECTOR, 0), 0);
    assert_eq!(try_launch(&l, 3, VECTOR, 0), 1);
    let mut l = launch(4);
    l.fixed.data_base = 0xffff_ffff;
    assert_eq!(try_launch(&l, 1, VECTOR, 1), 0);
    assert_eq!(try_launch(&l, 1, VECTOR, 2), 1);
}

#[test]
fn launch_values_out_of_range() {
    let bad: [&dyn Fn(&mut Launch); 9] = [
        &|l| l.fixed.numt = 0,
        &|l| l.fixed.numt = 33,
        &|l| l.fixed.numw = 0,
        &|l| l.fixed.numw = 33,
        &|l| l.fixed.wid = 1,
        &|l| l.fixed.mask = 0,
        &|l| l.fixed.mask = 0x10,
        &|l| l.fixed.code_base += 2,
        &|l| l.entry += 1,
    ];
    for change in bad {
        let mut l = launch(4);
        change(&mut l);
        assert_eq!(try_launch(&l, 1, VECTOR, 0), 1);
        assert_eq!(code(card::write(&l, &mut [0; 50])), 1);
    }
}

/// A state with two open splits, the first in phase two.
fn split_state() -> Warp {
    let mut warp = Warp::launched(&launch(8));
    warp.splits[0] = Split { rpc: 3, full: 0xff, else_mask: 0xf0, else_pc: CODE, phase_two: true };
    warp.splits[1] =
        Split { rpc: 9, full: 0xf0, else_mask: 0x30, else_pc: CODE + 4, phase_two: false };
    warp.depth = 2;
    warp.mask = 0xc0;
    warp
}

#[test]
fn well_formed_states() {
    assert!(Warp::launched(&launch(8)).well_formed());
    assert!(split_state().well_formed());
    assert!(!Warp::default().well_formed());
    let bad: [&dyn Fn(&mut Warp); 29] = [
        &|w| w.fixed.numt = 0,
        &|w| w.fixed.numt = 33,
        &|w| w.fixed.numt = 7,
        &|w| w.fixed.numw = 0,
        &|w| w.fixed.numw = 33,
        &|w| w.fixed.wid = 1,
        &|w| w.fixed.mask = 0,
        &|w| w.fixed.mask = 0x7f,
        &|w| w.fixed.code_base += 2,
        &|w| w.pc += 2,
        &|w| w.x[0] = 1,
        &|w| w.depth = 32,
        &|w| w.depth = 1,
        &|w| w.depth = 3,
        &|w| w.splits[2].rpc = 1,
        &|w| w.splits[30].phase_two = true,
        &|w| (w.ended, w.waiting) = (true, true),
        &|w| w.ended = true,
        &|w| w.waiting = true,
        &|w| w.splits[0].else_mask = 0,
        &|w| w.splits[0].else_mask = 0xff,
        &|w| w.splits[1].else_mask = 0x31,
        &|w| w.splits[1].else_pc += 1,
        &|w| w.splits[0].phase_two = false,
        &|w| w.splits[1].phase_two = true,
        &|w| w.mask = 0xf0,
        &|w| w.prefix = Prefix::RegExt(4096),
        &|w| w.prefix = Prefix::RegExtI(4096),
        &|w| w.prefix = Prefix::RegExt(u32::MAX),
    ];
    for (n, change) in bad.iter().enumerate() {
        let mut warp = split_state();
        change(&mut warp);
        assert!(!warp.well_formed(), "{n}");
        let before = warp.clone();
        let mut vector = vec![0; run::VECTOR_WORDS];
        assert_eq!(run::run(&mut warp, &[0x13], &mut vector, &mut [], 0), (2, 0));
        assert_eq!(run::run(&mut warp, &[0x13], &mut vector, &mut [], 5), (2, 0));
        assert_eq!(run::run(&mut warp, &[], &mut vector, &mut [], 5), (1, 0));
        assert_eq!(code(run::release(&mut warp)), 2);
        assert_eq!(warp, before);
    }
}

#[test]
fn cards() {
    let mut l = launch(7);
    (l.fixed.numw, l.fixed.wid) = (32, 31);
    (l.fixed.knl, l.fixed.wgid, l.fixed.lds, l.fixed.pds) = (1, 2, 3, 4);
    (l.fixed.gidx, l.fixed.gidy, l.fixed.gidz) = (5, 6, 0x0102_0304);
    let mut bytes = [0; 50];
    assert_eq!(code(card::write(&l, &mut bytes)), 0);
    assert_eq!(&bytes[..10], &[0, 48, 1, 7, 32, 31, 0, 0, 0, 0x7f]);
    assert_eq!(&bytes[46..], &[1, 2, 3, 4]);
    assert_eq!(card::read(&bytes), Ok(l));
    let number = |bytes: &[u8]| code(card::read(bytes).map(|_| ()));
    assert_eq!(number(&bytes[..49]), 13);
    assert_eq!(number(&[]), 13);
    assert_eq!(number(&[&bytes[..], &[0]].concat()), 13);
    for (at, value, refusal) in [
        (0, 1, 13),
        (1, 49, 13),
        (1, 50, 13),
        (2, 0, 13),
        (2, 2, 13),
        (3, 0, 1),
        (3, 33, 1),
        (3, 6, 1), // the mask has bit 6
        (4, 0, 1),
        (4, 31, 1), // WID is 31
        (4, 33, 1),
        (5, 32, 1),
        (9, 0, 1),
        (9, 0x80, 1),
        (13, 2, 1),
        (21, 1, 1),
        (17, 1, 0), // a data base is free
    ] {
        let mut bad = bytes;
        bad[at] = value;
        assert_eq!(number(&bad), refusal, "{at} {value}");
        // Malformed comes before out of range.
        bad[2] = 9;
        assert_eq!(number(&bad), 13);
    }
    let mut short = [1; 49];
    assert_eq!(code(card::write(&l, &mut short)), 1);
    assert_eq!(short, [1; 49]);
    assert_eq!(code(card::write(&l, &mut [0; 51])), 1);
}

#[test]
fn saved_states() {
    let mut warp = split_state();
    (warp.x[31], warp.x[63]) = (7, 8);
    (warp.rpc, warp.print) = (11, 12);
    warp.prefix = Prefix::RegExtI(0xabc);
    let words = saved::to_words(&warp);
    assert_eq!(saved::from_words(&words), Ok(warp));
    assert_eq!((words[31], words[63]), (7, 8));
    assert_eq!(words[64..69], [3, 0xff, 0xf0, CODE, 1]);
    assert_eq!(words[219..228], [2, CODE, 0xc0, 11, 12, 0, 0, 2, 0xabc]);
    assert_eq!(words[228..234], [8, 1, 0, 0xff, CODE, DATA]);
    let mut vector = vec![0; run::VECTOR_WORDS];
    let mut number = |words: &[u32], kernel: &[u32]| {
        let mut state = words.to_vec();
        let answer = saved::run(&mut state, kernel, &mut vector, &mut [], 0);
        assert_eq!(state, words);
        answer
    };
    let nop = [0x13];
    assert_eq!(number(&words, &nop), (0, 0));
    assert_eq!(number(&words[..240], &nop), (1, 0));
    assert_eq!(number(&[&words[..], &[0]].concat(), &nop), (1, 0));
    for (at, value) in [
        (68, 2),
        (73, 7),
        (218, 2),
        (219, 32),
        (219, u32::MAX),
        (224, 2),
        (225, 3),
        (226, 0), // bits without a kind
        (226, 3),
        (227, 4096),
        (232, CODE + 1),
    ] {
        let mut bad = words;
        bad[at] = value;
        assert_eq!(number(&bad, &nop), (2, 0), "{at}");
        assert_eq!(number(&bad, &[]), (1, 0), "{at}");
        assert_eq!(saved::release(&mut bad), 2);
    }
    let mut waiting = saved::to_words(&Warp { waiting: true, ..Warp::launched(&launch(2)) });
    assert_eq!(saved::release(&mut waiting), 0);
    assert_eq!(waiting[225], 0);
    assert_eq!(saved::release(&mut waiting), 12);
    assert_eq!(saved::release(&mut [0; 240]), 1);
}

#[test]
fn a_run_equals_its_steps() {
    let kernel = trip_loop();
    let mut stepped = Bench::new(9, &kernel, 0);
    for n in 0..60 {
        let mut whole = Bench::new(9, &kernel, 0);
        let (code, steps) = whole.run(n);
        if code == 0 {
            assert_eq!(steps, n);
        }
        assert_eq!((&whole.warp, &whole.vector), (&stepped.warp, &stepped.vector));
        stepped.step();
    }
}
