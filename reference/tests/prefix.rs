//! Register extension: what each digit goes on, what it doesn't, and what becomes of a prefix.

mod common;

use common::*;
use reference::isa::{decode, decode_after, CsrSrc, Insn, Prefix, VOp, VSrc, ENDPRG, JOIN, V, X};
use reference::state::{Split, Warp};
use reference::table::{self, File, Variant};
use reference::{code, run, saved};

/// REGEXT with digits x3, x2, x1, xd.
fn ext(x3: u32, x2: u32, x1: u32, xd: u32) -> u32 {
    0b010 << 12 | 0b000_1011 | (x3 << 9 | x2 << 6 | x1 << 3 | xd) << 20
}

/// REGEXTI with six bits of an immediate and digits x2, xd.
fn ext_i(imm: u32, x2: u32, xd: u32) -> u32 {
    0b011 << 12 | 0b000_1011 | (imm << 6 | x2 << 3 | xd) << 20
}

const NOP: u32 = 0x13;
const BARRIER: u32 = 0x0400_400b;

/// A prefix and a word, to be taken in two steps.
fn two(prefix: u32, word: u32) -> Bench {
    Bench::new(2, &[prefix, word, NOP], 16)
}

/// Takes the prefix and the word behind it.
fn both_taken(bench: &mut Bench) {
    assert_eq!(bench.step(), 0);
    assert_ne!(bench.warp.prefix, Prefix::None);
    assert_eq!(bench.step(), 0);
    assert_eq!(bench.warp.prefix, Prefix::None);
}

/// Takes the prefix; the word behind it is refused, twice, and changes nothing.
fn second_refused(mut bench: Bench, number: u32) {
    assert_eq!(bench.step(), 0);
    let pending = bench.warp.prefix;
    assert_ne!(pending, Prefix::None);
    bench.refused(number);
    bench.refused(number);
    assert_eq!(bench.warp.prefix, pending);
}

#[test]
fn codes() {
    assert_eq!(ext(0, 0, 0, 0), 0x0000_200b);
    assert_eq!(ext_i(0, 0, 0), 0x0000_300b);
    assert_eq!(decode(0xabc0_200b), Some(Insn::RegExt(0xabc)));
    assert_eq!(decode(0xfff0_300b), Some(Insn::RegExtI(0xfff)));
    assert_eq!(ext(5, 2, 7, 4), 0xabc0_200b); // 101 010 111 100
    assert_eq!(ext_i(0b101010, 7, 4), 0xabc0_300b);
    for bit in (7..12).chain(15..20) {
        for word in [0x0000_200b, 0xfff0_300b] {
            assert_eq!(decode(word | 1 << bit), None);
            Bench::new(1, &[word | 1 << bit], 0).refused(6);
        }
    }
}

#[test]
fn a_prefix_is_a_step_and_is_pending() {
    for (word, prefix) in
        [(ext(1, 2, 3, 4), Prefix::RegExt(0x29c)), (ext_i(9, 3, 5), Prefix::RegExtI(0x25d))]
    {
        let mut bench = Bench::new(3, &[word], 0);
        let before = bench.warp.clone();
        assert_eq!(before.prefix, Prefix::None);
        assert_eq!(bench.run(5), (5, 1)); // no word after it
        assert_eq!(bench.warp, Warp { pc: CODE + 4, prefix, ..before });
        assert!(bench.warp.well_formed());
        assert!(bench.vector.iter().all(|word| *word == 0));
    }
}

/// v100 is 3·32 + 4, x40 is 32 + 8.
#[test]
fn v100_and_x40() {
    let kernel = [
        ext(0, 0, 0, 3),
        v("vid.v", 4, 0, 17), // v100: the lane
        ext(0, 0, 0, 1),
        i("addi", 8, 0, 600), // x40
        ext(0, 3, 1, 3),
        v("vadd.vx", 5, 4, 8), // v101 = v100 + x40
        ext_i(12, 3, 3),
        v("vadd.vi", 6, 5, 16), // v102 = v101 + 12·32 + 16
        ext(0, 3, 3, 7),
        v("vsub.vv", 31, 6, 4), // v255 = v102 - v100
        ext(0, 1, 1, 1),
        r("add", 31, 8, 8), // x63 = x40 + x40
    ];
    let mut bench = Bench::new(4, &kernel, 0);
    assert_eq!(bench.run(12), (0, 12));
    for lane in 0..4u32 {
        let of = |register: usize| bench.vector[register * 32 + lane as usize];
        assert_eq!([100, 101, 102, 255].map(of), [lane, 600 + lane, 1000 + lane, 1000]);
    }
    assert_eq!((bench.warp.x[40], bench.warp.x[63]), (600, 1200));
    assert_eq!(bench.vector.iter().filter(|word| **word != 0).count(), 3 + 4 + 4 + 4);
    assert_eq!(bench.warp.x.iter().filter(|word| **word != 0).count(), 2);
}

/// Each digit on its own field, of scalar and of vector registers.
#[test]
fn each_digit_on_its_field() {
    let sub = r("sub", 1, 2, 3);
    for (prefix, d, a, b) in [
        (ext(0, 0, 0, 0), 1, 2, 3),
        (ext(0, 0, 0, 1), 33, 2, 3),
        (ext(0, 0, 1, 0), 1, 34, 3),
        (ext(0, 1, 0, 0), 1, 2, 35),
        (ext(7, 1, 1, 1), 33, 34, 35),
    ] {
        let mut bench = two(prefix, sub);
        for n in 1..64 {
            bench.warp.x[n] = 1000 * n as u32 * n as u32;
        }
        both_taken(&mut bench);
        assert_eq!(bench.warp.x[d], 1000 * (a * a) - 1000 * (b * b), "{prefix:08x}");
    }
    let vsub = v("vsub.vv", 1, 2, 3); // vs2 less vs1
    for (x2, x1, xd) in [(0, 0, 0), (0, 0, 7), (0, 5, 0), (6, 0, 0), (1, 2, 3), (7, 7, 7)] {
        let mut bench = two(ext(3, x2, x1, xd), vsub);
        for n in 0..256 {
            bench.vector[n * 32 + 1] = (n * n) as u32;
        }
        both_taken(&mut bench);
        let (a, b) = (32 * x2 + 2, 32 * x1 + 3);
        let result = (a * a).wrapping_sub(b * b);
        assert_eq!(bench.v((32 * xd + 1) as usize, 1), result, "{x2} {x1} {xd}");
    }
}

/// Of every word the digits go on its registers and on nothing else: the decoded numbers are
/// digit·32 + field, and of words without such a field the instruction is that of the word alone.
#[test]
fn every_word_behind_regext() {
    let mut draw = any_words(0x2545_f491);
    for v in table::variants() {
        for _ in 0..500 {
            let (word, bits) = (v.fixed | draw() & v.free, draw() & 0xfff);
            let alone = decode(word);
            assert_eq!(alone.is_some(), v.has(word), "{} alone", v.name);
            let fields = [word >> 7 & 31, word >> 15 & 31, word >> 20 & 31];
            let digits = [bits & 7, bits >> 3 & 7, bits >> 6 & 7];
            let mut too_high = false;
            for ((file, field), digit) in v.registers().into_iter().zip(fields).zip(digits) {
                too_high |= file == Some(File::X) && 32 * digit + field > 63;
            }
            let into_v0 = v.spares_v0() && 32 * digits[0] + fields[0] == 0;
            let taken = v.takes_regext() && !too_high && !into_v0;
            let behind = decode_after(Prefix::RegExt(bits), word);
            assert_eq!(behind.is_some(), taken, "{} {bits:03x}", v.name);
            if let Some(insn) = behind {
                let on = registers(&v, &insn);
                for (n, number) in on.into_iter().enumerate() {
                    let meant = v.registers()[n].map(|_| 32 * digits[n] + fields[n]);
                    assert_eq!(number, meant, "{} field {n}", v.name);
                }
            }
            if v.registers() == [None; 3] && v.takes_regext() {
                assert_eq!(behind, alone);
            }
            let behind_i = decode_after(Prefix::RegExtI(bits), word);
            assert_eq!(behind_i.is_some(), v.is_vi() && !into_v0, "{}", v.name);
            assert_eq!(decode_after(Prefix::None, word), alone);
        }
    }
}

/// The numbers of the registers at rd, rs1 and rs2, where there are any.
fn registers(v: &Variant, insn: &Insn) -> [Option<u32>; 3] {
    let x = |register: X| Some(register.index() as u32);
    let y = |register: V| Some(register.index() as u32);
    match *insn {
        Insn::Lui { rd, .. } | Insn::Auipc { rd, .. } | Insn::Jal { rd, .. } => [x(rd), None, None],
        Insn::Jalr { rd, rs1, .. }
        | Insn::Load { rd, rs1, .. }
        | Insn::AluImm { rd, rs1, .. }
        | Insn::SetRpc { rd, rs1, .. } => [x(rd), x(rs1), None],
        Insn::Branch { rs1, rs2, .. } | Insn::Store { rs1, rs2, .. } => [None, x(rs1), x(rs2)],
        Insn::Alu { rd, rs1, rs2, .. } => [x(rd), x(rs1), x(rs2)],
        Insn::Csr { rd, src: CsrSrc::X(rs1), .. } => [x(rd), x(rs1), None],
        Insn::Csr { rd, .. } => [x(rd), None, None],
        Insn::Vec { op, vd, vs2, src, .. } => {
            let source = match src {
                VSrc::V(vs1) => y(vs1),
                VSrc::X(rs1) => x(rs1),
                VSrc::I(_) => None,
            };
            [y(vd), source, if op == VOp::Mv { None } else { y(vs2) }]
        }
        Insn::VmvSX { vd, rs1 } => [y(vd), x(rs1), None],
        Insn::VmvXS { rd, vs2 } => [x(rd), None, y(vs2)],
        Insn::Vid { vd, .. } => [y(vd), None, None],
        Insn::Vload { vd, vs1, .. } => [y(vd), y(vs1), None],
        Insn::Vstore { vs1, vs2, .. } => [None, y(vs1), y(vs2)],
        Insn::Fence => [None; 3],
        _ => panic!("{} takes no prefix", v.name),
    }
}

/// Words whose result shows that digits 7 on fields that are no registers are ignored.
#[test]
fn digits_for_no_register_are_ignored() {
    let all = |xd, x1, x2| ext(7, x2, x1, xd);
    // Into x1 and v1, from x2 = 20, v2 = 30, x3 = DATA.
    let words = [
        (all(0, 7, 7), variant("lui") | 1 << 7 | 5 << 12, 5 << 12),
        (all(0, 7, 7), variant("auipc") | 1 << 7, CODE + 4),
        (all(0, 7, 7), j(1, 4), CODE + 8),
        (all(0, 0, 7), i("jalr", 1, 4, 8), CODE + 8),
        (all(0, 0, 7), i("addi", 1, 2, -1), 19),
        (all(0, 0, 7), i("slli", 1, 2, 3), 160),
        (all(0, 0, 7), i("lw", 1, 3, 4), 0x0403_0201),
        (all(0, 0, 7), i("csrrs", 1, 0, 0x802), 2),
        (all(0, 7, 7), i("csrrsi", 1, 0, 0x802), 2),
        (all(0, 7, 7), i("csrrwi", 1, 9, 0x80b), 77),
        (all(0, 0, 7), i("setrpc", 1, 2, 2), 22),
    ];
    for (prefix, word, result) in words {
        let mut bench = two(prefix, word);
        (bench.warp.x[2], bench.warp.x[3], bench.warp.x[4]) = (20, DATA, CODE);
        bench.warp.print = 77;
        bench.data[4..8].copy_from_slice(&[1, 2, 3, 4]);
        both_taken(&mut bench);
        assert_eq!(bench.warp.x[1], result, "{word:08x}");
    }
    let lanes = [
        (all(0, 7, 0), v("vadd.vi", 1, 2, 31), 29),
        (all(0, 7, 0), v("vsll.vi", 1, 2, 31), 0),
        (all(0, 0, 7), v("vmv.vv", 1, 0, 2), 30),
        (all(0, 0, 7), v("vmv.vx", 1, 0, 2), 20),
        (all(0, 7, 7), v("vmv.vi", 1, 0, 31), u32::MAX),
        (all(0, 0, 7), v("vmv.s.x", 1, 0, 2), 20),
        (all(0, 7, 7), v("vid.v", 1, 0, 17), 1),
        (all(0, 0, 7), i("vlw12", 1, 3, 4), 0x0403_0201),
    ];
    for (prefix, word, result) in lanes {
        let mut bench = two(prefix, word);
        bench.warp.x[2] = 20;
        bench.set_v(2, &[30, 30]);
        bench.set_v(3, &[DATA, DATA]);
        bench.data[4..8].copy_from_slice(&[1, 2, 3, 4]);
        both_taken(&mut bench);
        assert_eq!(bench.v(1, 1), result, "{word:08x}");
    }
    // vmv.x.s has no vs1, stores and branches no rd, FENCE no register at all.
    let mut bench = two(all(0, 7, 0), r("vmv.x.s", 1, 0, 2));
    bench.set_v(2, &[30, 30]);
    both_taken(&mut bench);
    assert_eq!(bench.warp.x[1], 30);
    for word in [s("sw", 3, 2, 0), s("vsw12", 3, 2, 0)] {
        let mut bench = two(all(7, 0, 0), word);
        (bench.warp.x[2], bench.warp.x[3]) = (0x0102_0304, DATA);
        bench.set_v(2, &[0x0102_0304; 2]);
        bench.set_v(3, &[DATA; 2]);
        both_taken(&mut bench);
        assert_eq!(bench.data[..4], [4, 3, 2, 1]);
    }
    let mut bench = two(all(7, 0, 0), b("beq", 2, 3, 8));
    both_taken(&mut bench);
    assert_eq!(bench.warp.pc, CODE + 12);
    let mut bench = two(all(7, 7, 7), 0xffff_8f8f);
    both_taken(&mut bench);
    assert_eq!(bench.warp.pc, CODE + 8);
}

/// Loads, stores and private accesses at and from high registers.
#[test]
fn accesses_at_high_registers() {
    let kernel = [
        ext(0, 7, 7, 0),
        s("vsw12", 30, 31, 4), // v255 at v254 + 4
        ext(0, 0, 7, 6),
        i("vlw12", 1, 30, 4), // into v193
        ext(0, 1, 1, 0),
        s("sw", 31, 30, 0), // x62 at x63
        ext(0, 0, 1, 1),
        i("lhu", 29, 31, 2), // into x61
        ext(0, 7, 2, 0),
        s("vsb.p", 0, 31, 3), // v255 at v64 + 3
    ];
    let mut l = launch(2);
    l.fixed.pds = DATA + 16;
    let mut bench = Bench::launched(&l, &kernel, 24);
    bench.set_v(254, &[DATA, DATA + 4]);
    bench.set_v(255, &[0x1111_1111, 0x2222_2222]);
    (bench.warp.x[62], bench.warp.x[63]) = (0x8765_4321, DATA);
    assert_eq!(bench.run(10), (0, 10));
    assert_eq!((bench.v(193, 0), bench.v(193, 1)), (0x1111_1111, 0x2222_2222));
    assert_eq!(bench.warp.x[61], 0x8765);
    let (low, high) = ([0x21, 0x43, 0x65, 0x87], [0x11; 4]);
    assert_eq!(bench.data[..8], [low, high].concat());
    assert_eq!(bench.data[16..], [0, 0, 0, 0x11, 0, 0, 0, 0x22]);
}

#[test]
fn there_is_no_x64() {
    for digit in 2..8 {
        for field in [0, 31] {
            // As a result, as the first source and as the second.
            for (prefix, word) in [
                (ext(0, 0, 0, digit), r("add", field, 1, 1)),
                (ext(0, 0, digit, 0), r("add", 1, field, 1)),
                (ext(0, digit, 0, 0), r("add", 1, 1, field)),
                (ext(0, 0, 0, digit), variant("lui") | field << 7),
                (ext(0, 0, 0, digit), j(field, 4)),
                (ext(0, 0, digit, 0), i("jalr", 1, field, 0)),
                (ext(0, 0, digit, 0), b("bne", field, 1, 4)),
                (ext(0, digit, 0, 0), b("bne", 1, field, 4)),
                (ext(0, 0, digit, 0), i("lw", 1, field, 0)),
                (ext(0, digit, 0, 0), s("sw", 1, field, 0)),
                (ext(0, 0, digit, 0), i("csrrs", 1, field, 0x800)),
                (ext(0, 0, 0, digit), i("csrrci", field, 0, 0x900)),
                (ext(0, 0, digit, 0), i("setrpc", 1, field, 0)),
                (ext(0, 0, digit, 0), v("vadd.vx", 1, 1, field)),
                (ext(0, 0, digit, 0), v("vmv.vx", 1, 0, field)),
                (ext(0, 0, digit, 0), v("vmv.s.x", 1, 0, field)),
                (ext(0, 0, 0, digit), r("vmv.x.s", field, 0, 1)),
            ] {
                second_refused(two(prefix, word), 6);
            }
        }
    }
    // x63 is there.
    let mut bench = two(ext(0, 1, 1, 1), r("add", 31, 31, 31));
    bench.warp.x[63] = 21;
    both_taken(&mut bench);
    assert_eq!(bench.warp.x[63], 42);
}

#[test]
fn x32_is_not_x0() {
    let mut bench = two(ext(0, 0, 0, 1), i("addi", 0, 0, 5));
    both_taken(&mut bench);
    assert_eq!((bench.warp.x[0], bench.warp.x[32]), (0, 5));
    let mut bench = two(ext(0, 0, 1, 0), i("addi", 1, 0, 5));
    bench.warp.x[32] = 100;
    both_taken(&mut bench);
    assert_eq!(bench.warp.x[1], 105);
    let mut bench = two(ext(0, 1, 1, 0), i("addi", 0, 0, 5));
    both_taken(&mut bench);
    assert_eq!((bench.warp.x[0], bench.warp.x[32]), (0, 0));
    assert!(saved::from_words(&saved::to_words(&bench.warp)).unwrap().well_formed());
}

#[test]
fn words_that_take_no_prefix() {
    let barred = [
        ext(0, 0, 0, 0),
        ext(1, 1, 1, 1),
        ext_i(0, 0, 0),
        b("vbeq", 1, 2, 8),
        b("vbne", 1, 2, 8),
        b("vblt", 1, 2, 8),
        b("vbge", 1, 2, 8),
        b("vbltu", 1, 2, 8),
        b("vbgeu", 1, 2, 6), // 8 would come later
        JOIN,
        ENDPRG,
        BARRIER,
        BARRIER | 3 << 15,
    ];
    for word in barred {
        for prefix in [ext(0, 0, 0, 0), ext(7, 7, 7, 7), ext_i(0, 0, 0), ext_i(63, 7, 7)] {
            second_refused(two(prefix, word), 6);
        }
    }
    // In a split, at its rpc: no JOIN, and 6 comes before 11.
    for word in [JOIN, ENDPRG, BARRIER] {
        let mut bench = two(ext(0, 0, 0, 0), word);
        let (rpc, else_pc) = (CODE + 4, CODE);
        bench.warp.splits[0] = Split { rpc, full: 3, else_mask: 1, else_pc, phase_two: false };
        (bench.warp.depth, bench.warp.mask) = (1, 2);
        second_refused(bench, 6);
    }
}

#[test]
fn regexti_is_for_vi_forms() {
    for variant in table::variants() {
        let mut bench = two(ext_i(1, 0, 0), variant.fixed | 1 << 7 & variant.free);
        if variant.is_vi() {
            both_taken(&mut bench);
        } else {
            second_refused(bench, 6);
        }
    }
    let mut found: Vec<String> =
        table::variants().iter().filter(|v| v.is_vi()).map(|v| v.name.clone()).collect();
    let forms = "vadd vrsub vand vor vxor vsll vsrl vsra vmseq vmsne vmsleu vmsle vmsgtu vmsgt";
    let both = |form: &str| [format!("{form}.vi"), format!("masked {form}.vi")];
    let mut forms: Vec<String> = forms.split(' ').flat_map(both).collect();
    forms.extend(["vmv.vi", "vmerge.vim"].map(String::from));
    found.sort();
    forms.sort();
    assert_eq!(found, forms);
}

/// (prefix's six bits, word's five, their value)
const IMMEDIATES: [(u32, u32, i32); 9] = [
    (0, 0, 0),
    (0, 15, 15),
    (0, 16, 16), // alone it is -16
    (0, 31, 31),
    (1, 0, 32),
    (31, 31, 1023),
    (32, 0, -1024),
    (63, 16, -16),
    (63, 31, -1),
];

#[test]
fn eleven_bits_are_sign_extended() {
    for (six, five, value) in IMMEDIATES {
        let value = value as u32;
        for (name, result) in [
            ("vadd.vi", 1000u32.wrapping_add(value)),
            ("vrsub.vi", value.wrapping_sub(1000)),
            ("vand.vi", 1000 & value),
            ("vor.vi", 1000 | value),
            ("vxor.vi", 1000 ^ value),
            ("vmsleu.vi", (1000 <= value).into()),
            ("vmsgt.vi", (1000 > value as i32).into()),
        ] {
            let mut bench = two(ext_i(six, 0, 5), v(name, 1, 2, five));
            bench.set_v(2, &[1000, 1000]);
            both_taken(&mut bench);
            assert_eq!((bench.v(161, 0), bench.v(161, 1)), (result, result), "{name} {six} {five}");
        }
        let mut bench = two(ext_i(six, 7, 0), v("vmv.vi", 1, 0, five));
        both_taken(&mut bench);
        assert_eq!(bench.v(1, 0), value);
        // Behind REGEXT the five bits alone.
        let mut bench = two(ext(6, 0, 7, 0), v("vmv.vi", 1, 0, five));
        both_taken(&mut bench);
        assert_eq!(bench.v(1, 0), if five < 16 { five } else { five.wrapping_sub(32) });
    }
}

#[test]
fn shifts_use_the_low_five_bits() {
    for (six, five, _) in IMMEDIATES {
        for (name, result) in [
            ("vsll.vi", 0x8000_0001 << five),
            ("vsrl.vi", 0x8000_0001 >> five),
            ("vsra.vi", (0x8000_0001u32 as i32 >> five) as u32),
        ] {
            let mut bench = two(ext_i(six, 1, 0), v(name, 1, 2, five));
            bench.set_v(34, &[0x8000_0001; 2]);
            both_taken(&mut bench);
            assert_eq!(bench.v(1, 1), result, "{name} {six} {five}");
        }
    }
    let (vd, vs2, src) = (V::new(1), V::new(2), VSrc::I(31));
    let shift = Insn::Vec { masked: false, op: VOp::Sll, vd, vs2, src };
    assert_eq!(decode_after(Prefix::RegExtI(0xfc0), v("vsll.vi", 1, 2, 31)), Some(shift));
}

/// x32, whose field is 0, writes; x0 behind a prefix does not.
#[test]
fn csr_words_go_by_the_whole_number() {
    for (name, print) in [("csrrs", 0x31), ("csrrc", 0x10)] {
        let mut bench = two(ext(0, 0, 1, 0), i(name, 1, 0, 0x80b));
        (bench.warp.print, bench.warp.x[32]) = (0x30, 0x21);
        both_taken(&mut bench);
        assert_eq!((bench.warp.x[1], bench.warp.print), (0x30, print));
        // Even where x32 is 0, it is a write.
        second_refused(two(ext(0, 0, 1, 0), i(name, 1, 0, 0x802)), 7);
        let mut bench = two(ext(0, 0, 0, 1), i(name, 1, 0, 0x802));
        both_taken(&mut bench);
        assert_eq!(bench.warp.x[33], 2);
        // The immediate forms go by the field.
        let mut bench = two(ext(0, 0, 1, 1), i(&format!("{name}i"), 1, 0, 0x802));
        both_taken(&mut bench);
        assert_eq!(bench.warp.x[33], 2);
        second_refused(two(ext(0, 0, 1, 1), i(&format!("{name}i"), 1, 1, 0x802)), 7);
    }
    let mut bench = two(ext(0, 0, 1, 1), i("csrrw", 2, 2, 0x80c));
    (bench.warp.rpc, bench.warp.x[34]) = (5, 6);
    both_taken(&mut bench);
    assert_eq!((bench.warp.rpc, bench.warp.x[34]), (6, 5));
}

#[test]
fn a_refused_word_leaves_the_prefix() {
    second_refused(two(ext(0, 0, 1, 1), i("csrrw", 1, 1, 0x800)), 7);
    second_refused(two(ext(0, 0, 0, 1), i("csrrs", 1, 0, 0x80d)), 7);
    second_refused(two(ext(0, 0, 0, 1), j(1, 2)), 8);
    second_refused(two(ext(0, 0, 1, 1), i("jalr", 1, 1, 2)), 8);
    second_refused(two(ext(0, 1, 1, 0), b("beq", 0, 0, 6)), 8);
    for word in [i("lw", 1, 1, 0), s("sb", 1, 1, 0), i("vlb12", 1, 1, 0), s("vsw12", 1, 1, 0)] {
        second_refused(two(ext(0, 1, 1, 0), word), 9);
    }
    let mut bench = two(ext(0, 3, 0, 1), r("vmv.x.s", 1, 0, 1));
    bench.set_v(97, &[5, 6]);
    second_refused(bench, 10);
    let mut bench = two(ext(0, 0, 3, 1), i("vlw.p", 1, 1, 0));
    bench.set_v(97, &[0, 1]);
    second_refused(bench, 14);
    second_refused(two(ext(0, 0, 0, 0), 0), 6);
    second_refused(two(ext(0, 0, 0, 0), v("vadd.vi", 0, 1, 1) & !(1 << 25)), 6);
    // No word at all.
    second_refused(Bench::new(1, &[ext(0, 0, 0, 0)], 0), 5);
    // The word is then taken behind the same prefix.
    let mut bench = two(ext(0, 0, 1, 1), i("lw", 1, 1, 0));
    assert_eq!(bench.step(), 0);
    bench.refused(9);
    (bench.warp.x[33], bench.data[0]) = (DATA, 9);
    assert_eq!(bench.step(), 0);
    assert_eq!((bench.warp.x[33], bench.warp.prefix), (9, Prefix::None));
}

/// Of each sort of word that takes one, the one behind it is plain again.
#[test]
fn a_taken_word_uses_the_prefix_up() {
    let plain = r("add", 1, 2, 3);
    let taken = [
        0x0ff0_000f, // fence
        j(0, 4),
        b("beq", 0, 0, 4),
        b("bne", 0, 0, 4),
        i("setrpc", 0, 0, 0),
        i("csrrsi", 0, 0, 0x800),
        i("addi", 0, 0, 0),
        v("vid.v", 0, 0, 17),
        v("vadd.vv", 0, 0, 0),
        r("vmv.x.s", 0, 0, 0),
        v("vmv.s.x", 0, 0, 0),
    ];
    for word in taken {
        let mut bench = Bench::new(2, &[ext(7, 1, 1, 1), word, plain], 0);
        (bench.warp.x[2], bench.warp.x[3]) = (20, 3);
        (bench.warp.x[34], bench.warp.x[35]) = (700, 50);
        assert_eq!(bench.run(9), (5, 3), "{word:08x}");
        assert_eq!((bench.warp.x[1], bench.warp.x[33]), (23, 0), "{word:08x}");
    }
    // A jump over words, and a branch back to its own prefix.
    let kernel = [ext(0, 0, 0, 1), j(1, 8), 0, plain];
    let mut bench = Bench::new(1, &kernel, 0);
    assert_eq!(bench.run(9), (5, 3));
    assert_eq!(bench.warp.x[33], CODE + 8);
    let mut bench = Bench::new(1, &[ext(0, 0, 1, 0), b("bne", 1, 0, -4)], 0);
    bench.warp.x[33] = 1;
    assert_eq!(bench.run(8), (0, 8));
    bench.warp.x[33] = 0;
    assert_eq!(bench.run(8), (5, 2));
}

#[test]
fn pending_in_a_saved_state() {
    let vector = &mut vec![0; run::VECTOR_WORDS];
    let warp = Warp { prefix: Prefix::RegExt(1), ..Warp::launched(&launch(2)) };
    let mut state = saved::to_words(&warp);
    assert_eq!(state[226..228], [1, 1]);
    // A run of no steps keeps it; the next word takes it.
    let kernel = [i("addi", 8, 0, 3), i("addi", 8, 0, 4)];
    assert_eq!(saved::run(&mut state, &kernel, vector, &mut [], 0), (0, 0));
    assert_eq!(state, saved::to_words(&warp));
    assert_eq!(saved::run(&mut state, &kernel, vector, &mut [], 2), (0, 2));
    assert_eq!((state[8], state[40]), (4, 3));
    assert_eq!(state[226..228], [0, 0]);
    // What is no prefix.
    for (kind, bits, number) in [
        (0, 0, 0),
        (1, 0, 0),
        (2, 0, 0),
        (1, 4095, 0),
        (2, 4095, 0),
        (0, 1, 2),
        (0, 4096, 2),
        (1, 4096, 2),
        (2, u32::MAX, 2),
        (3, 0, 2),
        (3, 1, 2),
        (u32::MAX, 0, 2),
    ] {
        let mut state = saved::to_words(&Warp::launched(&launch(2)));
        (state[226], state[227]) = (kind, bits);
        let before = state;
        assert_eq!(saved::run(&mut state, &kernel, vector, &mut [], 0), (number, 0));
        assert_eq!(saved::release(&mut state), if number == 0 { 12 } else { 2 });
        assert_eq!(state, before, "{kind} {bits}");
        // Sizes come first.
        assert_eq!(saved::run(&mut state, &[], vector, &mut [], 0), (1, 0));
    }
}

#[test]
fn an_ended_or_waiting_warp_has_none() {
    for prefix in [Prefix::RegExt(0), Prefix::RegExt(5), Prefix::RegExtI(0), Prefix::RegExtI(5)] {
        let running = Warp { prefix, ..Warp::launched(&launch(2)) };
        assert!(running.well_formed());
        let ended = Warp { ended: true, ..running.clone() };
        let waiting = Warp { waiting: true, ..running };
        for mut warp in [ended, waiting] {
            assert!(!warp.well_formed());
            assert_eq!(code(run::release(&mut warp)), 2);
            let mut vector = vec![0; run::VECTOR_WORDS];
            assert_eq!(run::run(&mut warp, &[NOP], &mut vector, &mut [], 1), (2, 0));
        }
    }
    // A release leaves none.
    let mut bench = Bench::new(2, &[BARRIER, ext(0, 0, 0, 0)], 0);
    assert_eq!(bench.run(9), (4, 1));
    assert_eq!(code(run::release(&mut bench.warp)), 0);
    assert_eq!(bench.warp.prefix, Prefix::None);
}

/// Lanes that are not active keep their words of high registers too, and a split keeps what was
/// pending out of its record.
#[test]
fn prefixes_in_a_split() {
    let kernel = [
        b("vbne", 1, 2, 12), // lane 1 leaves
        ext(0, 0, 0, 7),
        v("vmv.vi", 31, 0, 5),
        ext(0, 7, 0, 7),
        v("vadd.vi", 31, 31, 1),
    ];
    let mut bench = Bench::new(2, &kernel, 0);
    bench.set_v(1, &[0, 1]);
    bench.set_v(255, &[8, 9, 10]);
    assert_eq!(bench.run(9), (5, 5));
    assert_eq!([bench.v(255, 0), bench.v(255, 1), bench.v(255, 2)], [6, 9, 10]);
    assert_eq!((bench.warp.depth, bench.warp.mask), (1, 1));
}
