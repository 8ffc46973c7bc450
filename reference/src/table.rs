//! The instruction tables a second time, as bit patterns: each variant is its
//! fixed bits and its free bits; and the fields that words are put together
//! from. The generator draws words from it, and the tests hold it against
//! `isa::decode`.

use crate::isa::{AluOp, Cond, CsrOp, CsrSrc, Insn, LoadKind, Space, StoreKind, VOp, VSrc};

/// How the free fields of a word are to be chosen.
#[derive(Clone, Copy, Debug, PartialEq, Eq)]
pub enum Shape {
    /// Nothing that needs care.
    Plain,
    /// A scalar jump by J-type offset.
    Jal,
    Jalr,
    /// B-type offset, scalar or VBRANCH.
    Branch,
    /// Scalar load (I-type) or store (S-type).
    Load,
    Store,
    Csr,
    SetRpc,
    /// Lane loads and stores, flat and private.
    Vload,
    Vstore,
    PrivateLoad,
    PrivateStore,
    VmvXS,
    Control,
    Prefix,
}

/// Which registers a register field names.
#[derive(Clone, Copy, Debug, PartialEq, Eq)]
pub enum File {
    X,
    V,
}

#[derive(Clone, Debug)]
pub struct Variant {
    pub name: String,
    pub fixed: u32,
    pub free: u32,
    pub shape: Shape,
}

pub const NOP: u32 = 0x13;
pub const BARRIER: u32 = 0x0400_400b;
/// The prefixes with no bits.
pub const REGEXT: u32 = 0x0000_200b;
pub const REGEXTI: u32 = 0x0000_300b;

pub const RD: u32 = 0x1f << 7;
pub const RS1: u32 = 0x1f << 15;
pub const RS2: u32 = 0x1f << 20;
pub const F7: u32 = 0x7f << 25;
/// The free bits of a word with two sources, and of one with an I or S immediate.
const R: u32 = RD | RS1 | RS2;
const I: u32 = R | F7;

/// A vector word that is not masked has it.
pub const VM: u32 = 1 << 25;

const BIT_31: u32 = 1 << 31;

/// Before the name of a masked word.
pub const MASKED: &str = "masked ";

impl Variant {
    fn new(name: impl Into<String>, fixed: u32, free: u32, shape: Shape) -> Variant {
        Variant { name: name.into(), fixed, free, shape }
    }

    fn plain(name: impl Into<String>, fixed: u32, free: u32) -> Variant {
        Variant::new(name, fixed, free, Shape::Plain)
    }

    fn opcode(&self) -> u32 {
        self.fixed & 0x7f
    }

    pub fn is_vbranch(&self) -> bool {
        self.shape == Shape::Branch && self.opcode() == 0x5b
    }

    /// Whether its words have vm = 0.
    pub fn is_masked(&self) -> bool {
        self.opcode() == 0x57 && self.fixed & VM == 0
    }

    /// Whether it is a vector word that writes 1 or 0 to a lane.
    pub fn is_compare(&self) -> bool {
        self.opcode() == 0x57 && self.base_name().starts_with("vms")
    }

    /// Whether a word of it whose destination is v0 is refused.
    pub fn spares_v0(&self) -> bool {
        self.is_masked() && !self.is_compare()
    }

    /// Whether a word, alone, is one of its own.
    pub fn has(&self, word: u32) -> bool {
        word & !self.free == self.fixed && !(self.spares_v0() && word & RD == 0)
    }

    /// The name of a masked word without its mask.
    fn base_name(&self) -> &str {
        self.name.trim_start_matches(MASKED)
    }

    /// The end of the name, which of a lane operation and of a merge is vv, vx or vi.
    pub fn form(&self) -> &str {
        let end = self.name.rsplit('.').next().unwrap_or_default();
        end.trim_end_matches('m')
    }

    /// Whether it has an immediate that REGEXTI lengthens.
    pub fn is_vi(&self) -> bool {
        self.opcode() == 0x57 && self.form() == "vi"
    }

    /// Whether REGEXT may stand before it.
    pub fn takes_regext(&self) -> bool {
        !matches!(self.shape, Shape::Control | Shape::Prefix) && !self.is_vbranch()
    }

    /// The registers that the fields rd, rs1 and rs2 name, and so what the digits xd, x1 and x2
    /// go on; none where a field is no register.
    pub fn registers(&self) -> [Option<File>; 3] {
        const X: Option<File> = Some(File::X);
        const V: Option<File> = Some(File::V);
        match (self.opcode(), self.base_name()) {
            (0x37 | 0x17 | 0x6f, _) | (0x73, "csrrwi" | "csrrsi" | "csrrci") => [X, None, None],
            (0x67 | 0x03 | 0x13 | 0x73, _) | (_, "setrpc") => [X, X, None],
            (0x63 | 0x23, _) => [None, X, X],
            (0x33, _) => [X, X, X],
            (0x7b | 0x2b, name) if name.starts_with("vl") => [V, V, None],
            (0x7b | 0x2b, _) => [None, V, V],
            (_, "vmv.x.s") => [X, None, V],
            (_, "vmv.s.x" | "vmv.vx") => [V, X, None],
            (_, "vid.v" | "vmv.vi") => [V, None, None],
            (_, "vmv.vv") => [V, V, None],
            (0x57, _) if self.form() == "vv" => [V, V, V],
            (0x57, _) if self.form() == "vx" => [V, X, V],
            (0x57, _) => [V, None, V],
            (0x5b, _) if self.is_vbranch() => [None, V, V],
            _ => [None; 3],
        }
    }
}

const fn f3(n: u32) -> u32 {
    n << 12
}
const fn f7(n: u32) -> u32 {
    n << 25
}

/// Every instruction of the tables in every form. The generator draws from
/// them by place: another order makes other cases.
pub fn variants() -> Vec<Variant> {
    [
        upper_and_jumps(),
        accesses(),
        with_immediates(),
        with_registers(),
        system_and_control(),
        prefixes(),
        lane_integers(),
        lane_moves(),
        lane_products(),
        lane_others(),
        masked(),
    ]
    .concat()
}

fn upper_and_jumps() -> Vec<Variant> {
    let mut all = vec![
        Variant::plain("lui", 0x37, !0x7f),
        Variant::plain("auipc", 0x17, !0x7f),
        Variant::new("jal", 0x6f, !0x7f, Shape::Jal),
        Variant::new("jalr", 0x67, I, Shape::Jalr),
    ];
    for (n, name) in [(0, "eq"), (1, "ne"), (4, "lt"), (5, "ge"), (6, "ltu"), (7, "geu")] {
        all.push(Variant::new(format!("b{name}"), 0x63 | f3(n), I, Shape::Branch));
        all.push(Variant::new(format!("vb{name}"), 0x5b | f3(n), I, Shape::Branch));
    }
    all
}

fn accesses() -> Vec<Variant> {
    let mut all = Vec::new();
    let mut add = |name: String, opcode: u32, funct3: u32, free: u32, shape: Shape| {
        all.push(Variant::new(name, opcode | f3(funct3), free, shape));
    };
    for (n, name) in [(0, "b"), (1, "h"), (2, "w"), (4, "bu"), (5, "hu")] {
        add(format!("l{name}"), 0x03, n, I, Shape::Load);
        add(format!("vl{name}12"), 0x7b, n, I, Shape::Vload);
        add(format!("vl{name}.p"), 0x2b, n, I & !BIT_31, Shape::PrivateLoad);
    }
    for (n, name) in [(0, "sb"), (1, "sh"), (2, "sw")] {
        add(name.into(), 0x23, n, I, Shape::Store);
    }
    for (n, name) in [(7, "b"), (3, "h"), (6, "w")] {
        add(format!("vs{name}12"), 0x7b, n, I, Shape::Vstore);
        add(format!("vs{name}.p"), 0x2b, n, I & !BIT_31, Shape::PrivateStore);
    }
    all
}

fn with_immediates() -> Vec<Variant> {
    let names = [(0, "addi"), (2, "slti"), (3, "sltiu"), (4, "xori"), (6, "ori"), (7, "andi")];
    let mut all: Vec<Variant> =
        names.iter().map(|(n, name)| Variant::plain(*name, 0x13 | f3(*n), I)).collect();
    all.push(Variant::plain("slli", 0x13 | f3(1), R));
    all.push(Variant::plain("srli", 0x13 | f3(5), R));
    all.push(Variant::plain("srai", 0x13 | f3(5) | f7(0x20), R));
    all
}

fn with_registers() -> Vec<Variant> {
    let by_funct3 = |names: [&str; 8], funct7: u32| {
        (0..)
            .zip(names)
            .map(|(n, name)| Variant::plain(name, 0x33 | f3(n) | f7(funct7), R))
            .collect()
    };
    let base: Vec<Variant> = by_funct3(["add", "sll", "slt", "sltu", "xor", "srl", "or", "and"], 0);
    let signed = vec![
        Variant::plain("sub", 0x33 | f7(0x20), R),
        Variant::plain("sra", 0x33 | f3(5) | f7(0x20), R),
    ];
    let products = by_funct3(["mul", "mulh", "mulhsu", "mulhu", "div", "divu", "rem", "remu"], 1);
    [base, signed, products].concat()
}

fn system_and_control() -> Vec<Variant> {
    let csr =
        [(1, "csrrw"), (2, "csrrs"), (3, "csrrc"), (5, "csrrwi"), (6, "csrrsi"), (7, "csrrci")];
    let mut all = vec![Variant::plain("fence", 0x0f, I)];
    all.extend(csr.iter().map(|(n, name)| Variant::new(*name, 0x73 | f3(*n), I, Shape::Csr)));
    all.push(Variant::new("join", 0x205b, 0, Shape::Control));
    all.push(Variant::new("setrpc", 0x305b, I, Shape::SetRpc));
    all.push(Variant::new("endprg", 0x400b, 0, Shape::Control));
    all.push(Variant::new("barrier", BARRIER, RS1, Shape::Control));
    all
}

fn prefixes() -> Vec<Variant> {
    let prefix = |name: &str, fixed: u32| Variant::new(name, fixed, RS2 | F7, Shape::Prefix);
    vec![prefix("regext", REGEXT), prefix("regexti", REGEXTI)]
}

const VV: u32 = 0;
const VI: u32 = 3;
const VX: u32 = 4;
/// The forms of the M group and what shares its codes.
const MVV: u32 = 2;
const MVX: u32 = 6;

/// A vector word that is not masked.
const fn v(funct6: u32, form: u32) -> u32 {
    0x57 | funct6 << 26 | VM | f3(form)
}

fn lane_integers() -> Vec<Variant> {
    let operations: [(u32, &str, &str); 21] = [
        (0, "vadd", "vxi"),
        (2, "vsub", "vx"),
        (3, "vrsub", "xi"),
        (4, "vminu", "vx"),
        (5, "vmin", "vx"),
        (6, "vmaxu", "vx"),
        (7, "vmax", "vx"),
        (9, "vand", "vxi"),
        (10, "vor", "vxi"),
        (11, "vxor", "vxi"),
        (0x25, "vsll", "vxi"),
        (0x28, "vsrl", "vxi"),
        (0x29, "vsra", "vxi"),
        (0x18, "vmseq", "vxi"),
        (0x19, "vmsne", "vxi"),
        (0x1a, "vmsltu", "vx"),
        (0x1b, "vmslt", "vx"),
        (0x1c, "vmsleu", "vxi"),
        (0x1d, "vmsle", "vxi"),
        (0x1e, "vmsgtu", "xi"),
        (0x1f, "vmsgt", "xi"),
    ];
    let forms = [('v', VV), ('x', VX), ('i', VI)];
    let variant = |(funct6, name, taken): (u32, &str, &str)| -> Vec<Variant> {
        let taken = forms.iter().filter(|(letter, _)| taken.contains(*letter));
        taken.map(|(l, form)| Variant::plain(format!("{name}.v{l}"), v(funct6, *form), R)).collect()
    };
    operations.into_iter().flat_map(variant).collect()
}

fn lane_moves() -> Vec<Variant> {
    let forms = [("vmv.vv", VV), ("vmv.vx", VX), ("vmv.vi", VI)];
    forms.iter().map(|(name, form)| Variant::plain(*name, v(0x17, *form), RD | RS1)).collect()
}

fn lane_products() -> Vec<Variant> {
    let names = ["vdivu", "vdiv", "vremu", "vrem", "vmulhu", "vmul", "vmulhsu", "vmulh"];
    let forms = |(funct6, name): (u32, &str)| {
        [
            Variant::plain(format!("{name}.vv"), v(funct6, MVV), R),
            Variant::plain(format!("{name}.vx"), v(funct6, MVX), R),
        ]
    };
    (0x20..).zip(names).flat_map(forms).collect()
}

fn lane_others() -> Vec<Variant> {
    vec![
        Variant::new("vmv.x.s", v(0x10, MVV), RD | RS2, Shape::VmvXS),
        Variant::plain("vmv.s.x", v(0x10, MVX), RD | RS1),
        Variant::plain("vid.v", v(0x14, MVV) | rs1(0x11), RD),
    ]
}

/// The words with vm = 0: those that can be masked, and vmerge where vmv.v would be.
fn masked() -> Vec<Variant> {
    let vid = lane_others().into_iter().filter(|v| v.name == "vid.v");
    let operations = [lane_integers(), lane_products()].concat();
    let masked = operations.into_iter().chain(vid).map(|v| Variant {
        name: format!("{MASKED}{}", v.name),
        fixed: v.fixed & !VM,
        ..v
    });
    let forms = [("vmerge.vvm", VV), ("vmerge.vxm", VX), ("vmerge.vim", VI)];
    let merges = forms.iter().map(|(name, form)| Variant::plain(*name, v(0x17, *form) & !VM, R));
    masked.chain(merges).collect()
}

// The fields of a word.

pub fn enc_i(imm: i32) -> u32 {
    (imm as u32 & 0xfff) << 20
}
pub fn enc_s(imm: i32) -> u32 {
    let imm = imm as u32;
    (imm >> 5 & 0x7f) << 25 | (imm & 31) << 7
}
pub fn enc_b(off: i32) -> u32 {
    let o = off as u32;
    (o >> 12 & 1) << 31 | (o >> 5 & 63) << 25 | (o >> 1 & 15) << 8 | (o >> 11 & 1) << 7
}
pub fn enc_j(off: i32) -> u32 {
    let o = off as u32;
    (o >> 20 & 1) << 31 | (o >> 1 & 0x3ff) << 21 | (o >> 11 & 1) << 20 | (o >> 12 & 0xff) << 12
}
pub fn rd(n: u32) -> u32 {
    n << 7
}
pub fn rs1(n: u32) -> u32 {
    n << 15
}
pub fn rs2(n: u32) -> u32 {
    n << 20
}

/// REGEXT with these digits; x3 is 0.
pub fn regext(x2: u32, x1: u32, xd: u32) -> u32 {
    REGEXT | (x2 << 6 | x1 << 3 | xd) << 20
}
/// REGEXTI with the immediate's upper six bits and these digits.
pub fn regexti(imm: u32, x2: u32, xd: u32) -> u32 {
    REGEXTI | (imm << 6 | x2 << 3 | xd) << 20
}

/// The variants by name.
pub struct Table {
    pub all: Vec<Variant>,
}

impl Table {
    pub fn whole() -> Table {
        Table { all: variants() }
    }
    pub fn get(&self, name: &str) -> &Variant {
        self.all.iter().find(|v| v.name == name).unwrap_or_else(|| panic!("no variant {name}"))
    }
    pub fn fixed(&self, name: &str) -> u32 {
        self.get(name).fixed
    }
    /// Those that are not masked and are to be kept, in the tables' order.
    pub fn with(&self, keep: impl Fn(&Variant) -> bool) -> Vec<&Variant> {
        self.all.iter().filter(|v| !v.is_masked() && keep(v)).collect()
    }
    /// Those that are masked, in the tables' order.
    pub fn masked(&self) -> Vec<&Variant> {
        self.all.iter().filter(|v| v.is_masked()).collect()
    }
}

/// The name of a decoded instruction, as `variants` has it.
pub fn name(insn: &Insn) -> String {
    match insn {
        Insn::Lui { .. } => "lui".into(),
        Insn::Auipc { .. } => "auipc".into(),
        Insn::Jal { .. } => "jal".into(),
        Insn::Jalr { .. } => "jalr".into(),
        Insn::Branch { cond, .. } => format!("b{}", cond_name(*cond)),
        Insn::Vbranch { cond, .. } => format!("vb{}", cond_name(*cond)),
        Insn::Load { kind, .. } => format!("l{}", load_name(*kind)),
        Insn::Store { kind, .. } => format!("s{}", store_name(*kind)),
        Insn::AluImm { op: AluOp::Sltu, .. } => "sltiu".into(),
        Insn::AluImm { op, .. } => format!("{}i", alu_name(*op)),
        Insn::Alu { op, .. } => alu_name(*op).into(),
        Insn::Fence => "fence".into(),
        Insn::Csr { op, src, .. } => csr_name(*op, *src),
        Insn::Join => "join".into(),
        Insn::SetRpc { .. } => "setrpc".into(),
        Insn::EndPrg => "endprg".into(),
        Insn::Barrier => "barrier".into(),
        Insn::RegExt(_) => "regext".into(),
        Insn::RegExtI(_) => "regexti".into(),
        Insn::Vec { op: VOp::Merge, src, .. } => format!("vmerge.{}m", form_name(*src)),
        Insn::Vec { masked, op, src, .. } => {
            format!("{}{}.{}", mask_name(*masked), vop_name(*op), form_name(*src))
        }
        Insn::VmvSX { .. } => "vmv.s.x".into(),
        Insn::VmvXS { .. } => "vmv.x.s".into(),
        Insn::Vid { masked, .. } => format!("{}vid.v", mask_name(*masked)),
        Insn::Vload { space, kind, .. } => format!("vl{}{}", load_name(*kind), space_name(*space)),
        Insn::Vstore { space, kind, .. } => {
            format!("vs{}{}", store_name(*kind), space_name(*space))
        }
    }
}

fn csr_name(op: CsrOp, src: CsrSrc) -> String {
    let op = match op {
        CsrOp::Write => "w",
        CsrOp::Set => "s",
        CsrOp::Clear => "c",
    };
    let form = if matches!(src, CsrSrc::I(_)) { "i" } else { "" };
    format!("csrr{op}{form}")
}

fn mask_name(masked: bool) -> &'static str {
    if masked {
        MASKED
    } else {
        ""
    }
}

fn form_name(src: VSrc) -> &'static str {
    match src {
        VSrc::V(_) => "vv",
        VSrc::X(_) => "vx",
        VSrc::I(_) => "vi",
    }
}

fn cond_name(cond: Cond) -> &'static str {
    match cond {
        Cond::Eq => "eq",
        Cond::Ne => "ne",
        Cond::Lt => "lt",
        Cond::Ge => "ge",
        Cond::Ltu => "ltu",
        Cond::Geu => "geu",
    }
}

fn load_name(kind: LoadKind) -> &'static str {
    match kind {
        LoadKind::B => "b",
        LoadKind::H => "h",
        LoadKind::W => "w",
        LoadKind::Bu => "bu",
        LoadKind::Hu => "hu",
    }
}

fn store_name(kind: StoreKind) -> &'static str {
    match kind {
        StoreKind::B => "b",
        StoreKind::H => "h",
        StoreKind::W => "w",
    }
}

fn space_name(space: Space) -> &'static str {
    match space {
        Space::Flat => "12",
        Space::Private => ".p",
    }
}

fn alu_name(op: AluOp) -> &'static str {
    match op {
        AluOp::Add => "add",
        AluOp::Sub => "sub",
        AluOp::Sll => "sll",
        AluOp::Slt => "slt",
        AluOp::Sltu => "sltu",
        AluOp::Xor => "xor",
        AluOp::Srl => "srl",
        AluOp::Sra => "sra",
        AluOp::Or => "or",
        AluOp::And => "and",
        AluOp::Mul => "mul",
        AluOp::Mulh => "mulh",
        AluOp::Mulhsu => "mulhsu",
        AluOp::Mulhu => "mulhu",
        AluOp::Div => "div",
        AluOp::Divu => "divu",
        AluOp::Rem => "rem",
        AluOp::Remu => "remu",
    }
}

fn vop_name(op: VOp) -> &'static str {
    match op {
        VOp::Add => "vadd",
        VOp::Sub => "vsub",
        VOp::Rsub => "vrsub",
        VOp::Minu => "vminu",
        VOp::Min => "vmin",
        VOp::Maxu => "vmaxu",
        VOp::Max => "vmax",
        VOp::And => "vand",
        VOp::Or => "vor",
        VOp::Xor => "vxor",
        VOp::Sll => "vsll",
        VOp::Srl => "vsrl",
        VOp::Sra => "vsra",
        VOp::Seq => "vmseq",
        VOp::Sne => "vmsne",
        VOp::Sltu => "vmsltu",
        VOp::Slt => "vmslt",
        VOp::Sleu => "vmsleu",
        VOp::Sle => "vmsle",
        VOp::Sgtu => "vmsgtu",
        VOp::Sgt => "vmsgt",
        VOp::Mv => "vmv",
        VOp::Merge => "vmerge",
        VOp::Mulhu => "vmulhu",
        VOp::Mul => "vmul",
        VOp::Mulhsu => "vmulhsu",
        VOp::Mulh => "vmulh",
        VOp::Divu => "vdivu",
        VOp::Div => "vdiv",
        VOp::Remu => "vremu",
        VOp::Rem => "vrem",
    }
}
