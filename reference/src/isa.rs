//! The instruction tables: one 32-bit word, alone or behind a prefix, to one `Insn`, or nothing.

pub const SCALARS: usize = 64;
pub const VECTORS: usize = 256;

/// A scalar register number, below 64.
#[derive(Clone, Copy, Debug, PartialEq, Eq)]
pub struct X(u8);

/// A vector register number, below 256.
#[derive(Clone, Copy, Debug, PartialEq, Eq)]
pub struct V(u8);

impl X {
    pub const fn new(n: u32) -> X {
        X(n as u8 & 63)
    }
    pub const fn index(self) -> usize {
        (self.0 & 63) as usize
    }
}

impl V {
    pub const fn new(n: u32) -> V {
        V(n as u8)
    }
    pub const fn index(self) -> usize {
        self.0 as usize
    }
}

/// The register that masks, whatever prefix is pending.
pub const V0: V = V::new(0);

/// A prefix that was taken and waits for its word, with its 12 bits.
#[derive(Clone, Copy, Debug, Default, PartialEq, Eq)]
pub enum Prefix {
    #[default]
    None,
    RegExt(u32),
    RegExtI(u32),
}

impl Prefix {
    pub fn bits(self) -> u32 {
        match self {
            Prefix::None => 0,
            Prefix::RegExt(bits) | Prefix::RegExtI(bits) => bits,
        }
    }
}

/// Conditions of the scalar branches and of VBRANCH.
#[derive(Clone, Copy, Debug, PartialEq, Eq)]
pub enum Cond {
    Eq,
    Ne,
    Lt,
    Ge,
    Ltu,
    Geu,
}

/// What a load fetches.
#[derive(Clone, Copy, Debug, PartialEq, Eq)]
pub enum LoadKind {
    B,
    H,
    W,
    Bu,
    Hu,
}

/// What a store puts down.
#[derive(Clone, Copy, Debug, PartialEq, Eq)]
pub enum StoreKind {
    B,
    H,
    W,
}

/// Scalar two-operand operations, RV32I and M.
#[derive(Clone, Copy, Debug, PartialEq, Eq)]
pub enum AluOp {
    Add,
    Sub,
    Sll,
    Slt,
    Sltu,
    Xor,
    Srl,
    Sra,
    Or,
    And,
    Mul,
    Mulh,
    Mulhsu,
    Mulhu,
    Div,
    Divu,
    Rem,
    Remu,
}

/// Vector two-operand operations. The first operand is vs2.
#[derive(Clone, Copy, Debug, PartialEq, Eq)]
pub enum VOp {
    Add,
    Sub,
    Rsub,
    Minu,
    Min,
    Maxu,
    Max,
    And,
    Or,
    Xor,
    Sll,
    Srl,
    Sra,
    Seq,
    Sne,
    Sltu,
    Slt,
    Sleu,
    Sle,
    Sgtu,
    Sgt,
    Mv,
    /// Takes the second operand in lanes whose v0 word has bit 0 set, vs2's word in the others.
    Merge,
    Mulhu,
    Mul,
    Mulhsu,
    Mulh,
    Divu,
    Div,
    Remu,
    Rem,
}

impl VOp {
    /// Whether it writes 1 or 0.
    pub fn is_compare(self) -> bool {
        matches!(
            self,
            VOp::Seq
                | VOp::Sne
                | VOp::Sltu
                | VOp::Slt
                | VOp::Sleu
                | VOp::Sle
                | VOp::Sgtu
                | VOp::Sgt
        )
    }
}

/// The second operand of a vector operation.
#[derive(Clone, Copy, Debug, PartialEq, Eq)]
pub enum VSrc {
    V(V),
    X(X),
    I(u32),
}

#[derive(Clone, Copy, Debug, PartialEq, Eq)]
pub enum CsrOp {
    Write,
    Set,
    Clear,
}

#[derive(Clone, Copy, Debug, PartialEq, Eq)]
pub enum CsrSrc {
    X(X),
    I(u32),
}

/// Flat (VLOAD12/VSTORE12) or private addresses.
#[derive(Clone, Copy, Debug, PartialEq, Eq)]
pub enum Space {
    Flat,
    Private,
}

#[derive(Clone, Copy, Debug, PartialEq, Eq)]
pub enum Insn {
    Lui {
        rd: X,
        imm: u32,
    },
    Auipc {
        rd: X,
        imm: u32,
    },
    Jal {
        rd: X,
        off: u32,
    },
    Jalr {
        rd: X,
        rs1: X,
        imm: u32,
    },
    Branch {
        cond: Cond,
        rs1: X,
        rs2: X,
        off: u32,
    },
    Load {
        kind: LoadKind,
        rd: X,
        rs1: X,
        off: u32,
    },
    Store {
        kind: StoreKind,
        rs1: X,
        rs2: X,
        off: u32,
    },
    AluImm {
        op: AluOp,
        rd: X,
        rs1: X,
        imm: u32,
    },
    Alu {
        op: AluOp,
        rd: X,
        rs1: X,
        rs2: X,
    },
    Fence,
    Csr {
        op: CsrOp,
        rd: X,
        csr: u32,
        src: CsrSrc,
    },
    Vbranch {
        cond: Cond,
        vs1: V,
        vs2: V,
        off: u32,
    },
    Join,
    SetRpc {
        rd: X,
        rs1: X,
        imm: u32,
    },
    EndPrg,
    Barrier,
    /// The two prefixes, with their 12 bits.
    RegExt(u32),
    RegExtI(u32),
    /// Masked, it writes only active lanes whose v0 word has bit 0 set; a merge, though its word
    /// has vm = 0, writes every active lane.
    Vec {
        masked: bool,
        op: VOp,
        vd: V,
        vs2: V,
        src: VSrc,
    },
    /// vmv.s.x: the same effect as vmv.v.x.
    VmvSX {
        vd: V,
        rs1: X,
    },
    VmvXS {
        rd: X,
        vs2: V,
    },
    Vid {
        masked: bool,
        vd: V,
    },
    Vload {
        space: Space,
        kind: LoadKind,
        vd: V,
        vs1: V,
        off: u32,
    },
    Vstore {
        space: Space,
        kind: StoreKind,
        vs1: V,
        vs2: V,
        off: u32,
    },
}

pub const JOIN: u32 = 0x0000_205b;
pub const ENDPRG: u32 = 0x0000_400b;

const fn field(word: u32, high: u32, low: u32) -> u32 {
    (word >> low) & ((1 << (high - low + 1)) - 1)
}

/// The low `bits` bits of `value`, sign-extended.
const fn sext(value: u32, bits: u32) -> u32 {
    (((value << (32 - bits)) as i32) >> (32 - bits)) as u32
}

const fn imm_i(w: u32) -> u32 {
    ((w as i32) >> 20) as u32
}

const fn imm_s(w: u32) -> u32 {
    sext(field(w, 31, 25) << 5 | field(w, 11, 7), 12)
}

const fn imm_b(w: u32) -> u32 {
    sext(
        field(w, 31, 31) << 12
            | field(w, 7, 7) << 11
            | field(w, 30, 25) << 5
            | field(w, 11, 8) << 1,
        13,
    )
}

const fn imm_j(w: u32) -> u32 {
    sext(
        field(w, 31, 31) << 20
            | field(w, 19, 12) << 12
            | field(w, 20, 20) << 11
            | field(w, 30, 21) << 1,
        21,
    )
}

const fn rd(w: u32) -> u32 {
    field(w, 11, 7)
}
const fn funct3(w: u32) -> u32 {
    field(w, 14, 12)
}
const fn rs1(w: u32) -> u32 {
    field(w, 19, 15)
}
const fn rs2(w: u32) -> u32 {
    field(w, 24, 20)
}
const fn funct7(w: u32) -> u32 {
    field(w, 31, 25)
}

/// What a prefix puts on top of its word: a digit on each register field, and six bits on the
/// immediate of a VI form. The digit x3 is for no field of these tables.
#[derive(Clone, Copy)]
struct Above {
    xd: u32,
    x1: u32,
    x2: u32,
    imm: Option<u32>,
}

const NOTHING: Above = Above { xd: 0, x1: 0, x2: 0, imm: None };

impl Above {
    const fn of(prefix: Prefix) -> Above {
        match prefix {
            Prefix::None => NOTHING,
            Prefix::RegExt(bits) => Above {
                xd: field(bits, 2, 0),
                x1: field(bits, 5, 3),
                x2: field(bits, 8, 6),
                imm: None,
            },
            Prefix::RegExtI(bits) => Above {
                xd: field(bits, 2, 0),
                x1: 0,
                x2: field(bits, 5, 3),
                imm: Some(field(bits, 11, 6)),
            },
        }
    }

    // The fields as registers: result, first and second operand. There is no scalar register above
    // 63.

    #[inline(always)]
    fn xd(self, w: u32) -> Option<X> {
        scalar(self.xd, rd(w))
    }
    #[inline(always)]
    fn x1(self, w: u32) -> Option<X> {
        scalar(self.x1, rs1(w))
    }
    #[inline(always)]
    fn x2(self, w: u32) -> Option<X> {
        scalar(self.x2, rs2(w))
    }
    #[inline(always)]
    fn vd(self, w: u32) -> V {
        V::new(32 * self.xd + rd(w))
    }
    #[inline(always)]
    fn v1(self, w: u32) -> V {
        V::new(32 * self.x1 + rs1(w))
    }
    #[inline(always)]
    fn v2(self, w: u32) -> V {
        V::new(32 * self.x2 + rs2(w))
    }

    /// The immediate of a VI form, sign-extended: five bits, or eleven.
    #[inline(always)]
    fn immediate(self, w: u32) -> u32 {
        match self.imm {
            None => sext(rs1(w), 5),
            Some(six) => sext(six << 5 | rs1(w), 11),
        }
    }
}

#[inline(always)]
fn scalar(digit: u32, field: u32) -> Option<X> {
    let number = 32 * digit + field;
    ((number as usize) < SCALARS).then(|| X::new(number))
}

/// The instruction that a word alone stands for; `None` is refusal 6.
#[inline(always)]
pub fn decode(w: u32) -> Option<Insn> {
    decode_under(NOTHING, w)
}

/// The instruction that a word stands for behind what is pending; `None` is refusal 6.
pub fn decode_after(prefix: Prefix, w: u32) -> Option<Insn> {
    let insn = decode_under(Above::of(prefix), w)?;
    let taken = match prefix {
        Prefix::None => true,
        Prefix::RegExt(_) => !matches!(
            insn,
            Insn::RegExt(_)
                | Insn::RegExtI(_)
                | Insn::Vbranch { .. }
                | Insn::Join
                | Insn::EndPrg
                | Insn::Barrier
        ),
        Prefix::RegExtI(_) => matches!(insn, Insn::Vec { src: VSrc::I(_), .. }),
    };
    taken.then_some(insn)
}

#[inline(always)]
fn decode_under(a: Above, w: u32) -> Option<Insn> {
    let insn = match field(w, 6, 0) {
        0b011_0111 => Insn::Lui { rd: a.xd(w)?, imm: w & 0xffff_f000 },
        0b001_0111 => Insn::Auipc { rd: a.xd(w)?, imm: w & 0xffff_f000 },
        0b110_1111 => Insn::Jal { rd: a.xd(w)?, off: imm_j(w) },
        0b110_0111 if funct3(w) == 0 => Insn::Jalr { rd: a.xd(w)?, rs1: a.x1(w)?, imm: imm_i(w) },
        0b110_0011 => Insn::Branch {
            cond: condition(funct3(w))?,
            rs1: a.x1(w)?,
            rs2: a.x2(w)?,
            off: imm_b(w),
        },
        0b000_0011 => {
            Insn::Load { kind: load_kind(funct3(w))?, rd: a.xd(w)?, rs1: a.x1(w)?, off: imm_i(w) }
        }
        0b010_0011 => Insn::Store {
            kind: store_kind(funct3(w))?,
            rs1: a.x1(w)?,
            rs2: a.x2(w)?,
            off: imm_s(w),
        },
        0b001_0011 => return alu_imm(a, w),
        0b011_0011 => Insn::Alu {
            op: alu_op(funct7(w), funct3(w))?,
            rd: a.xd(w)?,
            rs1: a.x1(w)?,
            rs2: a.x2(w)?,
        },
        0b000_1111 if funct3(w) == 0 => Insn::Fence,
        0b111_0011 => return csr(a, w),
        0b101_1011 => return ventus_branch(a, w),
        0b000_1011 => return ventus_control(w),
        0b101_0111 => return vector(a, w),
        0b111_1011 => return vector_memory(a, w, Space::Flat),
        0b010_1011 if field(w, 31, 31) == 0 => return vector_memory(a, w, Space::Private),
        _ => return None,
    };
    Some(insn)
}

#[inline(always)]
fn condition(funct3: u32) -> Option<Cond> {
    Some(match funct3 {
        0b000 => Cond::Eq,
        0b001 => Cond::Ne,
        0b100 => Cond::Lt,
        0b101 => Cond::Ge,
        0b110 => Cond::Ltu,
        0b111 => Cond::Geu,
        _ => return None,
    })
}

#[inline(always)]
fn load_kind(funct3: u32) -> Option<LoadKind> {
    Some(match funct3 {
        0b000 => LoadKind::B,
        0b001 => LoadKind::H,
        0b010 => LoadKind::W,
        0b100 => LoadKind::Bu,
        0b101 => LoadKind::Hu,
        _ => return None,
    })
}

#[inline(always)]
fn store_kind(funct3: u32) -> Option<StoreKind> {
    Some(match funct3 {
        0b000 => StoreKind::B,
        0b001 => StoreKind::H,
        0b010 => StoreKind::W,
        _ => return None,
    })
}

#[inline(always)]
fn alu_imm(a: Above, w: u32) -> Option<Insn> {
    let (op, imm) = match (funct3(w), funct7(w)) {
        (0b000, _) => (AluOp::Add, imm_i(w)),
        (0b010, _) => (AluOp::Slt, imm_i(w)),
        (0b011, _) => (AluOp::Sltu, imm_i(w)),
        (0b100, _) => (AluOp::Xor, imm_i(w)),
        (0b110, _) => (AluOp::Or, imm_i(w)),
        (0b111, _) => (AluOp::And, imm_i(w)),
        (0b001, 0b000_0000) => (AluOp::Sll, rs2(w)),
        (0b101, 0b000_0000) => (AluOp::Srl, rs2(w)),
        (0b101, 0b010_0000) => (AluOp::Sra, rs2(w)),
        _ => return None,
    };
    Some(Insn::AluImm { op, rd: a.xd(w)?, rs1: a.x1(w)?, imm })
}

#[inline(always)]
fn alu_op(funct7: u32, funct3: u32) -> Option<AluOp> {
    Some(match (funct7, funct3) {
        (0b000_0000, 0b000) => AluOp::Add,
        (0b000_0000, 0b001) => AluOp::Sll,
        (0b000_0000, 0b010) => AluOp::Slt,
        (0b000_0000, 0b011) => AluOp::Sltu,
        (0b000_0000, 0b100) => AluOp::Xor,
        (0b000_0000, 0b101) => AluOp::Srl,
        (0b000_0000, 0b110) => AluOp::Or,
        (0b000_0000, 0b111) => AluOp::And,
        (0b010_0000, 0b000) => AluOp::Sub,
        (0b010_0000, 0b101) => AluOp::Sra,
        (0b000_0001, 0b000) => AluOp::Mul,
        (0b000_0001, 0b001) => AluOp::Mulh,
        (0b000_0001, 0b010) => AluOp::Mulhsu,
        (0b000_0001, 0b011) => AluOp::Mulhu,
        (0b000_0001, 0b100) => AluOp::Div,
        (0b000_0001, 0b101) => AluOp::Divu,
        (0b000_0001, 0b110) => AluOp::Rem,
        (0b000_0001, 0b111) => AluOp::Remu,
        _ => return None,
    })
}

#[inline(always)]
fn csr(a: Above, w: u32) -> Option<Insn> {
    let op = match funct3(w) & 0b011 {
        0b01 => CsrOp::Write,
        0b10 => CsrOp::Set,
        0b11 => CsrOp::Clear,
        _ => return None,
    };
    let src = if funct3(w) & 0b100 == 0 { CsrSrc::X(a.x1(w)?) } else { CsrSrc::I(rs1(w)) };
    Some(Insn::Csr { op, rd: a.xd(w)?, csr: field(w, 31, 20), src })
}

#[inline(always)]
fn ventus_branch(a: Above, w: u32) -> Option<Insn> {
    match funct3(w) {
        0b010 if w == JOIN => Some(Insn::Join),
        0b011 => Some(Insn::SetRpc { rd: a.xd(w)?, rs1: a.x1(w)?, imm: imm_i(w) }),
        f => Some(Insn::Vbranch { cond: condition(f)?, vs1: a.v1(w), vs2: a.v2(w), off: imm_b(w) }),
    }
}

#[inline(always)]
fn ventus_control(w: u32) -> Option<Insn> {
    if rd(w) != 0 {
        return None;
    }
    match funct3(w) {
        0b010 if rs1(w) == 0 => Some(Insn::RegExt(field(w, 31, 20))),
        0b011 if rs1(w) == 0 => Some(Insn::RegExtI(field(w, 31, 20))),
        0b100 if rs2(w) == 0 => match funct7(w) {
            0b000_0000 if rs1(w) == 0 => Some(Insn::EndPrg),
            0b000_0010 => Some(Insn::Barrier),
            _ => None,
        },
        _ => None,
    }
}

#[inline(always)]
fn vector(a: Above, w: u32) -> Option<Insn> {
    let insn = match funct3(w) {
        0b000 | 0b011 | 0b100 => vector_integer(a, w)?,
        0b010 | 0b110 => vector_m(a, w)?,
        _ => return None,
    };
    (!has_mask(w) || may_have_mask(&insn)).then_some(insn)
}

/// vm = 0.
const fn has_mask(w: u32) -> bool {
    field(w, 25, 25) == 0
}

/// No word with vm = 0 moves to or from a scalar register, and only a compare writes v0.
#[inline(always)]
fn may_have_mask(insn: &Insn) -> bool {
    match *insn {
        Insn::Vec { op, vd, .. } => vd != V0 || op.is_compare(),
        Insn::Vid { vd, .. } => vd != V0,
        _ => false,
    }
}

#[inline(always)]
fn vector_integer(a: Above, w: u32) -> Option<Insn> {
    let funct6 = field(w, 31, 26);
    let (op, vv, vx, vi) = match funct6 {
        0b000000 => (VOp::Add, true, true, true),
        0b000010 => (VOp::Sub, true, true, false),
        0b000011 => (VOp::Rsub, false, true, true),
        0b000100 => (VOp::Minu, true, true, false),
        0b000101 => (VOp::Min, true, true, false),
        0b000110 => (VOp::Maxu, true, true, false),
        0b000111 => (VOp::Max, true, true, false),
        0b001001 => (VOp::And, true, true, true),
        0b001010 => (VOp::Or, true, true, true),
        0b001011 => (VOp::Xor, true, true, true),
        0b010111 if has_mask(w) => (VOp::Merge, true, true, true),
        0b010111 if rs2(w) == 0 => (VOp::Mv, true, true, true),
        0b011000 => (VOp::Seq, true, true, true),
        0b011001 => (VOp::Sne, true, true, true),
        0b011010 => (VOp::Sltu, true, true, false),
        0b011011 => (VOp::Slt, true, true, false),
        0b011100 => (VOp::Sleu, true, true, true),
        0b011101 => (VOp::Sle, true, true, true),
        0b011110 => (VOp::Sgtu, false, true, true),
        0b011111 => (VOp::Sgt, false, true, true),
        0b100101 => (VOp::Sll, true, true, true),
        0b101000 => (VOp::Srl, true, true, true),
        0b101001 => (VOp::Sra, true, true, true),
        _ => return None,
    };
    let src = match funct3(w) {
        0b000 if vv => VSrc::V(a.v1(w)),
        0b100 if vx => VSrc::X(a.x1(w)?),
        0b011 if vi => VSrc::I(match op {
            VOp::Sll | VOp::Srl | VOp::Sra => a.immediate(w) & 31,
            _ => a.immediate(w),
        }),
        _ => return None,
    };
    // Of a move, vs2 is no register: it reads none.
    let vs2 = if op == VOp::Mv { V0 } else { a.v2(w) };
    Some(Insn::Vec { masked: has_mask(w) && op != VOp::Merge, op, vd: a.vd(w), vs2, src })
}

#[inline(always)]
fn vector_m(a: Above, w: u32) -> Option<Insn> {
    let vv = funct3(w) == 0b010;
    let op = match field(w, 31, 26) {
        0b100000 => VOp::Divu,
        0b100001 => VOp::Div,
        0b100010 => VOp::Remu,
        0b100011 => VOp::Rem,
        0b100100 => VOp::Mulhu,
        0b100101 => VOp::Mul,
        0b100110 => VOp::Mulhsu,
        0b100111 => VOp::Mulh,
        0b010000 if vv && rs1(w) == 0 => return Some(Insn::VmvXS { rd: a.xd(w)?, vs2: a.v2(w) }),
        0b010000 if !vv && rs2(w) == 0 => return Some(Insn::VmvSX { vd: a.vd(w), rs1: a.x1(w)? }),
        0b010100 if vv && rs2(w) == 0 && rs1(w) == 0b10001 => {
            return Some(Insn::Vid { masked: has_mask(w), vd: a.vd(w) })
        }
        _ => return None,
    };
    let src = if vv { VSrc::V(a.v1(w)) } else { VSrc::X(a.x1(w)?) };
    Some(Insn::Vec { masked: has_mask(w), op, vd: a.vd(w), vs2: a.v2(w), src })
}

#[inline(always)]
fn vector_memory(a: Above, w: u32, space: Space) -> Option<Insn> {
    let vs1 = a.v1(w);
    let kind = match funct3(w) {
        0b111 => StoreKind::B,
        0b011 => StoreKind::H,
        0b110 => StoreKind::W,
        f => {
            let off = match space {
                Space::Flat => imm_i(w),
                Space::Private => sext(field(w, 30, 20), 11),
            };
            return Some(Insn::Vload { space, kind: load_kind(f)?, vd: a.vd(w), vs1, off });
        }
    };
    let off = match space {
        Space::Flat => imm_s(w),
        Space::Private => sext(field(w, 30, 25) << 5 | field(w, 11, 7), 11),
    };
    Some(Insn::Vstore { space, kind, vs1, vs2: a.v2(w), off })
}
