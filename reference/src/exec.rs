//! One step of a well-formed warp over lent runs of the right sizes.

use crate::isa::{
    decode, decode_after, AluOp, Cond, CsrOp, CsrSrc, Insn, LoadKind, Prefix, Space, StoreKind,
    VOp, VSrc, V, V0, VECTORS, X,
};
use crate::memory::{load_size, store_size, Memory};
use crate::state::{Fixed, Split, Warp, LANES};
use crate::Refusal;

/// The vector file: register r, lane l is word 32 r + l.
pub type VectorFile = [u32; VECTORS * LANES];

type Step = Result<(), Refusal>;

/// Fetch, decode and do one word, which uses up the prefix that was pending. A refusal changes
/// nothing.
#[inline]
pub fn step<M: Memory + ?Sized>(
    w: &mut Warp,
    kernel: &[u32],
    v: &mut VectorFile,
    memory: &mut M,
) -> Step {
    if w.ended {
        return Err(Refusal::Ended);
    }
    if w.waiting {
        return Err(Refusal::Waiting);
    }
    let word = fetch(w, kernel).ok_or(Refusal::NoWord)?;
    if w.prefix != Prefix::None {
        return step_behind(w, word, v, memory);
    }
    let insn = decode(word).ok_or(Refusal::NoInstruction)?;
    execute(w, insn, v, memory)
}

/// A word behind a prefix, so that it is no prefix itself. Apart, it leaves the other words as fast
/// as without it.
#[cold]
#[inline(never)]
fn step_behind<M: Memory + ?Sized>(
    w: &mut Warp,
    word: u32,
    v: &mut VectorFile,
    memory: &mut M,
) -> Step {
    let insn = decode_after(w.prefix, word).ok_or(Refusal::NoInstruction)?;
    execute(w, insn, v, memory)?;
    w.prefix = Prefix::None;
    Ok(())
}

/// The word that the PC lies on.
#[inline]
pub fn fetch(w: &Warp, kernel: &[u32]) -> Option<u32> {
    let offset = w.pc.checked_sub(w.fixed.code_base)?;
    kernel.get((offset / 4) as usize).copied()
}

#[inline]
fn execute<M: Memory + ?Sized>(
    w: &mut Warp,
    insn: Insn,
    v: &mut VectorFile,
    memory: &mut M,
) -> Step {
    match insn {
        Insn::Lui { rd, imm } => set(w, rd, imm),
        Insn::Auipc { rd, imm } => set(w, rd, w.pc.wrapping_add(imm)),
        Insn::Jal { rd, off } => return jump(w, rd, w.pc.wrapping_add(off)),
        Insn::Jalr { rd, rs1, imm } => return jump(w, rd, get(w, rs1).wrapping_add(imm) & !1),
        Insn::Branch { cond, rs1, rs2, off } => return branch(w, cond, rs1, rs2, off),
        Insn::Load { kind, rd, rs1, off } => {
            let at = scalar_place(w, memory, rs1, off, load_size(kind))?;
            set(w, rd, memory.load(kind, at));
        }
        Insn::Store { kind, rs1, rs2, off } => {
            let at = scalar_place(w, memory, rs1, off, store_size(kind))?;
            memory.store(kind, at, get(w, rs2));
        }
        Insn::AluImm { op, rd, rs1, imm } => set(w, rd, alu(op, get(w, rs1), imm)),
        Insn::Alu { op, rd, rs1, rs2 } => set(w, rd, alu(op, get(w, rs1), get(w, rs2))),
        Insn::Fence => {}
        Insn::Csr { op, rd, csr, src } => csr_step(w, op, rd, csr, src)?,
        Insn::Vbranch { cond, vs1, vs2, off } => return vbranch(w, v, cond, vs1, vs2, off),
        Insn::Join => return join(w),
        Insn::SetRpc { rd, rs1, imm } => set_rpc(w, rd, get(w, rs1).wrapping_add(imm)),
        Insn::EndPrg => return end(w),
        Insn::Barrier => wait(w)?,
        Insn::RegExt(bits) => w.prefix = Prefix::RegExt(bits),
        Insn::RegExtI(bits) => w.prefix = Prefix::RegExtI(bits),
        Insn::Vec { masked, op, vd, vs2, src } => {
            // In place: as a function of its own it makes such a step slower by a quarter.
            let src = match src {
                VSrc::V(vs1) => *lanes_of(v, vs1),
                VSrc::X(rs1) => [get(w, rs1); LANES],
                VSrc::I(imm) => [imm; LANES],
            };
            vector(op, written(masked, w.mask, v), v, vd, vs2, &src);
        }
        Insn::VmvSX { vd, rs1 } => fill(w.mask, lanes_mut(v, vd), get(w, rs1)),
        Insn::VmvXS { rd, vs2 } => set(w, rd, uniform(w.mask, lanes_of(v, vs2))?),
        Insn::Vid { masked, vd } => {
            lanes(written(masked, w.mask, v), lanes_mut(v, vd), |lane| lane as u32);
        }
        Insn::Vload { space, kind, vd, vs1, off } => {
            let at = places(w, memory, lanes_of(v, vs1), space, off, load_size(kind))?;
            load_lanes(w.mask, lanes_mut(v, vd), memory, kind, &at);
        }
        Insn::Vstore { space, kind, vs1, vs2, off } => {
            let (size, values) = (store_size(kind), lanes_of(v, vs2));
            let at = places(w, memory, lanes_of(v, vs1), space, off, size)?;
            if clash(w.mask, values, &at, size) {
                return Err(Refusal::Clashing);
            }
            store_lanes(w.mask, values, memory, kind, &at);
        }
    }
    w.pc = w.pc.wrapping_add(4);
    Ok(())
}

// Scalar side.

#[inline]
fn get(w: &Warp, r: X) -> u32 {
    w.x[r.index()]
}

#[inline]
fn set(w: &mut Warp, r: X, value: u32) {
    if r.index() != 0 {
        w.x[r.index()] = value;
    }
}

#[inline]
fn aligned(target: u32) -> Result<u32, Refusal> {
    if target % 4 == 0 {
        Ok(target)
    } else {
        Err(Refusal::Target)
    }
}

#[inline]
fn jump(w: &mut Warp, rd: X, target: u32) -> Step {
    let target = aligned(target)?;
    set(w, rd, w.pc.wrapping_add(4));
    w.pc = target;
    Ok(())
}

#[inline]
fn branch(w: &mut Warp, cond: Cond, rs1: X, rs2: X, off: u32) -> Step {
    w.pc = if holds(cond, get(w, rs1), get(w, rs2)) {
        aligned(w.pc.wrapping_add(off))?
    } else {
        w.pc.wrapping_add(4)
    };
    Ok(())
}

#[inline]
fn holds(cond: Cond, a: u32, b: u32) -> bool {
    match cond {
        Cond::Eq => a == b,
        Cond::Ne => a != b,
        Cond::Lt => (a as i32) < (b as i32),
        Cond::Ge => (a as i32) >= (b as i32),
        Cond::Ltu => a < b,
        Cond::Geu => a >= b,
    }
}

#[inline]
fn alu(op: AluOp, a: u32, b: u32) -> u32 {
    match op {
        AluOp::Add => a.wrapping_add(b),
        AluOp::Sub => a.wrapping_sub(b),
        AluOp::Sll => a.wrapping_shl(b),
        AluOp::Slt => ((a as i32) < (b as i32)).into(),
        AluOp::Sltu => (a < b).into(),
        AluOp::Xor => a ^ b,
        AluOp::Srl => a.wrapping_shr(b),
        AluOp::Sra => (a as i32).wrapping_shr(b) as u32,
        AluOp::Or => a | b,
        AluOp::And => a & b,
        AluOp::Mul => a.wrapping_mul(b),
        AluOp::Mulh => mulh(a, b),
        AluOp::Mulhsu => mulhsu(a, b),
        AluOp::Mulhu => mulhu(a, b),
        AluOp::Div => div(a, b),
        AluOp::Divu => divu(a, b),
        AluOp::Rem => rem(a, b),
        AluOp::Remu => remu(a, b),
    }
}

fn mulh(a: u32, b: u32) -> u32 {
    ((i64::from(a as i32) * i64::from(b as i32)) >> 32) as u32
}

/// High word of signed a times unsigned b.
fn mulhsu(a: u32, b: u32) -> u32 {
    ((i64::from(a as i32) * i64::from(b)) >> 32) as u32
}

fn mulhu(a: u32, b: u32) -> u32 {
    ((u64::from(a) * u64::from(b)) >> 32) as u32
}

fn div(a: u32, b: u32) -> u32 {
    if b == 0 {
        u32::MAX
    } else {
        (a as i32).wrapping_div(b as i32) as u32
    }
}

fn divu(a: u32, b: u32) -> u32 {
    a.checked_div(b).unwrap_or(u32::MAX)
}

fn rem(a: u32, b: u32) -> u32 {
    if b == 0 {
        a
    } else {
        (a as i32).wrapping_rem(b as i32) as u32
    }
}

fn remu(a: u32, b: u32) -> u32 {
    a.checked_rem(b).unwrap_or(a)
}

const PRINT: u32 = 0x80b;
const RPC: u32 = 0x80c;

fn csr_read(w: &Warp, csr: u32) -> Option<u32> {
    let f = &w.fixed;
    Some(match csr {
        0x800 => f.tid(),
        0x801 => f.numw,
        0x802 => f.numt,
        0x803 => f.knl,
        0x804 => f.wgid,
        0x805 => f.wid,
        0x806 => f.lds,
        0x807 => f.pds,
        0x808 => f.gidx,
        0x809 => f.gidy,
        0x80a => f.gidz,
        PRINT => w.print,
        RPC => w.rpc,
        _ => return None,
    })
}

fn csr_step(w: &mut Warp, op: CsrOp, rd: X, csr: u32, src: CsrSrc) -> Step {
    let old = csr_read(w, csr).ok_or(Refusal::Csr)?;
    let (operand, zero) = match src {
        CsrSrc::X(rs1) => (get(w, rs1), rs1.index() == 0),
        CsrSrc::I(imm) => (imm, imm == 0),
    };
    if op == CsrOp::Write || !zero {
        let new = match op {
            CsrOp::Write => operand,
            CsrOp::Set => old | operand,
            CsrOp::Clear => old & !operand,
        };
        match csr {
            PRINT => w.print = new,
            RPC => w.rpc = new,
            _ => return Err(Refusal::Csr),
        }
    }
    set(w, rd, old);
    Ok(())
}

#[inline]
fn set_rpc(w: &mut Warp, rd: X, value: u32) {
    w.rpc = value;
    set(w, rd, value);
}

#[inline]
fn no_split_open(w: &Warp) -> Step {
    if w.depth == 0 {
        Ok(())
    } else {
        Err(Refusal::SplitOpen)
    }
}

/// ENDPRG: the PC stays.
#[inline]
fn end(w: &mut Warp) -> Step {
    no_split_open(w)?;
    w.ended = true;
    Ok(())
}

/// BARRIER.
#[inline]
fn wait(w: &mut Warp) -> Step {
    no_split_open(w)?;
    w.waiting = true;
    Ok(())
}

// Splits and joins.

fn vbranch(w: &mut Warp, v: &VectorFile, cond: Cond, vs1: V, vs2: V, off: u32) -> Step {
    let (a, b) = (lanes_of(v, vs1), lanes_of(v, vs2));
    let holding = match cond {
        Cond::Eq => compare(a, b, |a, b| a == b),
        Cond::Ne => compare(a, b, |a, b| a != b),
        Cond::Lt => compare(a, b, |a, b| (a as i32) < (b as i32)),
        Cond::Ge => compare(a, b, |a, b| (a as i32) >= (b as i32)),
        Cond::Ltu => compare(a, b, |a, b| a < b),
        Cond::Geu => compare(a, b, |a, b| a >= b),
    };
    let else_mask = holding & w.mask;
    let next = w.pc.wrapping_add(4);
    if else_mask == 0 {
        w.pc = next;
        return Ok(());
    }
    let else_pc = aligned(w.pc.wrapping_add(off))?;
    if else_mask == w.mask {
        w.pc = else_pc;
        return Ok(());
    }
    // At most 31 splits fit inside 32 lanes, so the place is there.
    w.splits[w.depth as usize] =
        Split { rpc: w.rpc, full: w.mask, else_mask, else_pc, phase_two: false };
    w.depth += 1;
    w.mask &= !else_mask;
    w.pc = next;
    Ok(())
}

#[inline]
fn compare(a: &[u32; LANES], b: &[u32; LANES], f: impl Fn(u32, u32) -> bool) -> u32 {
    (0..LANES).fold(0, |mask, lane| mask | if f(a[lane], b[lane]) { BIT[lane] } else { 0 })
}

fn join(w: &mut Warp) -> Step {
    let open = w.depth as usize;
    if let Some(last) = w.splits[..open].last_mut() {
        if last.rpc == w.pc {
            if last.phase_two {
                w.mask = last.full;
                *last = Split::default();
                w.depth -= 1;
            } else {
                last.phase_two = true;
                w.mask = last.else_mask;
                w.pc = last.else_pc;
            }
            return Ok(());
        }
    }
    w.pc = w.pc.wrapping_add(4);
    Ok(())
}

// Vector side.

/// The active lanes, lowest first.
#[inline]
fn active(mut mask: u32) -> impl Iterator<Item = usize> {
    std::iter::from_fn(move || {
        (mask != 0).then(|| {
            let lane = mask.trailing_zeros() as usize;
            mask &= mask - 1;
            lane
        })
    })
}

/// The mask bit of each lane.
const BIT: [u32; LANES] = {
    let mut bit = [0; LANES];
    let mut lane = 0;
    while lane < LANES {
        bit[lane] = 1 << lane;
        lane += 1;
    }
    bit
};

#[inline]
fn lanes_of(v: &VectorFile, r: V) -> &[u32; LANES] {
    v[r.index() * LANES..][..LANES].try_into().expect("a register is 32 words")
}

#[inline]
fn lanes_mut(v: &mut VectorFile, r: V) -> &mut [u32; LANES] {
    (&mut v[r.index() * LANES..][..LANES]).try_into().expect("a register is 32 words")
}

/// The lanes that a word writes: the active ones, or if it is masked those of them whose v0 word
/// has bit 0 set.
#[inline]
fn written(masked: bool, active: u32, v: &VectorFile) -> u32 {
    if masked {
        active & set_in_v0(v)
    } else {
        active
    }
}

#[inline]
fn set_in_v0(v: &VectorFile) -> u32 {
    let v0 = lanes_of(v, V0);
    (0..LANES).fold(0, |set, lane| set | (v0[lane] & 1) << lane)
}

/// Write some lanes of one register; `f` is cheap, so it is done for all
/// lanes and blended.
#[inline]
fn lanes(mask: u32, d: &mut [u32; LANES], f: impl Fn(usize) -> u32) {
    for lane in 0..LANES {
        let keep = u32::from(mask & BIT[lane] != 0).wrapping_sub(1);
        d[lane] = d[lane] & keep | f(lane) & !keep;
    }
}

#[inline]
fn fill(mask: u32, d: &mut [u32; LANES], value: u32) {
    lanes(mask, d, |_| value);
}

fn vector(op: VOp, mask: u32, v: &mut VectorFile, vd: V, vs2: V, b: &[u32; LANES]) {
    let a = *lanes_of(v, vs2);
    let d = lanes_mut(v, vd);
    match op {
        VOp::Add => lanes(mask, d, |l| a[l].wrapping_add(b[l])),
        VOp::Sub => lanes(mask, d, |l| a[l].wrapping_sub(b[l])),
        VOp::Rsub => lanes(mask, d, |l| b[l].wrapping_sub(a[l])),
        VOp::Minu => lanes(mask, d, |l| a[l].min(b[l])),
        VOp::Min => lanes(mask, d, |l| (a[l] as i32).min(b[l] as i32) as u32),
        VOp::Maxu => lanes(mask, d, |l| a[l].max(b[l])),
        VOp::Max => lanes(mask, d, |l| (a[l] as i32).max(b[l] as i32) as u32),
        VOp::And => lanes(mask, d, |l| a[l] & b[l]),
        VOp::Or => lanes(mask, d, |l| a[l] | b[l]),
        VOp::Xor => lanes(mask, d, |l| a[l] ^ b[l]),
        VOp::Sll => lanes(mask, d, |l| a[l].wrapping_shl(b[l])),
        VOp::Srl => lanes(mask, d, |l| a[l].wrapping_shr(b[l])),
        VOp::Sra => lanes(mask, d, |l| (a[l] as i32).wrapping_shr(b[l]) as u32),
        VOp::Seq => lanes(mask, d, |l| (a[l] == b[l]).into()),
        VOp::Sne => lanes(mask, d, |l| (a[l] != b[l]).into()),
        VOp::Sltu => lanes(mask, d, |l| (a[l] < b[l]).into()),
        VOp::Slt => lanes(mask, d, |l| ((a[l] as i32) < (b[l] as i32)).into()),
        VOp::Sleu => lanes(mask, d, |l| (a[l] <= b[l]).into()),
        VOp::Sle => lanes(mask, d, |l| ((a[l] as i32) <= (b[l] as i32)).into()),
        VOp::Sgtu => lanes(mask, d, |l| (a[l] > b[l]).into()),
        VOp::Sgt => lanes(mask, d, |l| ((a[l] as i32) > (b[l] as i32)).into()),
        VOp::Mv => lanes(mask, d, |l| b[l]),
        VOp::Merge => {
            let set = set_in_v0(v);
            lanes(mask, lanes_mut(v, vd), |l| if set & BIT[l] != 0 { b[l] } else { a[l] });
        }
        VOp::Mulhu => lanes(mask, d, |l| mulhu(a[l], b[l])),
        VOp::Mul => lanes(mask, d, |l| a[l].wrapping_mul(b[l])),
        VOp::Mulhsu => lanes(mask, d, |l| mulhsu(a[l], b[l])),
        VOp::Mulh => lanes(mask, d, |l| mulh(a[l], b[l])),
        VOp::Divu => active(mask).for_each(|l| d[l] = divu(a[l], b[l])),
        VOp::Div => active(mask).for_each(|l| d[l] = div(a[l], b[l])),
        VOp::Remu => active(mask).for_each(|l| d[l] = remu(a[l], b[l])),
        VOp::Rem => active(mask).for_each(|l| d[l] = rem(a[l], b[l])),
    }
}

/// The value that all active lanes hold.
fn uniform(mask: u32, a: &[u32; LANES]) -> Result<u32, Refusal> {
    let mut values = active(mask).map(|lane| a[lane]);
    let first = values.next().ok_or(Refusal::Differ)?;
    if values.all(|value| value == first) {
        Ok(first)
    } else {
        Err(Refusal::Differ)
    }
}

// Loads and stores.

/// The place of a scalar access.
#[inline]
fn scalar_place<M: Memory + ?Sized>(
    w: &Warp,
    memory: &M,
    rs1: X,
    off: u32,
    size: usize,
) -> Result<usize, Refusal> {
    memory.place(&w.fixed, get(w, rs1).wrapping_add(off), size)
}

/// The address of a lane's access at `u`, its base plus offset. Private: the lanes' first words
/// stand side by side, then their second words, and so on.
#[inline]
pub fn address(f: &Fixed, space: Space, lane: usize, u: u32) -> u32 {
    match space {
        Space::Flat => u,
        Space::Private => (u & !3)
            .wrapping_mul(f.numt)
            .wrapping_add(u % 4)
            .wrapping_add(4 * lane as u32)
            .wrapping_add(f.pds),
    }
}

/// Whether a private access at `u` goes past the end of its word.
#[inline]
pub fn crosses(u: u32, size: usize) -> bool {
    (u % 4) as usize + size > 4
}

/// Every active lane's place, tested before any lane acts: that none crosses, then that all are
/// inside.
#[inline]
fn places<M: Memory + ?Sized>(
    w: &Warp,
    memory: &M,
    bases: &[u32; LANES],
    space: Space,
    off: u32,
    size: usize,
) -> Result<[usize; LANES], Refusal> {
    let u = |lane: usize| bases[lane].wrapping_add(off);
    if space == Space::Private && active(w.mask).any(|lane| crosses(u(lane), size)) {
        return Err(Refusal::Crossing);
    }
    let mut at = [0; LANES];
    for lane in active(w.mask) {
        let address = address(&w.fixed, space, lane, u(lane));
        at[lane] = memory.place(&w.fixed, address, size)?;
    }
    Ok(at)
}

#[inline]
fn load_lanes<M: Memory + ?Sized>(
    mask: u32,
    d: &mut [u32; LANES],
    memory: &M,
    kind: LoadKind,
    at: &[usize; LANES],
) {
    for lane in active(mask) {
        d[lane] = memory.load(kind, at[lane]);
    }
}

/// Whether two active lanes would store different values to one byte. Mostly the lanes go up or
/// down by a store's size or more, so that no two have a byte in common; only where they don't are
/// the lanes compared two by two.
#[inline]
fn clash(mask: u32, values: &[u32; LANES], at: &[usize; LANES], size: usize) -> bool {
    let places = || active(mask).map(|lane| at[lane]);
    let neighbours = || places().zip(places().skip(1));
    let up = neighbours().all(|(one, next)| one + size <= next);
    let apart = up || neighbours().all(|(one, next)| next + size <= one);
    !apart && pair_clashes(mask, values, at, size)
}

#[inline(never)]
fn pair_clashes(mask: u32, values: &[u32; LANES], at: &[usize; LANES], size: usize) -> bool {
    let store = |lane: usize| (at[lane], values[lane]);
    let below = |lane: usize| active(mask & (BIT[lane] - 1));
    active(mask).any(|lane| below(lane).any(|other| differ(store(lane), store(other), size)))
}

/// Whether two stores, each at a place with a value, leave a byte that they have in common
/// different.
#[inline]
pub fn differ(one: (usize, u32), other: (usize, u32), size: usize) -> bool {
    let ((at, low), (next, high)) = if one.0 <= other.0 { (one, other) } else { (other, one) };
    // From byte `from` on, the lower store's bytes are the upper one's first ones.
    let from = next - at;
    from < size && (low >> (8 * from) ^ high) & (u32::MAX >> (8 * (4 + from - size))) != 0
}

/// In any order: a byte that lanes have in common gets the same value from each.
#[inline]
fn store_lanes<M: Memory + ?Sized>(
    mask: u32,
    a: &[u32; LANES],
    memory: &mut M,
    kind: StoreKind,
    at: &[usize; LANES],
) {
    for lane in active(mask) {
        memory.store(kind, at[lane], a[lane]);
    }
}
