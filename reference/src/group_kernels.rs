//! Kernels for the group cases: their warps meet at barriers, part by their WID, and load and store
//! in both memories.

use crate::generate::{access, Builder, Rng};
use crate::isa::ENDPRG;
use crate::table::{enc_b, enc_i, enc_j, rd, rs1, rs2, Table, BARRIER};

// What the registers hold that no piece of the builder writes.

/// The data base, by the builder's own prelude.
pub(crate) const DATA: u32 = 8;
const WID: u32 = 22;
const LDS: u32 = 23;
/// The addresses of a word that other warps of few don't have, in each memory.
const OWN_IN_DATA: u32 = 25;
const OWN_IN_LOCAL: u32 = 26;
/// For what is loaded, stored or counted.
pub(crate) const SCRATCH: u32 = 28;
const NUMBER: u32 = 29;
/// Lane addresses: in data, in local memory, and in both by turns.
const LANES_IN_DATA: u32 = 2;
const LANES_IN_LOCAL: u32 = 25;
const LANES_IN_BOTH: u32 = 26;
/// A vector register that is not written, and so 0 in a launched warp.
const ZERO: u32 = 31;

pub(crate) struct GroupKernel<'a> {
    t: &'a Table,
    b: Builder<'a>,
    warps: u32,
}

impl<'a> GroupKernel<'a> {
    /// The words of a kernel for a launched group.
    pub(crate) fn draw(rng: &mut Rng, t: &'a Table, data_base: u32, warps: u32) -> Vec<u32> {
        let (limit, bad) = (rng.pick(&[30, 40, 50, 70]), rng.pick(&[0, 0, 6]));
        let mut kernel = GroupKernel { t, b: Builder::new(t, limit, bad), warps };
        kernel.b.prelude(rng, data_base);
        kernel.addresses();
        for _ in 0..2 + rng.below(5) {
            kernel.piece(rng, 0);
        }
        match rng.below(8) {
            0 => kernel.b.op("jal", enc_j(-4 * rng.range(0, 4))), // for ever
            1 => {}                                               // past the last word
            2 => kernel.b.words.extend([BARRIER, ENDPRG]),
            _ => kernel.b.words.push(ENDPRG),
        }
        kernel.b.words
    }

    /// After the builder's prelude.
    fn addresses(&mut self) {
        let b = &mut self.b;
        b.op("csrrs", rd(WID) | enc_i(0x805));
        b.op("csrrs", rd(LDS) | enc_i(0x806));
        b.op("slli", rd(SCRATCH) | rs1(WID) | enc_i(2));
        b.op("add", rd(OWN_IN_DATA) | rs1(DATA) | rs2(SCRATCH));
        b.op("add", rd(OWN_IN_LOCAL) | rs1(LDS) | rs2(SCRATCH));
        b.op("vsll.vi", rd(LANES_IN_LOCAL) | rs2(1) | rs1(2));
        b.op("vadd.vx", rd(LANES_IN_LOCAL) | rs2(LANES_IN_LOCAL) | rs1(LDS));
        // Odd lanes are moved by the distance of the bases.
        b.op("sub", rd(SCRATCH) | rs1(LDS) | rs2(DATA));
        b.op("vand.vi", rd(LANES_IN_BOTH) | rs2(1) | rs1(1));
        b.op("vmul.vx", rd(LANES_IN_BOTH) | rs2(LANES_IN_BOTH) | rs1(SCRATCH));
        b.op("vadd.vv", rd(LANES_IN_BOTH) | rs2(LANES_IN_BOTH) | rs1(LANES_IN_DATA));
    }

    fn piece(&mut self, rng: &mut Rng, depth: u32) {
        match rng.below(18) {
            0..=3 => self.b.words.push(BARRIER | rs1(rng.below(32))),
            4..=5 => self.own_word(rng),
            6..=7 => self.common_word(rng),
            8..=9 => self.lane_words(rng),
            10..=12 if depth < 2 => self.some_warps(rng, depth),
            13 => self.delay(),
            14..=15 => self.b.branch(rng, 2),
            16 if rng.chance(2) => self.b.turns(rng, 2),
            _ => self.b.block(rng, 2),
        }
    }

    fn scalar_access(&mut self, name: &str, address: u32, off: i32) {
        self.b.words.push(access(self.t.get(name), address, SCRATCH, off));
    }

    /// A store that the other warps don't meet, or a load of a neighbour's word.
    fn own_word(&mut self, rng: &mut Rng) {
        let address = rng.pick(&[OWN_IN_DATA, OWN_IN_LOCAL]);
        if rng.chance(2) {
            self.scalar_access(rng.pick(&["sb", "sh", "sw"]), address, 0);
        } else {
            self.scalar_access(rng.pick(&["lb", "lhu", "lw"]), address, 4 * rng.range(-1, 1));
        }
    }

    /// One more in a word of all warps: a race.
    fn common_word(&mut self, rng: &mut Rng) {
        let (address, off) = (rng.pick(&[DATA, LDS]), rng.range(0, 6));
        self.scalar_access("lw", address, off);
        self.b.op("addi", rd(SCRATCH) | rs1(SCRATCH) | enc_i(1));
        self.scalar_access("sw", address, off);
    }

    fn lane_words(&mut self, rng: &mut Rng) {
        for _ in 0..1 + rng.below(2) {
            let addresses = rng.pick(&[LANES_IN_DATA, LANES_IN_LOCAL, LANES_IN_BOTH]);
            let name = match rng.below(2) {
                0 if addresses == LANES_IN_LOCAL => rng.pick(&["vsb12", "vsh12", "vsw12"]),
                0 => self.b.flat_store(rng),
                _ => rng.pick(&["vlb12", "vlhu12", "vlw12", "vlw12"]),
            };
            let v = self.t.get(name);
            let word = access(v, addresses, 4 + rng.below(12), rng.pick(&[0, 0, 1, 4]));
            self.b.words.push(word);
        }
    }

    /// Only some warps go through: they end, are refused, or do other pieces.
    fn some_warps(&mut self, rng: &mut Rng, depth: u32) {
        let branch = self.t.fixed(rng.pick(&["beq", "bne", "blt", "bgeu"]));
        self.b.op("addi", rd(NUMBER) | enc_i(rng.below(self.warps) as i32));
        let skip = self.b.hole();
        match rng.below(8) {
            0..=1 => self.b.words.push(ENDPRG),
            2 => {
                let way = rng.below(REFUSED_WAYS);
                self.b.words.extend(refused_words(rng, self.t, way));
            }
            _ => (0..1 + rng.below(3)).for_each(|_| self.piece(rng, depth + 1)),
        }
        let past = self.b.off(skip, self.b.here());
        self.b.words[skip] = branch | rs1(WID) | rs2(NUMBER) | enc_b(past);
    }

    /// As many turns of a loop as the WID says.
    fn delay(&mut self) {
        self.b.op("addi", rd(SCRATCH) | rs1(WID));
        self.b.op("beq", rs1(SCRATCH) | enc_b(12));
        self.b.op("addi", rd(SCRATCH) | rs1(SCRATCH) | enc_i(-1));
        self.b.op("jal", enc_j(-8));
    }
}

/// The ways in which `refused_words` are refused: 5 to 11, of which 11 in two ways, 14 and 15.
pub(crate) const REFUSED_WAYS: u32 = 10;
pub(crate) const IN_SPLITS: [u32; 2] = [6, 7];

/// An address in neither memory.
pub(crate) const OUTSIDE: u32 = 0x5555_5000;

/// Words of which the last is refused (with 5: the jump's target), where lane 0 and another are
/// active.
pub(crate) fn refused_words(rng: &mut Rng, t: &Table, way: u32) -> Vec<u32> {
    let lane_numbers = t.fixed("vid.v") | rd(9);
    let leaves_lane_0 = t.fixed("vbeq") | rs1(9) | rs2(ZERO) | enc_b(8);
    let address = t.fixed("lui") | rd(SCRATCH) | OUTSIDE;
    match way {
        0 => vec![t.fixed("jal") | enc_j(2048)],
        1 => vec![rng.pick(&[0, u32::MAX, 0x73])],
        2 => vec![t.fixed("csrrw") | enc_i(0x805)],
        3 => vec![t.fixed("jal") | enc_j(2)],
        4 => vec![address, access(t.get(rng.pick(&["lw", "sb"])), SCRATCH, 0, 0)],
        5 => vec![lane_numbers, t.fixed("vmv.x.s") | rd(SCRATCH) | rs2(9)],
        6 => vec![lane_numbers, leaves_lane_0, ENDPRG],
        7 => vec![lane_numbers, leaves_lane_0, BARRIER],
        8 => {
            let name = rng.pick(&["vlw.p", "vsw.p"]);
            let zero = t.fixed("vmv.vi") | rd(ZERO);
            vec![zero, access(t.get(name), ZERO, 9, rng.range(1, 3))]
        }
        _ => {
            let name = rng.pick(&["vsb12", "vsh12", "vsw12"]);
            let one_address = t.fixed("vmv.vx") | rd(10) | rs1(DATA);
            vec![lane_numbers, one_address, access(t.get(name), 10, 9, rng.range(0, 9))]
        }
    }
}
