//! A warp with its lent runs, and a very small assembler.
#![allow(dead_code)] // each test program uses a part of it

use reference::run;
use reference::state::{Fixed, Launch, Warp};
use reference::table;

pub const CODE: u32 = 0x8000_0000;
pub const DATA: u32 = 0x9000_0000;

pub fn launch(numt: u32) -> Launch {
    let mask = if numt == 32 { u32::MAX } else { (1 << numt) - 1 };
    Launch {
        fixed: Fixed { numt, numw: 1, mask, code_base: CODE, data_base: DATA, ..Fixed::default() },
        entry: CODE,
    }
}

/// A warp with its lent runs.
pub struct Bench {
    pub warp: Warp,
    pub kernel: Vec<u32>,
    pub vector: Vec<u32>,
    pub data: Vec<u8>,
}

impl Bench {
    pub fn new(numt: u32, kernel: &[u32], data: usize) -> Bench {
        Bench::launched(&launch(numt), kernel, data)
    }
    pub fn launched(launch: &Launch, kernel: &[u32], data: usize) -> Bench {
        let mut vector = vec![7; run::VECTOR_WORDS];
        let data = vec![0; data];
        let (code, warp) = run::launch(launch, kernel, &mut vector, &data);
        assert_eq!(code, 0);
        assert!(vector.iter().all(|w| *w == 0));
        Bench { warp, kernel: kernel.to_vec(), vector, data }
    }
    pub fn set_v(&mut self, r: usize, values: &[u32]) {
        self.vector[r * 32..r * 32 + values.len()].copy_from_slice(values);
    }
    pub fn v(&self, r: usize, lane: usize) -> u32 {
        self.vector[r * 32 + lane]
    }
    pub fn step(&mut self) -> u32 {
        run::step(&mut self.warp, &self.kernel, &mut self.vector, &mut self.data)
    }
    pub fn run(&mut self, budget: u32) -> (u32, u32) {
        run::run(&mut self.warp, &self.kernel, &mut self.vector, &mut self.data, budget)
    }
    /// A step that must be refused and must change nothing.
    pub fn refused(&mut self, number: u32) {
        let before = (self.warp.clone(), self.vector.clone(), self.data.clone());
        assert_eq!(self.step(), number);
        assert_eq!(before, (self.warp.clone(), self.vector.clone(), self.data.clone()));
    }
}

// A very small assembler.

pub fn variant(name: &str) -> u32 {
    table::variants().iter().find(|v| v.name == name).unwrap_or_else(|| panic!("{name}")).fixed
}
pub fn r(name: &str, rd: u32, rs1: u32, rs2: u32) -> u32 {
    variant(name) | rd << 7 | rs1 << 15 | rs2 << 20
}
pub fn i(name: &str, rd: u32, rs1: u32, imm: i32) -> u32 {
    variant(name) | rd << 7 | rs1 << 15 | (imm as u32 & 0xfff) << 20
}
pub fn s(name: &str, rs1: u32, rs2: u32, imm: i32) -> u32 {
    let imm = imm as u32;
    variant(name) | rs1 << 15 | rs2 << 20 | (imm >> 5 & 0x7f) << 25 | (imm & 31) << 7
}
pub fn b(name: &str, rs1: u32, rs2: u32, off: i32) -> u32 {
    let o = off as u32;
    variant(name)
        | rs1 << 15
        | rs2 << 20
        | (o >> 12 & 1) << 31
        | (o >> 5 & 63) << 25
        | (o >> 1 & 15) << 8
        | (o >> 11 & 1) << 7
}
pub fn j(rd: u32, off: i32) -> u32 {
    let o = off as u32;
    0x6f | rd << 7
        | (o >> 20 & 1) << 31
        | (o >> 1 & 0x3ff) << 21
        | (o >> 11 & 1) << 20
        | (o >> 12 & 0xff) << 12
}
/// vd = op(vs2, src)
pub fn v(name: &str, vd: u32, vs2: u32, src: u32) -> u32 {
    variant(name) | vd << 7 | (src & 31) << 15 | vs2 << 20
}

/// Any words, one after the other.
pub fn any_words(mut x: u32) -> impl FnMut() -> u32 {
    move || {
        x ^= x << 13;
        x ^= x >> 17;
        x ^= x << 5;
        x
    }
}
