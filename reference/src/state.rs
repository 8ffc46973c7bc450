//! The state of one warp and what makes it well formed.

use crate::isa::{Prefix, SCALARS};

pub const LANES: usize = 32;
pub const SPLITS: usize = 31;

/// One open split. A record not in use is all zeros.
#[derive(Clone, Copy, Debug, Default, PartialEq, Eq)]
pub struct Split {
    pub rpc: u32,
    pub full: u32,
    pub else_mask: u32,
    pub else_pc: u32,
    /// False in phase one (the PC + 4 lanes run), true in phase two.
    pub phase_two: bool,
}

impl Split {
    /// The lanes of this split that are not parked in it.
    pub fn running(&self) -> u32 {
        if self.phase_two {
            self.else_mask
        } else {
            self.full & !self.else_mask
        }
    }
}

/// The launch values that stay fixed for the life of a warp.
#[derive(Clone, Copy, Debug, Default, PartialEq, Eq)]
pub struct Fixed {
    pub numt: u32,
    pub numw: u32,
    pub wid: u32,
    pub mask: u32,
    pub code_base: u32,
    pub data_base: u32,
    pub knl: u32,
    pub wgid: u32,
    pub lds: u32,
    pub pds: u32,
    pub gidx: u32,
    pub gidy: u32,
    pub gidz: u32,
}

impl Fixed {
    pub fn in_range(&self) -> bool {
        (1..=32).contains(&self.numt)
            && (1..=32).contains(&self.numw)
            && self.wid < self.numw
            && self.mask != 0
            && u64::from(self.mask) >> self.numt == 0
            && self.code_base % 4 == 0
    }

    /// The number of the warp's first thread.
    pub fn tid(&self) -> u32 {
        self.wid.wrapping_mul(self.numt)
    }
}

/// All values of a launch.
#[derive(Clone, Copy, Debug, Default, PartialEq, Eq)]
pub struct Launch {
    pub fixed: Fixed,
    pub entry: u32,
}

impl Launch {
    pub fn in_range(&self) -> bool {
        self.fixed.in_range() && self.entry % 4 == 0
    }
}

#[derive(Clone, Debug, PartialEq, Eq)]
pub struct Warp {
    pub x: [u32; SCALARS],
    pub splits: [Split; SPLITS],
    /// How many splits are open.
    pub depth: u32,
    pub pc: u32,
    pub mask: u32,
    pub rpc: u32,
    pub print: u32,
    pub ended: bool,
    pub waiting: bool,
    pub prefix: Prefix,
    pub fixed: Fixed,
}

/// All zeros.
impl Default for Warp {
    fn default() -> Warp {
        Warp {
            x: [0; SCALARS],
            splits: Default::default(),
            depth: 0,
            pc: 0,
            mask: 0,
            rpc: 0,
            print: 0,
            ended: false,
            waiting: false,
            prefix: Prefix::None,
            fixed: Fixed::default(),
        }
    }
}

impl Warp {
    /// The state in which a launch leaves the warp.
    pub fn launched(launch: &Launch) -> Warp {
        Warp { pc: launch.entry, mask: launch.fixed.mask, fixed: launch.fixed, ..Warp::default() }
    }

    pub fn well_formed(&self) -> bool {
        let depth = self.depth as usize;
        self.fixed.in_range()
            && self.pc % 4 == 0
            && self.x[0] == 0
            && depth <= SPLITS
            && !(self.ended && self.waiting)
            && (depth == 0 || !(self.ended || self.waiting))
            && (self.prefix == Prefix::None || !(self.ended || self.waiting))
            && self.prefix.bits() < 1 << 12
            && self.splits[depth..].iter().all(|s| *s == Split::default())
            && self.chain() == Some(self.mask)
    }

    /// The last running part of the split chain, if the chain holds.
    fn chain(&self) -> Option<u32> {
        let open = &self.splits[..self.depth as usize];
        open.iter().try_fold(self.fixed.mask, |expected, s| {
            let inside = s.else_mask != 0 && s.else_mask & !s.full == 0 && s.else_mask != s.full;
            (s.full == expected && inside && s.else_pc % 4 == 0).then(|| s.running())
        })
    }
}
