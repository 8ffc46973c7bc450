//! Stores of lanes that have bytes in common, and agree on them or not: where each lane stores and
//! what, the words that do it, and the generator's family of such stores by a single warp.

use crate::case::{Case, Data};
use crate::generate::{
    access, is_private, low_mask, open_splits, plain_ground, size_of, some_lanes, state_case, Rng,
};
use crate::state::Warp;
use crate::table::{rd, regext, rs1, rs2, Shape, Table, Variant};

/// What an active lane stores, and where: at a byte of the target; in the tables of `table_bytes`,
/// what its address register then holds.
#[derive(Clone, Copy)]
pub(crate) struct Stored {
    pub(crate) lane: u32,
    pub(crate) at: u32,
    pub(crate) value: u32,
}

/// The bytes of a target that the stores reach, from its first.
pub(crate) fn span(all: &[Stored], size: u32) -> u32 {
    all.iter().map(|one| one.at + size).max().unwrap_or(0)
}

/// The lanes of a mask, lowest first.
pub(crate) fn lanes_of(mask: u32) -> Vec<u32> {
    (0..32).filter(|lane| mask >> lane & 1 == 1).collect()
}

// Where lanes store.

/// Before the first place of a target, so that a lane can be moved down.
const MARGIN: u32 = 8;

/// How the lanes lie in their target, lowest lane first.
#[derive(Clone, Copy)]
enum Order {
    Up,
    Down,
    Scattered,
    /// Anywhere in a few bytes.
    Dense,
    /// All at one place.
    One,
    /// Each one, two or three bytes from the one before.
    Chain,
}

impl Order {
    fn draw(rng: &mut Rng) -> Order {
        match rng.below(10) {
            0..=1 => Order::Up,
            2..=3 => Order::Down,
            4..=5 => Order::Scattered,
            6 => Order::Dense,
            7 => Order::One,
            _ => Order::Chain,
        }
    }

    /// Whether lanes have bytes in common without being moved.
    fn meets(self) -> bool {
        matches!(self, Order::Dense | Order::One | Order::Chain)
    }

    /// The places of so many lanes.
    fn places(self, rng: &mut Rng, count: u32, size: u32) -> Vec<u32> {
        let gap = match self {
            Order::Chain => 1 + rng.below(3),
            _ => rng.pick(&[size, size + 1, 8, 8]),
        };
        let room = size + rng.below(3 * size);
        let place = |n: u32| match self {
            Order::Dense => MARGIN + rng.below(room),
            Order::One => MARGIN,
            _ => MARGIN + gap * n,
        };
        let mut at: Vec<u32> = (0..count).map(place).collect();
        match self {
            Order::Down => at.reverse(),
            Order::Chain if rng.chance(2) => at.reverse(),
            Order::Scattered => shuffle(rng, &mut at),
            _ => {}
        }
        at
    }
}

fn shuffle(rng: &mut Rng, at: &mut [u32]) {
    for n in (1..at.len()).rev() {
        at.swap(n, rng.below(n as u32 + 1) as usize);
    }
}

/// Two of so many lanes, neighbours or any, in either order.
fn two(rng: &mut Rng, count: usize) -> (usize, usize) {
    let one = rng.below(count as u32 - 1) as usize;
    let between = if rng.chance(2) { 0 } else { rng.below((count - one) as u32 - 1) as usize };
    let other = one + 1 + between;
    rng.pick(&[(one, other), (other, one)])
}

/// How many lanes are moved to others.
fn moves(rng: &mut Rng, count: usize) -> usize {
    match count {
        0 | 1 => 0,
        _ => rng.pick(&[0, 1, 1, 1, 1, 2, count / 2]),
    }
}

/// The places of lanes in a plain store's target.
fn plain_places(rng: &mut Rng, count: usize, size: u32) -> Vec<u32> {
    let order = Order::draw(rng);
    let mut at = order.places(rng, count as u32, size);
    let moves = if order.meets() { 0 } else { moves(rng, count) };
    for _ in 0..moves {
        let (from, to) = two(rng, count);
        let by = rng.range(1 - size as i32, size as i32 - 1);
        at[to] = (at[from] as i32 + by).max(0) as u32;
    }
    at
}

/// Where in a word a private access may begin.
fn fitting(rng: &mut Rng, size: u32) -> u32 {
    rng.below(5 - size)
}

/// The places of lanes in a private store's target: each in its own word of some row, or moved
/// into another's, which takes a huge u.
fn private_places(rng: &mut Rng, numt: u32, lanes: &[u32], size: u32) -> Vec<u32> {
    let (count, order) = (lanes.len(), Order::draw(rng));
    let mut at = Vec::new();
    for (n, lane) in lanes.iter().enumerate() {
        let row = match order {
            Order::Up => 0,
            Order::Down => count - n,
            _ => rng.below(count as u32 + 1) as usize,
        };
        at.push(4 * (lane + numt * row as u32) + fitting(rng, size));
    }
    for _ in 0..moves(rng, count) {
        let (from, to) = two(rng, count);
        let low = if rng.chance(3) { fitting(rng, size) } else { at[from] % 4 };
        let place = at[from] & !3 | low;
        if private_u(numt, lanes[to], place).is_some() {
            at[to] = place;
        }
    }
    at
}

/// The u at which a lane's private byte is so far from PDS, if there is one: u / 4 times NUMT is
/// the byte's word less the lane, modulo 2^30.
pub(crate) fn private_u(numt: u32, lane: u32, at: u32) -> Option<u32> {
    let (rest, twos) = ((at / 4).wrapping_sub(lane), numt.trailing_zeros());
    let row = ((rest & 0x3fff_ffff) >> twos).wrapping_mul(inverse(numt >> twos));
    let there = rest & ((1 << twos) - 1) == 0;
    there.then(|| 4 * (row & 0x3fff_ffff >> twos) + at % 4)
}

/// What times the odd number is 1, modulo 2^32; each turn doubles the bits that are right, three
/// at first.
fn inverse(odd: u32) -> u32 {
    (0..4).fold(odd, |y, _| y.wrapping_mul(2u32.wrapping_sub(odd.wrapping_mul(y))))
}

// What they store.

/// What becomes of the bytes that lanes have in common.
#[derive(Clone, Copy, PartialEq, Eq)]
enum Values {
    Agree,
    /// In one bit of one lane they don't.
    OneBit,
    Any,
}

/// Lanes that store so many bytes each to a target, private where NUMT is given.
pub(crate) fn stored(rng: &mut Rng, lanes: &[u32], size: u32, numt: Option<u32>) -> Vec<Stored> {
    let at = match numt {
        Some(numt) => private_places(rng, numt, lanes, size),
        None => plain_places(rng, lanes.len(), size),
    };
    let values = match rng.below(5) {
        0..=1 => Values::Agree,
        2..=3 => Values::OneBit,
        _ => Values::Any,
    };
    let any = |(lane, at): (&u32, u32)| Stored { lane: *lane, at, value: rng.word() };
    let mut all: Vec<Stored> = lanes.iter().zip(at).map(any).collect();
    if values != Values::Any {
        agree(rng, &mut all, size);
    }
    if values == Values::OneBit {
        change_one_bit(rng, &mut all, size);
    }
    all
}

/// Every byte that is stored becomes that of one image, whichever lane stores it.
fn agree(rng: &mut Rng, all: &mut [Stored], size: u32) {
    let image: Vec<u8> = (0..span(all, size)).map(|_| rng.below(256) as u8).collect();
    for one in all {
        let mut bytes = one.value.to_le_bytes();
        let own = &image[one.at as usize..][..size as usize];
        bytes[..own.len()].copy_from_slice(own);
        one.value = u32::from_le_bytes(bytes);
    }
}

/// One bit of a byte that a lane has in common with another, if any has.
fn change_one_bit(rng: &mut Rng, all: &mut [Stored], size: u32) {
    let common = |n: usize, byte: u32| {
        let place = all[n].at + byte;
        let stores = |other: &Stored| (other.at..other.at + size).contains(&place);
        all.iter().filter(|other| stores(other)).count() > 1
    };
    let bytes = (0..all.len()).flat_map(|n| (0..size).map(move |byte| (n, byte)));
    let common: Vec<(usize, u32)> = bytes.filter(|(n, byte)| common(*n, *byte)).collect();
    if !common.is_empty() {
        let (n, byte) = rng.pick(&common);
        all[n].value ^= 1 << (8 * byte + rng.below(8));
    }
}

// The words that store.

/// The scalar register with the address of the tables.
pub(crate) const TABLES: usize = 5;
const OWN_PLACE: u32 = 1;
const ADDRESS: u32 = 2;
const VALUE: u32 = 3;

/// The two tables that `store_words` load from: what address registers hold, then values.
pub(crate) fn table_bytes(numt: u32, all: &[Stored]) -> Vec<u8> {
    let mut words = vec![0; 2 * numt as usize];
    for one in all {
        words[one.lane as usize] = one.at;
        words[(numt + one.lane) as usize] = one.value;
    }
    words.into_iter().flat_map(u32::to_le_bytes).collect()
}

/// Each lane loads its address and its value from the tables; then it stores, in some kernels
/// behind a prefix, or with a load by the same addresses before or after it, or another store.
pub(crate) fn store_words(rng: &mut Rng, t: &Table, v: &Variant, numt: u32, off: i32) -> Vec<u32> {
    let load = access(t.get(&v.name.replacen("vs", "vl", 1)), ADDRESS, 4, off);
    let mut words = vec![
        t.fixed("vid.v") | rd(OWN_PLACE),
        t.fixed("vsll.vi") | rd(OWN_PLACE) | rs2(OWN_PLACE) | rs1(2),
        t.fixed("vadd.vx") | rd(OWN_PLACE) | rs2(OWN_PLACE) | rs1(TABLES as u32),
        access(t.get("vlw12"), OWN_PLACE, ADDRESS, 0),
        access(t.get("vlw12"), OWN_PLACE, VALUE, 4 * numt as i32),
    ];
    if rng.chance(3) {
        words.push(load);
    }
    if rng.chance(5) {
        words.push(regext(0, 0, rng.below(8))); // xd, which a store has not
    }
    words.push(access(v, ADDRESS, VALUE, off));
    match rng.below(4) {
        0 => words.push(load),
        1 => {
            let other = rng.pick(&t.with(|other| other.shape == v.shape));
            words.push(access(other, ADDRESS, rng.pick(&[VALUE, 4, 7]), off));
        }
        _ => {}
    }
    words
}

/// A number of lanes: of a private store one by which lanes can meet, which they never do where it
/// is a power of two.
pub(crate) fn lane_count(rng: &mut Rng, private: bool) -> u32 {
    match private {
        true => rng.pick(&[3, 5, 6, 7, 12, 17, 24, 31, 31]),
        false => rng.pick(&[2, 3, 4, 8, 17, 32, 32, 32]),
    }
}

/// In one of eight an active lane's register becomes that of a place outside, and in one of eight,
/// of a private store, what makes it cross its word.
pub(crate) fn spoil_one(rng: &mut Rng, all: &mut [Stored], v: &Variant, outside: u32) {
    let (some, way) = (rng.below(all.len() as u32) as usize, rng.below(8));
    let at = &mut all[some].at;
    match (way, size_of(v)) {
        (0, _) => *at = outside,
        (1, size) if is_private(v) && size > 1 => *at = *at & !3 | (5 - size + rng.below(size - 1)),
        _ => {}
    }
}

// The family.

/// Every store by lanes, with lanes that share bytes, by a single warp.
pub(crate) fn shared_bytes(round: u32, t: &Table, out: &mut Vec<Case>) {
    let mut rng = Rng::of_family(round, 9);
    for v in t.with(is_lane_store) {
        let count = if is_private(v) { 60 } else { 100 };
        for _ in 0..count {
            out.push(store_case(&mut rng, t, v));
        }
    }
}

pub(crate) fn is_lane_store(v: &Variant) -> bool {
    matches!(v.shape, Shape::Vstore | Shape::PrivateStore)
}

fn store_case(rng: &mut Rng, t: &Table, v: &Variant) -> Case {
    let (size, private) = (size_of(v), is_private(v));
    let numt = lane_count(rng, private);
    let mut g = plain_ground();
    (g.fixed.numt, g.fixed.mask) = (numt, low_mask(numt));
    if rng.chance(3) {
        g.fixed.mask = some_lanes(rng, g.fixed.mask);
    }
    let off = rng.range(-40, 40);
    let kernel = store_words(rng, t, v, numt, off);
    let mut warp = Warp { fixed: g.fixed, mask: g.fixed.mask, ..Warp::default() };
    let depth = rng.pick(&[0, 0, 0, 1, 2]);
    open_splits(rng, &mut warp, kernel.len() as u32, depth);
    let mut all = stored(rng, &lanes_of(warp.mask), size, private.then_some(numt));

    // The tables, then the target.
    let (tables, bytes) = (8 * numt, span(&all, size));
    let total = tables + bytes + rng.below(4);
    let base = rng.pick(&[0, 0x1001, 0x7fff_ffc0, 0x9000_0000, total.wrapping_neg()]);
    let target = base.wrapping_add(tables);
    (g.fixed.data_base, g.fixed.pds) = (base, target);
    let register = |lane: u32, at: u32| match private {
        true => private_u(numt, lane, at),
        false => Some(target.wrapping_add(at)),
    };
    // A lane that is not active, if there is one, meets one that is.
    let (idle, met) = (low_mask(numt) & !warp.mask, all[rng.below(all.len() as u32) as usize].at);
    let idle = if idle == 0 { 0 } else { some_lanes(rng, idle).trailing_zeros() };
    g.vector.base = register(idle, met).unwrap_or(0).wrapping_sub(off as u32);
    for one in &mut all {
        one.at = register(one.lane, one.at).expect("a place that the lane has");
    }
    let outside = match private {
        true => 4 * (1 + bytes / 4), // further rows than the target has
        false => rng.pick(&[base.wrapping_sub(1), base.wrapping_add(total - size + 1)]),
    };
    spoil_one(rng, &mut all, v, outside);
    all.iter_mut().for_each(|one| one.at = one.at.wrapping_sub(off as u32));
    g.data = Data { bytes: table_bytes(numt, &all), total, seed: rng.word() };
    g.vector.seed = rng.word();
    warp.fixed = g.fixed;
    warp.pc = g.fixed.code_base;
    warp.x[TABLES] = base;
    let budget = kernel.len() as u32;
    state_case(&warp, kernel, g, budget)
}
