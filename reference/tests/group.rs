//! Groups: launches, steps and runs, every refusal and their order, and what each leaves.

mod common;

use common::{any_words, b, i, j, r, s, v, CODE, DATA};
use reference::generate::card_of;
use reference::group::{self, state_words};
use reference::isa::{ENDPRG, JOIN};
use reference::run::VECTOR_WORDS;
use reference::saved::{
    self, CODE_BASE_AT, DATA_BASE_AT, ENDED_AT, LDS_AT, MASK_AT, NUMT_AT, NUMW_AT, OPEN_AT, PC_AT,
    WAITING_AT, WID_AT,
};
use reference::state::{Fixed, Launch};
use reference::table::{BARRIER, NOP};

const LOCAL: u32 = 0xa000_0000;
const WORD_BEFORE: u32 = 0xa5a5_a5a5;
const BYTE_BEFORE: u8 = 0xa5;
/// No instruction.
const UNKNOWN: u32 = 0;

/// Warp `wid` of a group of `warps`, four lanes each.
fn launch_of(wid: u32, warps: usize) -> Launch {
    let fixed = Fixed {
        numt: 4,
        numw: warps as u32,
        wid,
        mask: 0xf,
        code_base: CODE,
        data_base: DATA,
        lds: LOCAL,
        ..Fixed::default()
    };
    Launch { fixed, entry: CODE }
}

fn cards_of(launches: &[Launch]) -> Vec<u8> {
    launches.iter().flat_map(card_of).collect()
}

/// One card more than a group may have.
fn too_many_cards() -> Vec<u8> {
    let mut cards = cards_of(&launches(32));
    cards.extend_from_within(..50);
    cards
}

fn launches(warps: usize) -> Vec<Launch> {
    (0..warps as u32).map(|wid| launch_of(wid, warps)).collect()
}

/// What is lent to the calls, none of it 0 before.
#[derive(Clone, Debug, PartialEq, Eq)]
struct Desk {
    state: Vec<u32>,
    kernel: Vec<u32>,
    vector: Vec<u32>,
    data: Vec<u8>,
    local: Vec<u8>,
}

impl Desk {
    fn new(warps: usize, kernel: &[u32]) -> Desk {
        Desk {
            state: vec![WORD_BEFORE; state_words(warps)],
            kernel: kernel.to_vec(),
            vector: vec![WORD_BEFORE; VECTOR_WORDS * warps],
            data: vec![BYTE_BEFORE; 64],
            local: vec![BYTE_BEFORE; 64],
        }
    }

    /// A launched group of that many warps.
    fn launched(warps: usize, kernel: &[u32]) -> Desk {
        Desk::on(&launches(warps), kernel)
    }

    fn on(launches: &[Launch], kernel: &[u32]) -> Desk {
        let mut desk = Desk::new(launches.len(), kernel);
        assert_eq!(desk.launch(&cards_of(launches)), 0);
        desk
    }

    fn launch(&mut self, cards: &[u8]) -> u32 {
        let Desk { state, kernel, vector, data, local } = self;
        group::launch(cards, kernel, vector, data, local, state)
    }

    /// The number, and the WID that goes with it.
    fn step(&mut self) -> (u32, u32) {
        let mut stopped = [WORD_BEFORE];
        let Desk { state, kernel, vector, data, local } = self;
        let code = group::step(state, kernel, vector, data, local, &mut stopped);
        (code, stopped[0])
    }

    /// The number, the steps and the WID.
    fn run(&mut self, budget: u32) -> (u32, u32, u32) {
        let mut out = [WORD_BEFORE; 2];
        let Desk { state, kernel, vector, data, local } = self;
        let code = group::run(state, kernel, vector, data, local, budget, &mut out);
        (code, out[0], out[1])
    }

    /// So many steps that are taken.
    fn take(&mut self, steps: u32) {
        assert_eq!(self.run(steps), (0, steps, 0));
    }

    /// A step and a run refused in the same way, after no step and with nothing changed.
    fn refused(&self, number: u32, wid: u32) {
        let mut after = self.clone();
        assert_eq!(after.step(), (number, wid));
        assert_eq!(after.run(9), (number, 0, wid));
        assert_eq!(after, *self);
    }

    /// Refused whatever the budget: the tests before the first step.
    fn refused_unstepped(&self, number: u32) {
        self.refused(number, 0);
        let mut after = self.clone();
        assert_eq!(after.run(0), (number, 0, 0));
        assert_eq!(after, *self);
    }

    /// A launch refused with `number`, which leaves all but the state.
    fn launch_refused(&self, cards: &[u8], number: u32) {
        let mut after = self.clone();
        assert_eq!(after.launch(cards), number);
        let zeroed = self.state.len() == state_words(cards.len() / 50);
        let state = if zeroed { vec![0; self.state.len()] } else { self.state.clone() };
        assert_eq!(after, Desk { state, ..self.clone() });
    }

    fn turn(&self) -> u32 {
        self.state[0]
    }

    /// A word of a warp's state.
    fn word(&self, warp: usize, at: usize) -> u32 {
        self.state[state_words(warp) + at]
    }
    fn set_word(&mut self, warp: usize, at: usize, word: u32) {
        self.state[state_words(warp) + at] = word;
    }
    fn with_word(&self, warp: usize, at: usize, word: u32) -> Desk {
        let mut desk = self.clone();
        desk.set_word(warp, at, word);
        desk
    }
    fn each(&self, at: usize) -> Vec<u32> {
        (0..self.state.len() / saved::WORDS).map(|warp| self.word(warp, at)).collect()
    }
    /// Each warp's PC, counted in words.
    fn pcs(&self) -> Vec<u32> {
        self.each(PC_AT).iter().map(|pc| (pc - CODE) / 4).collect()
    }

    fn v(&self, warp: usize, register: usize, lane: usize) -> u32 {
        self.vector[VECTOR_WORDS * warp + 32 * register + lane]
    }
    fn set_v(&mut self, warp: usize, register: usize, values: &[u32]) {
        let at = VECTOR_WORDS * warp + 32 * register;
        self.vector[at..at + values.len()].copy_from_slice(values);
    }
    fn data_word(&self, at: usize) -> u32 {
        u32::from_le_bytes(self.data[at..at + 4].try_into().unwrap())
    }
    fn local_word(&self, at: usize) -> u32 {
        u32::from_le_bytes(self.local[at..at + 4].try_into().unwrap())
    }
}

/// x5 = WID.
fn read_wid() -> u32 {
    i("csrrs", 5, 0, 0x805)
}
/// x6 = the data base, x7 = LDS.
fn bases() -> [u32; 2] {
    [r("lui", 6, 0, 0) | DATA, i("csrrs", 7, 0, 0x806)]
}

// Launches.

#[test]
fn a_launch_makes_every_warp_and_zeroes_its_file() {
    for warps in [1, 2, 3, 32] {
        let mut launches = launches(warps);
        for (n, launch) in launches.iter_mut().enumerate() {
            // These may differ from warp to warp.
            launch.fixed.mask = 1 + n as u32 % 15;
            launch.fixed.pds = n as u32;
            launch.fixed.knl = 7 * n as u32;
            launch.entry = CODE + 4 * n as u32;
        }
        let desk = Desk::on(&launches, &[NOP]);
        assert_eq!(desk.turn(), 0);
        assert!(desk.vector.iter().all(|word| *word == 0));
        assert!(desk.data.iter().chain(&desk.local).all(|byte| *byte == BYTE_BEFORE));
        for (n, launch) in launches.iter().enumerate() {
            let mut state = [WORD_BEFORE; saved::WORDS];
            let mut vector = [WORD_BEFORE; VECTOR_WORDS];
            let card = card_of(launch);
            assert_eq!(saved::launch(&card, &[NOP], &mut vector, &[], &mut state), 0);
            assert_eq!(desk.state[state_words(n)..state_words(n + 1)], state);
        }
    }
}

#[test]
fn a_malformed_card_comes_before_any_1() {
    let cards = cards_of(&launches(3));
    let desk = Desk::new(3, &[NOP]);
    for bytes in [1, 49, 51, 99, 149] {
        desk.launch_refused(&cards[..bytes], 13);
    }
    desk.launch_refused(&[&cards[..], &[0]].concat(), 13);
    for card in 0..3 {
        let mut damaged = cards.clone();
        damaged[50 * card + 2] = 2; // its version
        desk.launch_refused(&damaged, 13);
        // With a value of another card out of range, and with a lent run of a wrong size.
        damaged[50 * ((card + 1) % 3) + 3] = 33;
        desk.launch_refused(&damaged, 13);
        Desk { kernel: vec![], state: vec![7], ..desk.clone() }.launch_refused(&damaged, 13);
    }
    let mut too_many = too_many_cards();
    too_many[50 * 32 + 1] = 47; // its length
    desk.launch_refused(&too_many, 13);
}

#[test]
fn a_launch_tests_the_number_of_cards_and_their_values() {
    Desk::new(1, &[NOP]).launch_refused(&[], 1);
    Desk::new(33, &[NOP]).launch_refused(&too_many_cards(), 1);
    for (at, value) in [(3, 0), (3, 33), (4, 0), (5, 2), (13, 2), (21, 1)] {
        for card in 0..2 {
            let mut cards = cards_of(&launches(2));
            cards[50 * card + at] = value;
            Desk::new(2, &[NOP]).launch_refused(&cards, 1);
        }
    }
}

#[test]
fn a_launch_tests_that_the_cards_are_one_group() {
    let wrong: [fn(&mut [Launch]); 9] = [
        |l| l.swap(0, 1),
        |l| l[2].fixed.wid = 1,
        |l| l.iter_mut().for_each(|launch| launch.fixed.numw = 4),
        |l| l[1].fixed.numw = 4,
        |l| l[0].fixed.numt = 5,
        |l| l[2].fixed.code_base += 4,
        |l| l[1].fixed.data_base += 1,
        |l| l[2].fixed.lds += 1,
        |l| l[0].fixed.lds = 0,
    ];
    for damage in wrong {
        let mut launches = launches(3);
        damage(&mut launches);
        Desk::new(3, &[NOP]).launch_refused(&cards_of(&launches), 1);
    }
}

/// A group of two, and its cards, of which something is changed.
fn pair(change: impl Fn(&mut Fixed)) -> (Desk, Vec<u8>) {
    let mut launches = launches(2);
    launches.iter_mut().for_each(|launch| change(&mut launch.fixed));
    (Desk::new(2, &[NOP]), cards_of(&launches))
}

#[test]
fn lent_runs_have_their_sizes() {
    let (desk, cards) = pair(|_| {});
    let mut launched = desk.clone();
    assert_eq!(launched.launch(&cards), 0);
    let wrong: [fn(&mut Desk); 8] = [
        |d| d.kernel.clear(),
        |d| d.kernel.resize(16_385, NOP),
        |d| d.vector.truncate(2 * VECTOR_WORDS - 1),
        |d| d.vector.push(7),
        |d| d.vector.truncate(VECTOR_WORDS),
        |d| d.vector.clear(),
        |d| d.data.resize(65_537, 7),
        |d| d.local.resize(65_537, 7),
    ];
    for damage in wrong {
        let (mut desk, mut launched) = (desk.clone(), launched.clone());
        damage(&mut desk);
        desk.launch_refused(&cards, 1);
        damage(&mut launched);
        launched.refused_unstepped(1);
        launched.set_word(1, ENDED_AT, 7);
        launched.refused_unstepped(1); // before 2
    }
    let largest: [fn(&mut Desk); 3] = [
        |d| d.kernel.resize(16_384, NOP),
        |d| d.data.resize(65_536, 7),
        |d| d.local.resize(65_536, 7),
    ];
    for fill in largest {
        let mut desk = desk.clone();
        fill(&mut desk);
        assert_eq!((desk.launch(&cards), desk.step()), (0, (0, 0)));
    }
}

#[test]
fn bases_leave_room_below_2_to_the_32() {
    let top = |bytes: u32| 0u32.wrapping_sub(bytes);
    type SetBase = fn(&mut Fixed, u32);
    let bases: [(SetBase, u32, u32); 3] = [
        (|f, base| f.code_base = base, top(8), top(4)),
        (|f, base| f.data_base = base, top(64), top(63)),
        (|f, base| f.lds = base, top(64), top(63)),
    ];
    for (set, last, beyond) in bases {
        let two_words = |base: u32| {
            let (desk, cards) = pair(|f| set(f, base));
            (Desk { kernel: vec![NOP; 2], ..desk }, cards)
        };
        let (mut desk, cards) = two_words(last);
        assert_eq!((desk.launch(&cards), desk.run(0)), (0, (0, 0, 0)));
        let (desk, cards) = two_words(beyond);
        desk.launch_refused(&cards, 1);
    }
    // An empty local memory may stand at the last address.
    let (desk, cards) = pair(|f| f.lds = u32::MAX);
    assert_eq!(Desk { local: vec![], ..desk }.launch(&cards), 0);
}

#[test]
fn memories_may_touch_and_not_overlap() {
    let lent = |data: usize, local: usize, lds: u32| {
        let (desk, cards) = pair(|f| f.lds = lds);
        (Desk { data: vec![0; data], local: vec![0; local], ..desk }, cards)
    };
    for (data, local, lds) in [
        (64, 64, DATA + 64), // local begins where data ends
        (64, 64, DATA - 64),
        (0, 64, DATA), // an empty one is nowhere
        (64, 0, DATA),
        (64, 0, DATA + 1),
        (0, 64, DATA - 1),
        (0, 0, DATA),
    ] {
        let (mut desk, cards) = lent(data, local, lds);
        assert_eq!((desk.launch(&cards), desk.step()), (0, (0, 0)), "{data} {local} {lds:x}");
    }
    for (data, local, lds) in [
        (64, 64, DATA + 63),
        (64, 64, DATA - 63),
        (64, 64, DATA),
        (64, 1, DATA + 63),
        (1, 64, DATA - 63),
        (64, 2, DATA + 8), // inside
        (2, 64, DATA - 8), // around
        (1, 1, DATA),
    ] {
        let (desk, cards) = lent(data, local, lds);
        desk.launch_refused(&cards, 1);
        let mut launched = Desk { local: vec![], ..desk.clone() };
        assert_eq!(launched.launch(&cards), 0);
        Desk { local: desk.local, ..launched }.refused_unstepped(1);
    }
}

#[test]
fn a_refused_launch_zeroes_a_state_of_its_cards() {
    let cards = cards_of(&launches(2));
    let state = |words: usize| Desk { state: vec![7; words], ..Desk::new(2, &[NOP]) };
    // Another length is 1, and left; launch_refused tells the two apart.
    for words in [0, 1, 241, 242, 482, 484, 723, 724] {
        state(words).launch_refused(&cards, 1);
    }
    // The whole cards count, also where bytes are over.
    state(483).launch_refused(&[&cards[..], &[0; 49]].concat(), 13);
    state(483).launch_refused(&[&cards[..], &[0; 50]].concat(), 13);
    state(724).launch_refused(&[&cards[..], &[0; 50]].concat(), 13);
    state(1).launch_refused(&[], 1);
    state(1).launch_refused(&cards[..49], 13);
    state(242).launch_refused(&cards[..49], 13);
    state(242).launch_refused(&cards[..50], 1); // NUMW is 2
}

// A state that is handed in.

#[test]
fn a_state_has_the_words_of_1_to_32_warps() {
    let desk = Desk::launched(2, &[NOP]);
    for words in [0, 1, 2, 241, 242, 482, 484, 724, state_words(33)] {
        let mut other = desk.clone();
        other.state.resize(words, 0);
        other.refused_unstepped(1);
        other.vector.resize(VECTOR_WORDS * (words / saved::WORDS), 0);
        if words != 242 && words != 724 {
            other.refused_unstepped(1);
        }
    }
}

#[test]
fn each_warps_own_bases_are_tested_before_2() {
    let desk = Desk::launched(3, &[NOP]);
    for warp in 0..3 {
        for (at, fitting, beyond) in [
            (CODE_BASE_AT, CODE + 4, u32::MAX),
            (DATA_BASE_AT, DATA + 1, u32::MAX - 62),
            (LDS_AT, LOCAL + 1, u32::MAX - 62),
            (LDS_AT, DATA + 64, DATA + 63), // overlapping with this warp's data alone
            (DATA_BASE_AT, LOCAL - 64, LOCAL - 63),
        ] {
            desk.with_word(warp, at, fitting).refused_unstepped(2);
            desk.with_word(warp, at, beyond).refused_unstepped(1);
            desk.with_word(warp, at, beyond).with_word(0, ENDED_AT, 7).refused_unstepped(1);
        }
    }
}

#[test]
fn warps_that_are_no_group_are_2() {
    let desk = Desk::launched(3, &[NOP]);
    for warp in 0..3 {
        for (at, word) in [
            (ENDED_AT, 2),
            (WAITING_AT, 2),
            (OPEN_AT, 32),
            (OPEN_AT, 1),
            (PC_AT, CODE + 2),
            (MASK_AT, 1),
            (0, 1), // x0
            (NUMT_AT, 5),
            (NUMT_AT, 33),
            (NUMW_AT, 2),
            (NUMW_AT, 4),
            (WID_AT, (warp as u32 + 1) % 3),
            (WID_AT, 3),
        ] {
            desk.with_word(warp, at, word).refused_unstepped(2);
        }
    }
    let mut both = desk.with_word(0, ENDED_AT, 1);
    both.set_word(0, WAITING_AT, 1);
    both.refused_unstepped(2);
    // All of them wrong in the same way.
    let mut others = desk;
    (0..3).for_each(|warp| others.set_word(warp, NUMW_AT, 32));
    others.refused_unstepped(2);
}

#[test]
fn a_turn_that_names_no_warp_is_2() {
    let desk = Desk::launched(3, &[NOP]);
    for turn in [3, 4, 32, u32::MAX] {
        let mut turned = desk.clone();
        turned.state[0] = turn;
        turned.refused_unstepped(2);
        turned.set_word(0, ENDED_AT, 1);
        turned.set_word(1, WAITING_AT, 1);
        turned.refused_unstepped(2);
    }
}

#[test]
fn a_group_that_waits_as_a_whole_is_2() {
    for ended in 0..3 {
        let mut desk = Desk::launched(3, &[NOP]);
        for warp in 0..3 {
            desk.set_word(warp, if warp < ended { ENDED_AT } else { WAITING_AT }, 1);
        }
        desk.refused_unstepped(2);
        desk.set_word(2, WAITING_AT, 0);
        assert_eq!(desk.step(), (0, 0));
    }
}

#[test]
fn a_group_all_ended_is_3_whatever_its_turn() {
    for turn in [0, 2, 3, 77, u32::MAX] {
        let mut desk = Desk::launched(3, &[NOP]);
        desk.state[0] = turn;
        (0..3).for_each(|warp| desk.set_word(warp, ENDED_AT, 1));
        desk.refused(3, 0);
        let before = desk.clone();
        assert_eq!(desk.run(0), (0, 0, 0));
        assert_eq!(desk, before);
        // Not if one of them is ill formed.
        desk.with_word(1, PC_AT, 2).refused_unstepped(2);
    }
}

#[test]
fn words_for_the_answer_have_their_length() {
    let desk = Desk::launched(2, &[NOP]);
    for words in [0, 1, 2, 3] {
        let mut after = desk.clone();
        let Desk { state, kernel, vector, data, local } = &mut after;
        let mut answer = vec![WORD_BEFORE; words];
        if words != 1 {
            assert_eq!(group::step(state, kernel, vector, data, local, &mut answer), 1);
            assert!(answer.iter().all(|word| *word == WORD_BEFORE));
        }
        if words != 2 {
            assert_eq!(group::run(state, kernel, vector, data, local, 1, &mut answer), 1);
            assert!(answer.iter().all(|word| *word == WORD_BEFORE));
        }
        assert_eq!(after, desk);
    }
}

// Turns and barriers.

#[test]
fn warps_step_in_turn() {
    let mut desk = Desk::launched(3, &[NOP; 9]);
    for (step, pcs) in [[1, 0, 0], [1, 1, 0], [1, 1, 1], [2, 1, 1]].iter().enumerate() {
        assert_eq!(desk.step(), (0, 0));
        assert_eq!(desk.pcs(), pcs);
        assert_eq!(desk.turn(), (step as u32 + 1) % 3);
    }
    let mut alone = Desk::launched(1, &[NOP; 9]);
    alone.take(2);
    assert_eq!((alone.turn(), alone.pcs()), (0, vec![2]));
}

#[test]
fn waiting_and_ended_warps_are_skipped() {
    // Warp by warp: 0 runs, 1 waits, 2 has ended, 3 runs, 4 waits.
    let mut desk = Desk::launched(5, &[NOP; 9]);
    for (warp, at) in [(1, WAITING_AT), (2, ENDED_AT), (4, WAITING_AT)] {
        desk.set_word(warp, at, 1);
    }
    for (turn, stepped, after) in [(0, 0, 1), (1, 3, 4), (2, 3, 4), (3, 3, 4), (4, 0, 1)] {
        let mut desk = desk.clone();
        desk.state[0] = turn;
        assert_eq!(desk.step(), (0, 0));
        let expected: Vec<u32> = (0..5).map(|warp| u32::from(warp == stepped)).collect();
        assert_eq!((desk.pcs(), desk.turn()), (expected, after), "from {turn}");
    }
    // From the last warp the turn goes to 0.
    desk.set_word(4, WAITING_AT, 0);
    desk.state[0] = 4;
    desk.take(1);
    assert_eq!(desk.turn(), 0);
}

#[test]
fn the_last_to_arrive_releases_all_in_its_own_step() {
    let mut desk = Desk::launched(3, &[BARRIER, NOP, ENDPRG]);
    desk.take(2);
    assert_eq!((desk.each(WAITING_AT), desk.turn()), (vec![1, 1, 0], 2));
    desk.take(1);
    assert_eq!((desk.each(WAITING_AT), desk.turn()), (vec![0, 0, 0], 0));
    assert_eq!(desk.pcs(), [1, 1, 1]);
    desk.take(6);
    assert_eq!(desk.each(ENDED_AT), [1, 1, 1]);
    desk.refused(3, 0);
}

#[test]
fn a_lone_warp_never_waits() {
    let mut desk = Desk::launched(1, &[BARRIER, BARRIER, ENDPRG]);
    desk.take(1);
    assert_eq!((desk.each(WAITING_AT), desk.pcs()), (vec![0], vec![1]));
    assert_eq!(desk.run(9), (3, 2, 0));
}

/// Warp 0 goes to `other` and the rest to `first`.
fn parted(first: &[u32], other: &[u32]) -> Vec<u32> {
    let past = 4 * (first.len() as i32 + 1);
    [&[read_wid(), b("beq", 5, 0, past)], first, other].concat()
}

#[test]
fn the_last_running_warp_may_end_instead_of_arriving() {
    let kernel = parted(&[BARRIER, ENDPRG], &[NOP, NOP, ENDPRG]);
    let mut desk = Desk::launched(3, &kernel);
    desk.take(6 + 3 + 1);
    assert_eq!(desk.each(WAITING_AT), [0, 1, 1]);
    desk.take(1);
    assert_eq!((desk.each(ENDED_AT), desk.each(WAITING_AT)), (vec![1, 0, 0], vec![0, 0, 0]));
    assert_eq!(desk.turn(), 1);
    assert_eq!(desk.run(9), (3, 2, 0));
    assert_eq!((desk.each(ENDED_AT), desk.turn()), (vec![1, 1, 1], 0));
}

#[test]
fn the_ended_are_not_waited_for() {
    let kernel = parted(&[NOP, NOP, BARRIER, ENDPRG], &[ENDPRG]);
    let mut desk = Desk::launched(3, &kernel);
    assert_eq!(desk.run(99), (3, 2 * 3 + 1 + 2 * 4, 0));
    assert_eq!(desk.pcs(), [6, 5, 5]);
    assert_eq!(desk.each(WAITING_AT), [0, 0, 0]);
}

#[test]
fn an_ending_warp_releases_none_while_another_runs() {
    let kernel = parted(&[BARRIER, ENDPRG], &[ENDPRG]);
    let mut desk = Desk::launched(3, &kernel);
    desk.take(6);
    desk.state[0] = 1;
    desk.take(1); // warp 1 arrives
    desk.state[0] = 0;
    desk.take(1); // warp 0 ends
    assert_eq!((desk.each(ENDED_AT), desk.each(WAITING_AT)), (vec![1, 0, 0], vec![0, 1, 0]));
    desk.take(1);
    assert_eq!(desk.each(WAITING_AT), [0, 0, 0]);
}

#[test]
fn a_warp_that_can_run_is_stepped_within_as_many_steps_as_warps() {
    let mut random = any_words(7);
    for _ in 0..60 {
        let warps = 1 + random() as usize % 6;
        let kernel: Vec<u32> =
            (0..20).map(|_| [NOP, NOP, BARRIER, NOP][random() as usize % 4]).collect();
        let kernel = [&kernel[..], &[ENDPRG]].concat();
        let mut desk = Desk::launched(warps, &kernel);
        let mut idle = vec![0; warps];
        loop {
            let (before, waiting, ended) = (desk.pcs(), desk.each(WAITING_AT), desk.each(ENDED_AT));
            if desk.step().0 != 0 {
                break;
            }
            for warp in 0..warps {
                let stepped =
                    desk.pcs()[warp] != before[warp] || desk.word(warp, ENDED_AT) != ended[warp];
                let could = waiting[warp] == 0 && ended[warp] == 0;
                idle[warp] = if stepped || !could { 0 } else { idle[warp] + 1 };
                assert!(idle[warp] < warps);
            }
        }
        assert_eq!(desk.each(ENDED_AT), vec![1; warps]);
    }
}

// Stops.

#[test]
fn a_refused_warp_stops_the_group_with_its_number_and_wid() {
    let differ = [v("vid.v", 1, 0, 0), r("vmv.x.s", 3, 0, 1)];
    let split = [v("vid.v", 1, 0, 0), b("vbeq", 1, 0, 8), ENDPRG];
    let parked = [v("vid.v", 1, 0, 0), b("vbeq", 1, 0, 8), BARRIER];
    let clash = [v("vid.v", 1, 0, 0), bases()[0], v("vmv.vx", 2, 0, 6), s("vsw12", 2, 1, 0)];
    for (number, words) in [
        (5, &[j(0, 4096)][..]),
        (6, &[UNKNOWN]),
        (7, &[i("csrrw", 0, 0, 0x800)]),
        (8, &[j(0, 6)]),
        (9, &[i("lw", 1, 0, 0)]),
        (10, &differ),
        (11, &split),
        (11, &parked),
        (14, &[i("vlw.p", 1, 2, 1)]),
        (15, &clash),
    ] {
        // Warps 1 and 2 go on; warp 0 meets the words.
        let kernel = parted(&[NOP, NOP, NOP, j(0, 0)], words);
        let mut desk = Desk::launched(3, &kernel);
        let good = if number == 5 { words.len() } else { words.len() - 1 } as u32;
        assert_eq!(desk.run(999), (number, 6 + 3 * good, 0), "{words:x?}");
        desk.refused(number, 0);
        assert_eq!(desk.turn(), 0);
    }
}

#[test]
fn a_stop_leaves_the_turn_where_the_search_began() {
    let mut desk = Desk::launched(4, &[UNKNOWN]);
    for warp in 0..4 {
        desk.set_word(warp, PC_AT, CODE);
    }
    desk.set_word(1, WAITING_AT, 1);
    desk.set_word(2, ENDED_AT, 1);
    desk.state[0] = 1;
    desk.refused(6, 3);
    assert_eq!(desk.turn(), 1);
    desk.set_word(3, WAITING_AT, 1);
    desk.refused(6, 0);
}

#[test]
fn a_waiting_or_ended_warp_stops_nothing() {
    // Both would be refused with 5.
    let mut desk = Desk::launched(3, &[j(0, 0)]);
    for (warp, at) in [(0, WAITING_AT), (2, ENDED_AT)] {
        desk.set_word(warp, at, 1);
        desk.set_word(warp, PC_AT, CODE - 4);
    }
    desk.take(7);
}

#[test]
fn a_run_keeps_what_was_done_before_its_stop() {
    // Each warp stores its WID + 1 in local memory; warp 2 then reads outside.
    let [data_base, lds] = bases();
    let kernel = [
        read_wid(),
        data_base,
        lds,
        i("addi", 8, 5, 1),
        i("slli", 9, 5, 2),
        r("add", 9, 9, 7),
        s("sw", 9, 8, 0),
        i("addi", 10, 5, -2),
        b("bne", 10, 0, 8),
        i("lw", 1, 6, 64),
        j(0, 0),
    ];
    let mut desk = Desk::launched(3, &kernel);
    assert_eq!(desk.run(1000), (9, 9 * 3 + 2, 2));
    assert_eq!([0, 4, 8].map(|at| desk.local_word(at)), [1, 2, 3]);
    assert_eq!((desk.pcs(), desk.turn()), (vec![10, 10, 9], 2));
    desk.refused(9, 2);
}

// Memories.

/// One warp with x5 the address, stepped once on the word.
fn access(lds: u32, address: u32, word: u32) -> (u32, Desk) {
    let mut launch = launch_of(0, 1);
    launch.fixed.lds = lds;
    let mut desk = Desk::on(&[launch], &[word]);
    desk.set_word(0, 5, address);
    desk.set_word(0, 8, 0x0403_0201);
    let (code, wid) = desk.step();
    assert_eq!(wid, 0);
    (code, desk)
}

#[test]
fn an_access_lies_wholly_in_one_memory() {
    for lds in [DATA + 64, DATA - 64, LOCAL] {
        for (size, load, store) in [(1, "lb", "sb"), (2, "lh", "sh"), (4, "lw", "sw")] {
            for (base, bytes) in [(DATA, 64), (lds, 64)] {
                for offset in -4..bytes + 4 {
                    let address = base.wrapping_add(offset as u32);
                    let inside = |base: u32| {
                        let at = address.wrapping_sub(base);
                        at < 64 && at + size <= 64
                    };
                    let expected = if inside(DATA) || inside(lds) { 0 } else { 9 };
                    let (code, desk) = access(lds, address, s(store, 5, 8, 0));
                    assert_eq!(code, expected, "{store} at {address:x}, LDS {lds:x}");
                    let changed = |bytes: &[u8]| bytes.iter().any(|byte| *byte != BYTE_BEFORE);
                    assert_eq!(changed(&desk.data), inside(DATA));
                    assert_eq!(changed(&desk.local), inside(lds));
                    assert_eq!(access(lds, address, i(load, 9, 5, 0)).0, expected);
                }
            }
        }
    }
}

#[test]
fn an_access_across_two_memories_that_touch_is_9() {
    // Data ends where local begins, and the reverse.
    for (lds, end) in [(DATA + 64, DATA + 64), (DATA - 64, DATA)] {
        for back in 1..4 {
            let (code, desk) = access(lds, end - back, s("sw", 5, 8, 0));
            assert_eq!(code, 9);
            assert!(desk.data.iter().chain(&desk.local).all(|byte| *byte == BYTE_BEFORE));
        }
        assert_eq!(access(lds, end - 4, s("sw", 5, 8, 0)).0, 0);
        assert_eq!(access(lds, end, s("sw", 5, 8, 0)).0, 0);
    }
}

#[test]
fn an_empty_memory_has_no_place() {
    let mut desk = Desk::launched(1, &[i("lb", 1, 7, 0)]);
    desk.set_word(0, 7, LOCAL);
    let none = Desk { local: vec![], ..desk.clone() };
    none.refused(9, 0);
    assert_eq!(desk.step(), (0, 0));
    let mut desk = Desk::launched(1, &[i("lb", 1, 7, 0)]);
    desk.set_word(0, 7, DATA);
    Desk { data: vec![], ..desk.clone() }.refused(9, 0);
    assert_eq!(desk.step(), (0, 0));
}

#[test]
fn a_single_warp_has_no_local_memory() {
    let (mut state, mut vector) = ([0; saved::WORDS], [0; VECTOR_WORDS]);
    let card = card_of(&launch_of(0, 1));
    let kernel = [bases()[1], i("lw", 1, 7, 0)];
    assert_eq!(saved::launch(&card, &kernel, &mut vector, &[0; 64], &mut state), 0);
    assert_eq!(saved::run(&mut state, &kernel, &mut vector, &mut [0; 64], 9), (9, 1));
}

#[test]
fn lanes_may_be_in_different_memories() {
    let mut desk = Desk::launched(2, &[s("vsw12", 1, 2, 4), i("vlw12", 3, 1, 4)]);
    for warp in 0..2 {
        desk.set_v(warp, 1, &[DATA, LOCAL + 1, LOCAL - 4, DATA + 56]);
        desk.set_v(warp, 2, &[10, 11, 12, 13].map(|value: u32| value + 10 * warp as u32));
    }
    desk.take(1);
    assert_eq!([4, 60].map(|at| desk.data_word(at)), [10, 13]);
    assert_eq!([5, 0].map(|at| desk.local_word(at)), [11, 12]);
    desk.take(1);
    assert_eq!([4, 60].map(|at| desk.data_word(at)), [20, 23]);
    // Warp 0 loads what warp 1 stored.
    desk.take(1);
    assert_eq!([0, 1, 2, 3].map(|lane| desk.v(0, 3, lane)), [20, 21, 22, 23]);
    assert_eq!([0, 1, 2, 3].map(|lane| desk.v(1, 3, lane)), [0; 4]);
}

#[test]
fn all_lanes_are_tested_before_one_stores() {
    for wrong in [DATA - 1, DATA + 61, LOCAL - 1, LOCAL + 61, 0, u32::MAX] {
        for lane in 0..4 {
            let mut desk = Desk::launched(1, &[s("vsw12", 1, 2, 0)]);
            let mut addresses = [DATA, LOCAL, DATA + 60, LOCAL + 60];
            addresses[lane] = wrong;
            desk.set_v(0, 1, &addresses);
            desk.refused(9, 0);
        }
    }
}

#[test]
fn lanes_that_differ_clash_in_either_memory() {
    for (at, values, number) in [
        ([DATA, LOCAL, DATA + 1, LOCAL + 1], [1, 2, 3, 4], 0),
        ([DATA, LOCAL, DATA, LOCAL], [1, 2, 1, 2], 0),
        ([DATA, LOCAL, DATA, LOCAL], [1, 2, 3, 2], 15),
        ([DATA, LOCAL, DATA, LOCAL], [1, 2, 1, 4], 15),
        ([LOCAL + 63, LOCAL, LOCAL + 9, LOCAL + 63], [1, 2, 3, 4], 15),
        ([DATA, LOCAL, LOCAL + 9, 0], [1, 2, 3, 4], 9),
        ([LOCAL, LOCAL, LOCAL, 0], [1, 2, 3, 4], 9),
    ] {
        let mut desk = Desk::launched(1, &[s("vsb12", 1, 2, 0)]);
        desk.set_v(0, 1, &at);
        desk.set_v(0, 2, &values);
        match number {
            0 => desk.take(1),
            _ => desk.refused(number, 0),
        }
    }
    // By halves and words, which overlap by one byte: 7f is the last of the lower one.
    for (name, apart, value) in [("vsh12", 1, 0x7fee), ("vsw12", 3, 0x7fee_ddcc)] {
        for base in [DATA, LOCAL, LOCAL + 60 - apart] {
            let mut desk = Desk::launched(1, &[s(name, 1, 2, 0)]);
            desk.set_v(0, 1, &[base + apart, DATA + 20, LOCAL + 20, base]);
            desk.set_v(0, 2, &[0x7f, 1, 2, value]);
            desk.clone().take(1);
            desk.set_v(0, 2, &[0x17f, 1, 2, value ^ 1]);
            desk.clone().take(1);
            desk.set_v(0, 2, &[0x17e, 1, 2, value]);
            desk.refused(15, 0);
        }
    }
}

/// The last byte of the data and the first of local memory are no common byte, though places that
/// are counted in each begin alike.
#[test]
fn lanes_in_different_memories_never_clash() {
    for lds in [LOCAL, DATA + 64, DATA - 64] {
        let mut launch = launch_of(0, 1);
        launch.fixed.lds = lds;
        for name in ["vsb12", "vsh12", "vsw12"] {
            let mut desk = Desk::on(&[launch], &[s(name, 1, 2, 0)]);
            desk.set_v(0, 1, &[DATA, lds, DATA + 60, lds + 60]);
            desk.set_v(0, 2, &[1, 2, 3, 4]);
            desk.take(1);
            assert_eq!((desk.data[0], desk.local[0]), (1, 2));
            assert_eq!((desk.data[60], desk.local[60]), (3, 4));
        }
    }
}

/// Each warp's own store is sound, and the later one's values stay; a store of one warp that
/// clashes in itself stops the group, whichever warp it is.
#[test]
fn stores_of_different_warps_are_ordered_by_their_steps() {
    for base in [DATA, LOCAL] {
        let mut desk = Desk::launched(3, &[s("vsw12", 1, 2, 0), ENDPRG]);
        for warp in 0..3 {
            desk.set_v(warp, 1, &[base, base + 4, base + 8, base]);
            let own = 10 * warp as u32;
            desk.set_v(warp, 2, &[own, own + 1, own + 2, own]);
        }
        let word = |desk: &Desk, at: usize| match base {
            DATA => desk.data_word(at),
            _ => desk.local_word(at),
        };
        for warp in 0..3 {
            let mut clashing = desk.clone();
            clashing.set_v(warp, 2, &[77, 1, 2, 78]);
            clashing.take(warp as u32);
            clashing.refused(15, warp as u32);
            assert_eq!(clashing.turn(), warp as u32);
        }
        for warp in 0..3 {
            desk.take(1);
            assert_eq!([0, 4, 8].map(|at| word(&desk, at)), [0, 1, 2].map(|n| 10 * warp + n));
        }
        assert_eq!(desk.run(99), (3, 3, 0));
    }
}

#[test]
fn private_stores_clash_in_local_memory() {
    let mut launches = launches(2);
    launches.iter_mut().for_each(|launch| {
        (launch.fixed.numt, launch.fixed.mask, launch.fixed.pds) = (3, 7, LOCAL + 8);
    });
    let mut desk = Desk::on(&launches, &[s("vsw.p", 1, 2, 0), ENDPRG]);
    for warp in 0..2 {
        // All three at one word, as in tests/machine.rs.
        desk.set_v(warp, 1, &[0, 0x5555_5554, 0xaaaa_aaa8]);
        desk.set_v(warp, 2, &[5 + warp as u32; 3]);
    }
    let mut clashing = desk.clone();
    clashing.set_v(1, 2, &[6, 6, 7]);
    clashing.take(1);
    clashing.refused(15, 1);
    assert_eq!(clashing.local_word(8), 5);
    desk.take(2);
    assert_eq!(desk.local_word(8), 6);
}

#[test]
fn private_accesses_may_be_local_and_14_comes_before_9() {
    let mut launches = launches(2);
    launches[0].fixed.pds = LOCAL;
    launches[1].fixed.pds = LOCAL + 32;
    let mut desk = Desk::on(&launches, &[v("vid.v", 2, 0, 0), s("vsw.p", 1, 2, 4)]);
    desk.take(4);
    assert_eq!([16, 20, 24, 28].map(|at| desk.local_word(at)), [0, 1, 2, 3]);
    assert_eq!([48, 52, 56, 60].map(|at| desk.local_word(at)), [0, 1, 2, 3]);
    // Lane 0 is outside, lane 3 crosses.
    let mut desk = Desk::launched(1, &[i("vlh.p", 3, 1, 0)]);
    desk.set_v(0, 1, &[0x100, 0, 0, 3]);
    desk.refused(14, 0);
    desk.set_v(0, 1, &[0x100, 0, 0, 2]);
    desk.refused(9, 0);
}

#[test]
fn warps_see_each_others_stores_in_the_order_of_their_steps() {
    // Warp 0 stores before warp 1 loads in the same round, and after it in the next.
    let [data_base, lds] = bases();
    let first = [NOP, i("lw", 3, 7, 0), NOP, i("lw", 4, 6, 0), ENDPRG];
    let other = [s("sw", 7, 8, 0), NOP, NOP, s("sw", 6, 8, 0), ENDPRG];
    let kernel = [&[data_base, lds, i("addi", 8, 0, 77)], &parted(&first, &other)[..]].concat();
    let mut desk = Desk::launched(2, &kernel);
    desk.data.fill(0);
    desk.local.fill(0);
    assert_eq!(desk.run(99), (3, 20, 0));
    assert_eq!((desk.word(1, 3), desk.word(1, 4)), (77, 77));
    // With the turns exchanged warp 1 loads first and sees what was there.
    let mut desk = Desk::launched(2, &kernel);
    desk.data.fill(0);
    desk.local.fill(0);
    desk.state[0] = 1;
    desk.run(99);
    assert_eq!((desk.word(1, 3), desk.word(1, 4)), (77, 0));
}

#[test]
fn other_warps_are_untouched_by_a_step() {
    let split = [v("vid.v", 1, 0, 0), b("vbeq", 1, 0, 8), NOP, JOIN, s("vsw12", 2, 1, 0)];
    let mut random = any_words(3);
    let mut desk = Desk::launched(4, &split);
    desk.vector.iter_mut().for_each(|word| *word = random());
    for warp in 0..4 {
        desk.set_v(warp, 2, &[DATA, LOCAL, DATA + 8, LOCAL + 8]);
    }
    for step in 0..16 {
        let before = desk.clone();
        assert_eq!(desk.step(), (0, 0));
        for warp in (0..4).filter(|warp| *warp != step % 4) {
            let (words, file) = (
                state_words(warp)..state_words(warp + 1),
                VECTOR_WORDS * warp..VECTOR_WORDS * (warp + 1),
            );
            assert_eq!(desk.state[words.clone()], before.state[words]);
            assert_eq!(desk.vector[file.clone()], before.vector[file]);
        }
    }
}

#[test]
fn warps_read_their_own_csrs() {
    let kernel = [
        i("csrrs", 1, 0, 0x800),
        i("csrrs", 2, 0, 0x801),
        i("csrrs", 3, 0, 0x805),
        i("csrrs", 4, 0, 0x806),
        ENDPRG,
    ];
    let mut desk = Desk::launched(3, &kernel);
    assert_eq!(desk.run(99), (3, 15, 0));
    assert_eq!((desk.each(1), desk.each(2)), (vec![0, 4, 8], vec![3; 3]));
    assert_eq!((desk.each(3), desk.each(4)), (vec![0, 1, 2], vec![LOCAL; 3]));
}

// Runs.

#[test]
fn a_run_is_its_single_steps() {
    let [data_base, lds] = bases();
    let first = [NOP, i("lw", 3, 7, 0), BARRIER, s("sw", 6, 5, 0), BARRIER, ENDPRG];
    let other = [s("sw", 7, 6, 0), BARRIER, i("lw", 4, 6, 0), ENDPRG];
    let kernel = [&[data_base, lds], &parted(&first, &other)[..]].concat();
    let launched = Desk::launched(3, &kernel);
    let (mut whole, mut single, mut taken) = (launched.clone(), launched.clone(), 0);
    while single.step() == (0, 0) {
        taken += 1;
        let mut run = launched.clone();
        run.take(taken);
        assert_eq!(run, single);
        // And a run of so many, then of the rest.
        assert_eq!(run.run(u32::MAX).0, 3);
        whole = launched.clone();
        assert_eq!(whole.run(u32::MAX).0, 3);
        assert_eq!(run, whole);
    }
    assert_eq!(single, whole);
    assert_eq!(whole.run(5), (3, 0, 0));
}

#[test]
fn a_run_of_0_takes_no_step() {
    let desk = Desk::launched(2, &[UNKNOWN]);
    let mut after = desk.clone();
    assert_eq!(after.run(0), (0, 0, 0));
    assert_eq!(after, desk);
    assert_eq!(after.run(1), (6, 0, 0));
}

#[test]
fn a_group_of_one_is_a_single_warp() {
    let kernel = [
        v("vid.v", 1, 0, 0),
        i("auipc", 5, 0, 0),
        i("setrpc", 0, 5, 20),
        b("vbeq", 1, 0, 8),
        i("addi", 6, 6, 1),
        i("vlw12", 3, 7, 0),
        JOIN,
        ENDPRG,
    ];
    for budget in 0..20 {
        let mut desk = Desk::launched(1, &kernel);
        let (mut state, mut vector) = (desk.state[1..].to_vec(), desk.vector.clone());
        let mut data = desk.data.clone();
        let (code, steps, _) = desk.run(budget);
        let single = saved::run(&mut state, &kernel, &mut vector, &mut data, budget);
        assert_eq!((code, steps), single);
        assert_eq!((&desk.state[1..], desk.vector, desk.data), (&state[..], vector, data));
    }
}
