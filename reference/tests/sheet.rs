//! Sheets: every mark, every refusal and their order, and what each leaves.

use reference::generate::card_of;
use reference::isa::{ENDPRG, JOIN};
use reference::sheet::{
    self, bench_mark, bench_sheet, sheet_of, steps_of, Mark, SHEET_BYTES, STEPS, STEP_BYTES,
};
use reference::state::{Fixed, Launch};
use reference::table::{enc_b, enc_i, enc_s, rd, regext, rs1, rs2, Table, NOP};
use reference::{run, Refusal};

const CODE: u32 = 0x8000_0000;
const DATA: u32 = 0x1000_0000;
/// jal x0, 0: for ever on one PC.
const FOR_EVER: u32 = 0x0000_006f;
/// What lent words and bytes hold before a call.
const BEFORE: u8 = 0xa5;
const WORD_BEFORE: u32 = 0xa5a5_a5a5;

/// Four lanes, of which lane 3 leaves for the else part and joins the others again.
fn split_kernel() -> Vec<u32> {
    let t = Table::whole();
    vec![
        t.fixed("vid.v") | rd(1),
        t.fixed("vmv.vi") | rd(2) | rs1(2),
        t.fixed("auipc") | rd(5),
        t.fixed("setrpc") | rs1(5) | enc_i(20),
        t.fixed("vblt") | rs1(2) | rs2(1) | enc_b(8),
        t.fixed("vadd.vi") | rd(3) | rs2(1) | rs1(5),
        t.fixed("vadd.vi") | rd(4) | rs2(1) | rs1(1),
        JOIN,
        ENDPRG,
    ]
}

/// The steps of `split_kernel` by hand: word number, mask after, open splits after. A JOIN that
/// closes a split stays on its PC, so the last JOIN comes twice.
const SPLIT_STEPS: [(u32, u32, u8); 12] = [
    (0, 0xf, 0),
    (1, 0xf, 0),
    (2, 0xf, 0),
    (3, 0xf, 0),
    (4, 0x7, 1),
    (5, 0x7, 1),
    (6, 0x7, 1),
    (7, 0x8, 1),
    (6, 0x8, 1),
    (7, 0xf, 0),
    (7, 0xf, 0),
    (8, 0xf, 0),
];

fn split_sheet() -> Vec<u8> {
    let kernel = split_kernel();
    let mut sheet = vec![0, 0, 0, 1 + 12 * 13, 1];
    for (at, mask, splits) in SPLIT_STEPS {
        for field in [CODE + 4 * at, kernel[at as usize], mask] {
            sheet.extend(field.to_be_bytes());
        }
        sheet.push(splits);
    }
    sheet
}

fn launch() -> Launch {
    let (code_base, data_base) = (CODE, DATA);
    let fixed = Fixed { numt: 4, numw: 1, mask: 0xf, code_base, data_base, ..Fixed::default() };
    Launch { fixed, entry: CODE }
}

/// What is lent to a call, none of it 0 before.
#[derive(Clone, Debug, PartialEq, Eq)]
struct Desk {
    card: Vec<u8>,
    kernel: Vec<u32>,
    vector: Vec<u32>,
    data: Vec<u8>,
    target: Vec<u8>,
    /// Where a mark puts its result.
    result: Vec<u32>,
    /// Where a written sheet's size goes.
    written: Vec<u32>,
}

impl Desk {
    fn new(kernel: &[u32]) -> Desk {
        Desk {
            card: card_of(&launch()),
            kernel: kernel.to_vec(),
            vector: vec![WORD_BEFORE; run::VECTOR_WORDS],
            data: vec![BEFORE; 64],
            target: vec![BEFORE; SHEET_BYTES + 7],
            result: vec![WORD_BEFORE; 2],
            written: vec![WORD_BEFORE],
        }
    }
    fn mark(&mut self, sheet: &[u8]) -> u32 {
        let Desk { card, kernel, vector, data, result, .. } = self;
        bench_mark(card, kernel, vector, data, sheet, result)
    }
    fn write(&mut self) -> u32 {
        let Desk { card, kernel, vector, data, target, written, .. } = self;
        bench_sheet(card, kernel, vector, data, target, written)
    }
    /// A mark that is refused with `number`, and what it must leave besides the result.
    fn mark_refused(&self, sheet: &[u8], number: u32, left: Desk) {
        let mut after = self.clone();
        assert_eq!(after.mark(sheet), number);
        let result = if self.result.len() == 2 { vec![0; 2] } else { self.result.clone() };
        assert_eq!(after, Desk { result, ..left });
    }
    /// The same of a sheet that is to be written.
    fn write_refused(&self, number: u32, left: Desk) {
        let mut after = self.clone();
        assert_eq!(after.write(), number);
        let written = if self.written.len() == 1 { vec![0] } else { self.written.clone() };
        assert_eq!(after, Desk { written, ..left });
    }
    /// As a launch that takes no step leaves it.
    fn launched(&self) -> Desk {
        Desk { vector: vec![0; run::VECTOR_WORDS], ..self.clone() }
    }
}

/// The mark of a sheet against a kernel's run, by both forms of the call.
fn marked(kernel: &[u32], sheet: &[u8]) -> Result<Mark, u32> {
    let mut desk = Desk::new(kernel);
    let (mut vector, mut data) = (desk.vector.clone(), desk.data.clone());
    let mark = sheet::mark(&launch(), kernel, &mut vector, &mut data, sheet);
    let code = desk.mark(sheet);
    assert_eq!((&desk.vector, &desk.data), (&vector, &data));
    match mark {
        Ok(mark) => assert_eq!((code, &desk.result[..]), (0, &mark.words()[..])),
        Err(refusal) => assert_eq!((code, &desk.result[..]), (refusal.number(), &[0, 0][..])),
    }
    mark.map_err(Refusal::number)
}

/// The run's own sheet.
fn own_sheet(kernel: &[u32]) -> Vec<u8> {
    let mut desk = Desk::new(kernel);
    assert_eq!(desk.write(), 0);
    desk.target[..desk.written[0] as usize].to_vec()
}

#[test]
fn sizes_are_the_rules() {
    assert_eq!((STEPS, STEP_BYTES, SHEET_BYTES), (4_096, 13, 53_253));
}

#[test]
fn a_sheet_by_hand_is_the_runs_own() {
    assert_eq!(own_sheet(&split_kernel()), split_sheet());
    assert_eq!(marked(&split_kernel(), &split_sheet()), Ok(Mark::Full));
}

/// A prefix has a line of its own, and a word behind one that is refused has none.
#[test]
fn prefixes_are_steps_of_a_sheet() {
    let kernel = [regext(0, 0, 3), Table::whole().fixed("vid.v") | rd(4), regext(0, 0, 0), JOIN];
    let mut lines = Vec::new();
    for (n, word) in (0..).zip(&kernel[..3]) {
        for field in [CODE + 4 * n, *word, 0xf] {
            lines.extend(field.to_be_bytes());
        }
        lines.push(0);
    }
    assert_eq!(own_sheet(&kernel), sheet_of(&lines));
    assert_eq!(marked(&kernel, &sheet_of(&lines)), Ok(Mark::Full));
    assert_eq!(
        marked(&kernel, &sheet_of(&lines[..13])),
        Ok(Mark::Short { on_sheet: 1, in_run: 3 })
    );
    assert_eq!(marked(&[regext(0, 0, 0) | rd(1)], &sheet_of(&[])), Err(17));
}

#[test]
fn marks_have_their_words() {
    let (on_sheet, in_run) = (1, 2);
    assert_eq!(Mark::Full.words(), [1, 0]);
    assert_eq!(Mark::Differs(7).words(), [2, 7]);
    assert_eq!(Mark::Short { on_sheet, in_run }.words(), [3, 0]);
    assert_eq!(Mark::Long { on_sheet, in_run }.words(), [4, 0]);
}

#[test]
fn one_bit_of_any_field_differs_at_its_step() {
    for bit in 0..8 * STEP_BYTES * SPLIT_STEPS.len() {
        let mut sheet = split_sheet();
        sheet[5 + bit / 8] ^= 1 << (bit % 8);
        let step = (bit / 8 / STEP_BYTES) as u32 + 1;
        assert_eq!(marked(&split_kernel(), &sheet), Ok(Mark::Differs(step)), "bit {bit}");
    }
}

#[test]
fn the_first_of_several_differences_counts() {
    let mut steps = split_sheet()[5..].to_vec();
    steps[3 * STEP_BYTES + 12] ^= 1;
    steps[2 * STEP_BYTES + 8] ^= 0x80;
    for count in [3, 4, 12] {
        let sheet = sheet_of(&steps[..count * STEP_BYTES]);
        assert_eq!(marked(&split_kernel(), &sheet), Ok(Mark::Differs(3)), "{count} steps");
    }
    steps.extend([0; STEP_BYTES]);
    assert_eq!(marked(&split_kernel(), &sheet_of(&steps)), Ok(Mark::Differs(3)));
    assert_eq!(
        marked(&split_kernel(), &sheet_of(&steps[..2 * STEP_BYTES])),
        Ok(Mark::Short { on_sheet: 2, in_run: 12 })
    );
}

#[test]
fn fewer_steps_are_short_and_more_are_long() {
    let own = split_sheet();
    for on_sheet in 0..12 {
        let sheet = sheet_of(&own[5..][..on_sheet as usize * STEP_BYTES]);
        let short = Mark::Short { on_sheet, in_run: 12 };
        assert_eq!(marked(&split_kernel(), &sheet), Ok(short));
    }
    for over in 1..4 {
        let more = vec![0xff; over * STEP_BYTES];
        let long = Mark::Long { on_sheet: 12 + over as u32, in_run: 12 };
        assert_eq!(marked(&split_kernel(), &sheet_of(&[&own[5..], &more].concat())), Ok(long));
    }
}

#[test]
fn a_sheet_of_no_steps_is_short_and_under_5_bytes_are_no_sheet() {
    let empty = [0, 0, 0, 1, 1];
    assert_eq!(sheet_of(&[]), empty);
    assert_eq!(marked(&split_kernel(), &empty), Ok(Mark::Short { on_sheet: 0, in_run: 12 }));
    for bytes in 0..5 {
        assert_eq!(marked(&split_kernel(), &empty[..bytes]), Err(16), "{bytes} bytes");
    }
}

#[test]
fn a_sheet_cut_or_extended_at_any_byte_is_malformed() {
    let own = split_sheet();
    for bytes in 0..own.len() {
        assert_eq!(marked(&split_kernel(), &own[..bytes]), Err(16), "{bytes} bytes");
    }
    for over in 1..=2 * STEP_BYTES {
        let sheet = [&own[..], &vec![0; over]].concat();
        assert_eq!(marked(&split_kernel(), &sheet), Err(16), "{over} bytes over");
    }
}

#[test]
fn a_length_that_fits_no_whole_steps_is_malformed() {
    let own = split_sheet();
    for bytes in 5..=own.len() + STEP_BYTES {
        let mut sheet = own.clone();
        sheet.resize(bytes, 0);
        sheet[3] = (bytes - 4) as u8;
        let whole = (bytes - 5) % STEP_BYTES == 0;
        assert_eq!(marked(&split_kernel(), &sheet).is_ok(), whole, "{bytes} bytes");
    }
}

#[test]
fn another_length_or_version_is_malformed() {
    let own = split_sheet();
    let length = (own.len() - 4) as u32;
    let lengths = [
        0,
        1,
        length - 13,
        length - 1,
        length + 1,
        length + 4, // counted with itself
        length + 13,
        length | 1 << 31,
        length.swap_bytes(),
    ];
    for wrong in lengths {
        let sheet = [&wrong.to_be_bytes(), &own[4..]].concat();
        assert_eq!(marked(&split_kernel(), &sheet), Err(16), "length {wrong}");
    }
    for version in (0..=255).filter(|version| *version != 1) {
        let mut sheet = own.clone();
        sheet[4] = version;
        assert_eq!(marked(&split_kernel(), &sheet), Err(16), "version {version}");
    }
}

#[test]
fn a_run_of_4096_steps_is_all_on_its_sheet() {
    let own = own_sheet(&[FOR_EVER]);
    let step = [&CODE.to_be_bytes()[..], &FOR_EVER.to_be_bytes(), &[0, 0, 0, 0xf, 0]].concat();
    assert_eq!(own.len(), SHEET_BYTES);
    assert_eq!(own, sheet_of(&step.repeat(STEPS)));
    assert_eq!(marked(&[FOR_EVER], &own), Ok(Mark::Full));
    assert_eq!(
        marked(&[FOR_EVER], &sheet_of(&step.repeat(STEPS - 1))),
        Ok(Mark::Short { on_sheet: 4_095, in_run: 4_096 })
    );
    let mut last = own.clone();
    last[SHEET_BYTES - 1] ^= 1;
    assert_eq!(marked(&[FOR_EVER], &last), Ok(Mark::Differs(4_096)));
    let first = Mark::Long { on_sheet: 4_096, in_run: 1 };
    let end = [&CODE.to_be_bytes()[..], &ENDPRG.to_be_bytes(), &[0, 0, 0, 0xf, 0]].concat();
    let long = sheet_of(&[end, step.repeat(STEPS - 1)].concat());
    assert_eq!(marked(&[ENDPRG], &long), Ok(first));
    assert_eq!(marked(&[FOR_EVER], &sheet_of(&step.repeat(STEPS + 1))), Err(16));
}

#[test]
fn steps_of_a_sheet_are_read_back() {
    for count in [0, 1, 2, STEPS] {
        let steps = vec![7; count * STEP_BYTES];
        assert_eq!(steps_of(&sheet_of(&steps)), Ok(&steps[..]));
    }
    assert_eq!(steps_of(&sheet_of(&vec![7; (STEPS + 1) * STEP_BYTES])), Err(Refusal::Sheet));
}

/// A scalar store, lane numbers in v1, then a word that is not in the tables.
fn storing_kernel() -> Vec<u32> {
    let t = Table::whole();
    vec![
        t.fixed("lui") | rd(5) | DATA,
        t.fixed("addi") | rd(6) | enc_i(0x123),
        t.fixed("sw") | rs1(5) | rs2(6) | enc_s(4),
        t.fixed("vid.v") | rd(1),
        0,
    ]
}

#[test]
fn a_mark_and_a_written_sheet_leave_what_the_run_leaves() {
    let own = own_sheet(&storing_kernel());
    assert_eq!(own.len(), 5 + 4 * STEP_BYTES);
    let before = Desk::new(&storing_kernel());
    let mut left = before.launched();
    left.data[4..8].copy_from_slice(&[0x23, 1, 0, 0]);
    left.vector[32..36].copy_from_slice(&[0, 1, 2, 3]);

    let mut wrong = own.clone();
    wrong[5] ^= 1;
    for (sheet, words) in [(&own[..], [1, 0]), (&wrong, [2, 1]), (&[0, 0, 0, 1, 1], [3, 0])] {
        let mut after = before.clone();
        assert_eq!(after.mark(sheet), 0);
        assert_eq!(after, Desk { result: words.to_vec(), ..left.clone() });
    }
    let mut after = before;
    assert_eq!(after.write(), 0);
    left.target[..own.len()].copy_from_slice(&own);
    assert_eq!(after, Desk { written: vec![own.len() as u32], ..left });
}

#[test]
fn a_run_of_no_steps_is_refused_with_17() {
    let off = Launch { entry: CODE + 4, ..launch() };
    let t = Table::whole();
    let lw = t.fixed("lw") | rd(1); // from address 0, outside the data
    let firsts = [
        Desk::new(&[0]),
        Desk::new(&[lw, ENDPRG]),
        Desk { card: card_of(&off), ..Desk::new(&[ENDPRG]) },
    ];
    for desk in firsts {
        desk.mark_refused(&split_sheet(), 17, desk.launched());
        desk.mark_refused(&[0, 0, 0, 1, 1], 17, desk.launched());
        desk.write_refused(17, desk.launched());
    }
}

type Spoil = fn(&mut Desk);

/// Each way to be refused before the sheet is looked at, in the order of the tests.
const FAULTS: [(u32, Spoil); 9] = [
    (13, |desk| desk.card[2] = 2),
    (1, |desk| desk.card[3] = 0), // NUMT
    (1, |desk| desk.result.clear()),
    (1, |desk| desk.written.clear()),
    (1, |desk| desk.vector.push(WORD_BEFORE)),
    (1, |desk| desk.data.resize(65_537, BEFORE)),
    (1, |desk| desk.kernel.clear()),
    (1, |desk| desk.kernel.resize(16_385, NOP)),
    (1, |desk| desk.card[14..18].copy_from_slice(&[0xff; 4])), // the data base
];

#[test]
fn marks_are_refused_with_13_then_1_then_16_then_17() {
    let mut desk = Desk::new(&[0]); // no steps: 17 unless refused before
    for (refusal, spoil) in FAULTS.iter().rev() {
        spoil(&mut desk);
        desk.mark_refused(&[], *refusal, desk.clone());
        desk.mark_refused(&split_sheet(), *refusal, desk.clone());
    }
    let desk = Desk::new(&[0]);
    desk.mark_refused(&[], 16, desk.clone());
    desk.mark_refused(&split_sheet(), 17, desk.launched());
}

#[test]
fn each_fault_alone_refuses() {
    for (at, (refusal, spoil)) in FAULTS.iter().enumerate() {
        let mut desk = Desk::new(&split_kernel());
        spoil(&mut desk);
        // `written` is no part of a mark, and `result` none of a written sheet.
        if at != 3 {
            desk.mark_refused(&split_sheet(), *refusal, desk.clone());
        }
        if at != 2 {
            desk.write_refused(*refusal, desk.clone());
        }
    }
}

#[test]
fn results_of_another_length_stay() {
    for words in [0, 1, 3, 4] {
        let desk = Desk { result: vec![WORD_BEFORE; words], ..Desk::new(&split_kernel()) };
        desk.mark_refused(&split_sheet(), 1, desk.clone());
        desk.mark_refused(&[], 1, desk.clone());
        let cut = Desk { card: desk.card[..49].to_vec(), ..desk };
        cut.mark_refused(&split_sheet(), 13, cut.clone());
    }
    for words in [0, 2, 3] {
        let desk = Desk { written: vec![WORD_BEFORE; words], ..Desk::new(&split_kernel()) };
        desk.write_refused(1, desk.clone());
        let cut = Desk { card: vec![], ..desk };
        cut.write_refused(13, cut.clone());
    }
}

#[test]
fn a_target_has_room_for_the_longest_sheet() {
    for kernel in [&split_kernel()[..], &[FOR_EVER], &[0]] {
        for bytes in [0, 5, 53_252] {
            let desk = Desk { target: vec![BEFORE; bytes], ..Desk::new(kernel) };
            desk.write_refused(1, desk.clone());
        }
    }
    for kernel in [&split_kernel()[..], &[FOR_EVER]] {
        let own = own_sheet(kernel);
        for bytes in [53_253, 53_254, 60_000] {
            let mut desk = Desk { target: vec![BEFORE; bytes], ..Desk::new(kernel) };
            assert_eq!((desk.write(), desk.written[0] as usize), (0, own.len()));
            let (sheet, past) = desk.target.split_at(own.len());
            assert_eq!(sheet, own);
            assert!(past.iter().all(|byte| *byte == BEFORE));
        }
    }
}
