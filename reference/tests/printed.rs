//! What the program `reference` prints of sheets, over the example folders, and of groups.

use reference::generate::card_of;
use reference::isa::ENDPRG;
use reference::state::{Fixed, Launch};
use reference::table::{Table, BARRIER, NOP};
use std::path::{Path, PathBuf};
use std::process::{Command, Output};

fn example(folder: &str, file: &str) -> PathBuf {
    Path::new(env!("CARGO_MANIFEST_DIR")).join("../examples").join(folder).join(file)
}

/// A file of one test's own, with these bytes: tests run beside each other.
fn file(name: &str, bytes: &[u8]) -> PathBuf {
    let path = Path::new(env!("CARGO_TARGET_TMPDIR")).join(name);
    std::fs::write(&path, bytes).expect("a written file");
    path
}

/// Calls the program on the three files of an example, or on those given instead.
fn call(call: &str, folder: &str, kernel: Option<&Path>, last: &Path) -> Output {
    let own = example(folder, "kernel.bin");
    Command::new(env!("CARGO_BIN_EXE_reference"))
        .arg(call)
        .arg(example(folder, "card.bin"))
        .arg(kernel.unwrap_or(&own))
        .arg(example(folder, "data.bin"))
        .arg(last)
        .output()
        .expect("the reference runs")
}

fn marked(folder: &str, kernel: Option<&Path>, sheet: &Path) -> String {
    let printed = call("mark", folder, kernel, sheet);
    assert!(printed.status.success() && printed.stderr.is_empty());
    String::from_utf8(printed.stdout).expect("text")
}

fn own_sheet(folder: &str, name: &str) -> Vec<u8> {
    let out = file(name, b"before");
    let written = call("sheet", folder, None, &out);
    assert!(written.status.success() && written.stdout.is_empty() && written.stderr.is_empty());
    std::fs::read(out).expect("the sheet")
}

#[test]
fn a_written_sheet_has_full_marks() {
    for (folder, steps) in [("end", 1), ("split", 12), ("loop31", 163), ("store", 7)] {
        let sheet = own_sheet(folder, &format!("{folder}-written"));
        assert_eq!(sheet.len(), 5 + 13 * steps, "{folder}");
        let path = file(&format!("{folder}-full"), &sheet);
        assert_eq!(marked(folder, None, &path), "full marks\n", "{folder}");
    }
}

#[test]
fn other_marks_say_where_and_how_many() {
    let own = own_sheet("split", "to-be-damaged");
    let with_length = |mut sheet: Vec<u8>| {
        sheet[3] = (sheet.len() - 4) as u8;
        sheet
    };
    let mut differing = own.clone();
    differing[5 + 4 * 13 + 12] = 0; // the fifth step opens a split
    let short = with_length(own[..5 + 13 * 11].to_vec());
    let long = with_length([&own[..], &[0; 26]].concat());
    for (name, sheet, said) in [
        ("differing", &differing[..], "differs at step 5\n"),
        ("short", &short, "short: 11 of 12 steps\n"),
        ("empty-sheet", &[0, 0, 0, 1, 1], "short: 0 of 12 steps\n"),
        ("long", &long, "long: 14 of 12 steps\n"),
    ] {
        assert_eq!(marked("split", None, &file(name, sheet)), said);
    }
}

#[test]
fn refusals_say_why() {
    let sheet = &example("split", "no-such-sheet.bin");
    let no_sheet =
        "refused 16: the sheet is missing, or its length, version or number of steps is wrong\n";
    assert_eq!(marked("split", None, sheet), no_sheet);
    assert_eq!(marked("split", None, &file("no-bytes", &[])), no_sheet);
    let size = "refused 1: a size, a base plus a length or a launch value is out of range\n";
    for (name, bytes) in [("halves", 6), ("no-words", 0), ("too-many-words", 65_540)] {
        let kernel = file(name, &vec![0; bytes]);
        assert_eq!(marked("split", Some(&kernel), sheet), size, "{name}");
    }
    let no_card = "refused 13: the card is missing, or its total, length or version is wrong\n";
    assert_eq!(marked("no-such-folder", None, sheet), no_card);
    let unknown = file("unknown-word", &[0; 4]);
    let empty_sheet = file("a-sheet-of-no-steps", &[0, 0, 0, 1, 1]);
    let no_steps = "refused 17: the run has no steps\n";
    assert_eq!(marked("split", Some(&unknown), &empty_sheet), no_steps);
}

#[test]
fn a_refused_sheet_is_not_written() {
    let (unknown, out) = (file("no-instruction", &[0; 4]), file("kept", b"before"));
    let refused = call("sheet", "split", Some(&unknown), &out);
    assert_eq!(refused.status.code(), Some(1));
    assert_eq!(String::from_utf8(refused.stderr).unwrap(), "refused 17: the run has no steps\n");
    assert_eq!(std::fs::read(out).unwrap(), b"before");
}

/// The cards of a group of so many warps.
fn cards(warps: u32) -> Vec<u8> {
    let card = |wid: u32| {
        let (code_base, data_base, lds) = (0x8000_0000, 0x9000_0000, 0xa000_0000);
        let fixed = Fixed {
            numt: 4,
            numw: warps,
            wid,
            mask: 0xf,
            code_base,
            data_base,
            lds,
            ..Fixed::default()
        };
        card_of(&Launch { fixed, entry: code_base })
    };
    (0..warps).flat_map(card).collect()
}

fn kernel(words: &[u32]) -> Vec<u8> {
    words.iter().flat_map(|word| word.to_le_bytes()).collect()
}

fn group_printout(folder: &Path) -> String {
    let printed = Command::new(env!("CARGO_BIN_EXE_reference"))
        .arg("group")
        .arg(folder)
        .output()
        .expect("the reference runs");
    assert!(printed.status.success() && printed.stderr.is_empty());
    String::from_utf8(printed.stdout).expect("text")
}

/// What is printed of a folder of one test's own, with these files.
fn grouped(name: &str, files: &[(&str, &[u8])]) -> String {
    let folder = Path::new(env!("CARGO_TARGET_TMPDIR")).join(name);
    let _ = std::fs::remove_dir_all(&folder); // what an earlier run left
    std::fs::create_dir(&folder).expect("a folder");
    for (file, bytes) in files {
        std::fs::write(folder.join(file), bytes).expect("a written file");
    }
    group_printout(&folder)
}

#[test]
fn the_example_groups_print_what_is_stored() {
    for name in ["group_sum", "group_race", "group_ended", "group_stop", "group_clash"] {
        let expected = std::fs::read_to_string(example(name, "expected.txt")).expect("the lines");
        assert_eq!(group_printout(&example(name, "")), expected, "{name}");
    }
}

#[test]
fn a_group_is_printed_warp_by_warp() {
    let ended = "code 3\nstopped none\nsteps 4\nturn 0\n\
        warp 0 pc 80000004 mask 0000000f splits 0 ended\n\
        warp 1 pc 80000004 mask 0000000f splits 0 ended\n";
    let files = [("cards.bin", &cards(2)[..]), ("kernel.bin", &kernel(&[NOP, ENDPRG]))];
    assert_eq!(grouped("group-ended", &files), ended);
    let for_ever = kernel(&[Table::whole().fixed("jal")]);
    let printed = grouped("group-for-ever", &[("cards.bin", &cards(1)), ("kernel.bin", &for_ever)]);
    let running = "code 0\nstopped none\nsteps 65536\nturn 0\n\
        warp 0 pc 80000000 mask 0000000f splits 0 running\n";
    assert_eq!(printed, running);
}

#[test]
fn a_stopped_group_is_printed_with_its_wid() {
    let t = &Table::whole();
    // Warp 1 has x5 = 1 and reads at 1; the others arrive.
    let words = [
        t.fixed("csrrs") | 5 << 7 | 0x805 << 20,
        t.fixed("addi") | 6 << 7 | 1 << 20,
        t.fixed("bne") | 5 << 15 | 6 << 20 | 8 << 7,
        t.fixed("lw") | 5 << 15,
        BARRIER,
    ];
    let files = [("cards.bin", &cards(3)[..]), ("kernel.bin", &kernel(&words))];
    let stopped = "code 9\nstopped 1\nsteps 10\nturn 1\n\
        warp 0 pc 80000014 mask 0000000f splits 0 waiting\n\
        warp 1 pc 8000000c mask 0000000f splits 0 running\n\
        warp 2 pc 80000010 mask 0000000f splits 0 running\n";
    assert_eq!(grouped("group-stopped", &files), stopped);
}

#[test]
fn files_of_a_group_over_their_limits_are_1() {
    let (cards, end) = (cards(2), kernel(&[ENDPRG]));
    let printed = |name: &str, [cards, kernel, data, local]: [&[u8]; 4]| {
        let files = [
            ("cards.bin", cards),
            ("kernel.bin", kernel),
            ("data.bin", data),
            ("local.bin", local),
        ];
        grouped(name, &files)
    };
    let (long, empty) = (&[0; 65_537][..], &[][..]);
    let full = &long[1..];
    let accepted = printed("group-largest", [&cards, &end.repeat(16_384), full, full]);
    assert!(accepted.starts_with("code 3\n"));
    for (name, files) in [
        ("group-halves", [&cards[..], &end[..3], empty, empty]),
        ("group-no-words", [&cards, empty, empty, empty]),
        ("group-long-kernel", [&cards, &end.repeat(16_385), empty, empty]),
        ("group-long-data", [&cards, &end, long, empty]),
        ("group-long-local", [&cards, &end, empty, long]),
        ("group-no-cards", [empty, &end, empty, empty]),
        ("group-many-bytes", [&long[..1_601], &end, empty, empty]),
        ("group-many-cards", [&long[..1_650], &end, empty, empty]),
    ] {
        assert_eq!(printed(name, files), "code 1\n", "{name}");
    }
    // The cards come first.
    for (name, cards) in [("group-cut-card", &cards[..99]), ("group-bad-card", &long[..1_600])] {
        assert_eq!(printed(name, [cards, empty, long, long]), "code 13\n", "{name}");
    }
    assert_eq!(grouped("group-no-files", &[]), "code 1\n");
}
