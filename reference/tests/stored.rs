//! The stored files: the generated cases, the marking cases, the group cases and their statistics
//! are what the generators make, every stored answer is the reference's, and every published
//! program passes.

use reference::case::{evaluate, read_file, write_file, Case};
use std::path::PathBuf;
use std::process::Command;

/// The test programs' folders, each with its case files in the order of their answers.
const CASES: (&str, &[&str]) =
    ("test_cases", &["generated.bin", "riscv_tests.bin", "vector_ops.bin"]);
const MARKS: (&str, &[&str]) = ("test_marks", &["marks.bin"]);
const GROUPS: (&str, &[&str]) = ("test_groups", &["groups.bin"]);

/// A file of a test program's folder.
fn stored(program: &str, name: &str) -> PathBuf {
    PathBuf::from(env!("CARGO_MANIFEST_DIR")).join("../crates").join(program).join(name)
}

/// The cases of a file, which are written as they are read, whoever made it.
fn cases(program: &str, file: &str) -> Vec<Case> {
    let bytes = std::fs::read(stored(program, "data").join(file)).expect("the cases");
    let cases = read_file(&bytes).expect("a case file");
    assert!(write_file(&cases) == bytes, "{file} is not written as it is read");
    cases
}

fn answers(program: &str, file: &str) -> String {
    cases(program, file).iter().enumerate().map(|(n, case)| evaluate(case).line(n)).collect()
}

/// A file and its statistics are what the generator makes; the number of its cases.
fn made(check: &str, program: &str, file: &str, statistics: &str) -> usize {
    let made = Command::new(env!("CARGO_BIN_EXE_cases"))
        .arg(check)
        .arg(stored(program, "data").join(file))
        .output()
        .expect("the generator runs");
    let printed = String::from_utf8(made.stderr).expect("text");
    assert!(made.status.success(), "{printed}");
    let statistics = PathBuf::from(env!("CARGO_MANIFEST_DIR")).join(statistics);
    assert_eq!(printed, std::fs::read_to_string(statistics).expect("the statistics"));
    assert!(!printed.contains("TOO FEW"), "{printed}");
    cases(program, file).len()
}

fn assert_stored_answers((program, files): (&str, &[&str])) {
    let expected = std::fs::read_to_string(stored(program, "stdout")).expect("the answers");
    let ours: String = files.iter().map(|file| answers(program, file)).collect();
    for (n, (line, stored)) in ours.lines().zip(expected.lines()).enumerate() {
        assert_eq!(line, stored, "line {} of the stored output of {program}", n + 1);
    }
    assert!(ours == expected, "the stored output of {program} has another number of lines");
}

#[test]
fn generated_cases_and_statistics_are_what_is_made() {
    assert!(made("check", "test_cases", "generated.bin", "generated-statistics.txt") >= 5_000);
}

#[test]
fn marking_cases_and_statistics_are_what_is_made() {
    assert!(made("check-marks", "test_marks", "marks.bin", "marks-statistics.txt") >= 1_500);
}

#[test]
fn group_cases_and_statistics_are_what_is_made() {
    assert!(made("check-groups", "test_groups", "groups.bin", "groups-statistics.txt") >= 900);
}

#[test]
fn stored_answers_are_ours() {
    assert_stored_answers(CASES);
    assert_stored_answers(MARKS);
    assert_stored_answers(GROUPS);
}

#[test]
fn published_programs_pass() {
    for line in answers("test_cases", "riscv_tests.bin").lines() {
        let fields: Vec<&str> = line.split(' ').collect();
        assert_eq!((fields[1], fields[6]), ("3", "00000001"), "{line}");
    }
}
