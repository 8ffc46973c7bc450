//! Runs one warp: `reference CARD KERNEL DATA`; writes the run's own sheet:
//! `reference sheet CARD KERNEL DATA OUT`; marks a sheet: `reference mark CARD KERNEL DATA SHEET`;
//! runs a group: `reference group FOLDER`. A missing file counts as empty.

use reference::group::{self, Group};
use reference::state::Launch;
use reference::{card, print, run, sheet, Refusal};
use std::ffi::{OsStr, OsString};
use std::path::Path;
use std::process::ExitCode;

const USAGE: &str = "usage: reference CARD KERNEL DATA
       reference sheet CARD KERNEL DATA OUT
       reference mark CARD KERNEL DATA SHEET
       reference group FOLDER
    (a missing file counts as empty)";

/// The steps of a printed run.
const BUDGET: u32 = 65_536;

fn main() -> ExitCode {
    let arguments: Vec<OsString> = std::env::args_os().skip(1).collect();
    match &arguments[..] {
        [card, kernel, data] => print!("{}", report(Files::read(card, kernel, data))),
        [call, folder] if call == "group" => print!("{}", group_report(Path::new(folder))),
        [call, card, kernel, data, sheet] if call == "mark" => {
            println!("{}", marked(Files::read(card, kernel, data), &read(sheet)));
        }
        [call, card, kernel, data, out] if call == "sheet" => {
            if let Err(wrong) = write_sheet(Files::read(card, kernel, data), out) {
                eprintln!("{wrong}");
                return ExitCode::FAILURE;
            }
        }
        _ => {
            eprintln!("{USAGE}");
            return ExitCode::from(2);
        }
    }
    ExitCode::SUCCESS
}

fn read(name: &OsStr) -> Vec<u8> {
    std::fs::read(name).unwrap_or_default()
}

/// The bytes of the three files, and the vector file of a launch on them.
struct Files {
    card: Vec<u8>,
    kernel: Vec<u8>,
    data: Vec<u8>,
    vector: [u32; run::VECTOR_WORDS],
}

impl Files {
    fn read(card: &OsStr, kernel: &OsStr, data: &OsStr) -> Files {
        let (card, kernel, data) = (read(card), read(kernel), read(data));
        Files { card, kernel, data, vector: [0; run::VECTOR_WORDS] }
    }

    /// The launch and the kernel's words; the sizes are the launch's to test.
    fn open(&self) -> Result<(Launch, Vec<u32>), Refusal> {
        let launch = card::read(&self.card)?;
        Ok((launch, kernel_of(&self.kernel)?))
    }
}

/// A kernel file's words; 1 if they are not whole.
fn kernel_of(bytes: &[u8]) -> Result<Vec<u32>, Refusal> {
    let words = bytes.chunks_exact(4);
    if !words.remainder().is_empty() {
        return Err(Refusal::Size);
    }
    Ok(words.map(|w| u32::from_le_bytes(w.try_into().expect("4 bytes"))).collect())
}

fn report(mut files: Files) -> String {
    let (launch, kernel) = match files.open() {
        Ok(opened) => opened,
        Err(refusal) => return print::code_line(refusal.number()),
    };
    let Files { vector, data, .. } = &mut files;
    let (code, mut warp) = run::launch(&launch, &kernel, vector, data);
    if code != 0 {
        return print::code_line(code);
    }
    let (code, steps) = run::run(&mut warp, &kernel, vector, data, BUDGET);
    print::five_lines(code, steps, &warp)
}

fn group_report(folder: &Path) -> String {
    run_group(folder).unwrap_or_else(|refusal| print::code_line(refusal.number()))
}

/// What is printed of a folder's group, if it can be launched.
fn run_group(folder: &Path) -> Result<String, Refusal> {
    let file = |name: &str| read(folder.join(name).as_os_str());
    let cards = file("cards.bin");
    // Over its limit the file is refused unread, so that its cards count for nothing.
    if cards.len() > card::CARD * group::WARPS {
        return Err(Refusal::Size);
    }
    let launches = group::read_cards(&cards)?;
    let kernel = kernel_of(&file("kernel.bin"))?;
    let (mut data, mut local) = (file("data.bin"), file("local.bin"));
    let mut vector = vec![0; run::VECTOR_WORDS * launches.len()];
    let mut group = Group::launch(&launches, &kernel, &mut vector, &data, &local)?;
    let ran = group.run(&kernel, &mut vector, &mut data, &mut local, BUDGET);
    Ok(print::group(&ran, &group))
}

fn marked(mut files: Files, sheet: &[u8]) -> String {
    let mark = files.open().and_then(|(launch, kernel)| {
        sheet::mark(&launch, &kernel, &mut files.vector, &mut files.data, sheet)
    });
    mark.map_or_else(print::refused, print::mark)
}

/// A refusal leaves the file as it was.
fn write_sheet(mut files: Files, out: &OsStr) -> Result<(), String> {
    let steps = files.open().and_then(|(launch, kernel)| {
        sheet::run_steps(&launch, &kernel, &mut files.vector, &mut files.data)
    });
    let sheet = sheet::sheet_of(&steps.map_err(print::refused)?);
    std::fs::write(out, sheet).map_err(|error| format!("{}: {error}", out.to_string_lossy()))
}
