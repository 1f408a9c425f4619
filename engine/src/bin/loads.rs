//! Inputs of the load for another implementation, and the comparison with what its
//! program printed of them:
//!
//! * `loads make DIR SEED COUNT` writes the inputs `0001.in`, `0002.in`, ... into a
//!   folder that is there, the special ones first.
//! * `loads compare DIR` sees that every `NNNN.out` is the engine's text of its
//!   `NNNN.in`, and that every fault of the load differs from one of them.

use std::fs;
use std::io;
use std::path::Path;
use std::process::ExitCode;

use hds_engine::faulty_load::{self, LoadFault, LOAD_FAULTS};
use hds_engine::{load, loads};

/// What is wrong, a line for each.
type Findings = Vec<String>;

/// An input with what was printed of it.
struct Case {
    name: String,
    input: Vec<u8>,
    output: io::Result<Vec<u8>>,
}

fn main() -> ExitCode {
    let words: Vec<String> = std::env::args().skip(1).collect();
    let words: Vec<&str> = words.iter().map(String::as_str).collect();
    let done = match words[..] {
        ["make", folder, seed, count] => make(Path::new(folder), seed, count),
        ["compare", folder] => compare(Path::new(folder)),
        _ => Err(vec!["loads make DIR SEED COUNT, or loads compare DIR".into()]),
    };
    match done {
        Ok(text) => {
            println!("{text}");
            ExitCode::SUCCESS
        }
        Err(findings) => {
            findings.iter().for_each(|finding| println!("{finding}"));
            ExitCode::FAILURE
        }
    }
}

fn make(folder: &Path, seed: &str, count: &str) -> Result<String, Findings> {
    let seed = seed.parse().map_err(|_| vec![format!("{seed} is no seed")])?;
    let count = count.parse().map_err(|_| vec![format!("{count} is no count")])?;
    for (index, input) in loads::inputs(seed, count).iter().enumerate() {
        let file = folder.join(format!("{:04}.in", index + 1));
        fs::write(&file, input).map_err(|error| vec![format!("{}: {error}", file.display())])?;
    }
    Ok(format!("{count} inputs in {}", folder.display()))
}

fn compare(folder: &Path) -> Result<String, Findings> {
    let cases = cases(folder).map_err(|error| vec![format!("{}: {error}", folder.display())])?;
    if cases.is_empty() {
        return Err(vec![format!("no inputs in {}", folder.display())]);
    }
    let mut findings: Findings = cases.iter().filter_map(difference).collect();
    for fault in LOAD_FAULTS {
        if !cases.iter().any(|case| tells(case, fault)) {
            findings.push(format!("{fault:?}: this fault differs from no output"));
        }
    }
    let all = cases.len() + LOAD_FAULTS.len();
    if findings.is_empty() {
        return Ok(format!("{all} passed, 0 failed"));
    }
    findings.push(format!("{} passed, {} failed", all - findings.len(), findings.len()));
    Err(findings)
}

/// The inputs of a folder by name, each with its output.
fn cases(folder: &Path) -> io::Result<Vec<Case>> {
    let mut cases = Vec::new();
    for entry in fs::read_dir(folder)? {
        let file = entry?.path();
        let name = file.file_stem().unwrap_or_default().to_string_lossy().into_owned();
        let is_number = !name.is_empty() && name.bytes().all(|byte| byte.is_ascii_digit());
        if is_number && file.extension().is_some_and(|extension| extension == "in") {
            let output = fs::read(file.with_extension("out"));
            cases.push(Case { name, input: fs::read(&file)?, output });
        }
    }
    cases.sort_by(|one, other| one.name.cmp(&other.name));
    Ok(cases)
}

/// How an output differs from the engine's text.
fn difference(case: &Case) -> Option<String> {
    let output = match &case.output {
        Ok(output) => output,
        Err(error) => return Some(format!("{}.out: {error}", case.name)),
    };
    let text = load::text(&case.input);
    if *output == text {
        return None;
    }
    let (theirs, ours) = (lines(output), lines(&text));
    let first = theirs.iter().zip(&ours).take_while(|(one, other)| one == other).count();
    let shown = |lines: &[&[u8]]| match lines.get(first) {
        Some(line) => format!("{:?}", String::from_utf8_lossy(line)),
        None => "nothing".into(),
    };
    let (theirs, ours) = (shown(&theirs), shown(&ours));
    Some(format!("{}.out, line {}: {theirs}, the engine has {ours}", case.name, first + 1))
}

/// The lines with their line feeds.
fn lines(text: &[u8]) -> Vec<&[u8]> {
    text.split_inclusive(|&byte| byte == b'\n').collect()
}

/// Whether the output is not what the load with that fault prints.
fn tells(case: &Case, fault: LoadFault) -> bool {
    let output = case.output.as_ref();
    output.is_ok_and(|output| *output != faulty_load::text(fault, &case.input))
}
