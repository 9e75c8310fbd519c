//! The case files of logs/: the built program must write what they say, line by line and as a whole, and so must the player of
//! this crate.

mod common;

use std::ffi::OsStr;
use std::fs;
use std::path::{Path, PathBuf};

use common::{Running, play_on_program, root};
use ivshmem_log::Player;
use ivshmem_log::case::{self, BadLine, Run};

/// The case files of this folder and of those in it.
fn files(folder: &Path) -> Vec<PathBuf> {
    let entries = fs::read_dir(folder).unwrap_or_else(|error| panic!("{}: {error}", folder.display()));
    let mut paths: Vec<PathBuf> = entries.map(|entry| entry.expect("an entry").path()).collect();
    paths.sort();
    let inside = paths.iter().filter(|path| path.is_dir()).flat_map(|path| files(path));
    let texts = paths.iter().filter(|path| path.extension() == Some(OsStr::new("txt"))).cloned();
    texts.chain(inside).collect()
}

fn runs(file: &Path) -> Vec<Run> {
    let text = fs::read_to_string(file).unwrap_or_else(|error| panic!("{}: {error}", file.display()));
    case::parse(&text).unwrap_or_else(|bad| panic!("{}: {bad}", file.display()))
}

/// All runs of all case files, each with its name.
fn all_runs() -> Vec<(String, Run)> {
    let files = files(&root().join("logs"));
    let all: Vec<(String, Run)> = files
        .iter()
        .flat_map(|file| {
            let name = file.strip_prefix(root()).unwrap_or(file).display().to_string();
            (1..).zip(runs(file)).map(move |(at, run)| (format!("{name}, run {at}"), run))
        })
        .collect();
    assert!(all.len() >= 30, "{} runs in {} files", all.len(), files.len());
    all
}

/// Gives the program a line at a time, each only after it has written what it must for the one before.
fn line_by_line(run: &Run) -> Result<(), String> {
    let mut running = Running::start();
    let mut expected = Vec::new();
    for step in &run.steps {
        let stopped = expected.last() == Some(&0x85);
        if !running.give(&step.input) && !stopped {
            return Err(format!("line {}: it takes no more input", step.line));
        }
        expected.extend(&step.written);
        let written = running.wait_for(expected.len()).map_err(|why| format!("line {}: {why}", step.line))?;
        if written != expected {
            return Err(format!("line {}: {:02x?} in place of {expected:02x?}", step.line, written));
        }
    }
    expected.extend(&run.at_end);
    let written = running.end()?;
    if written == expected { Ok(()) } else { Err(format!("at the end: {written:02x?} in place of {expected:02x?}")) }
}

#[test]
fn program_line_by_line() {
    for (name, run) in all_runs() {
        line_by_line(&run).unwrap_or_else(|why| panic!("{name}: {why}"));
    }
}

#[test]
fn program_as_a_whole() {
    for (name, run) in all_runs() {
        assert_eq!(play_on_program(&[&run.input()]), Ok(run.written()), "{name}");
    }
}

#[test]
fn player_line_by_line() {
    for (name, run) in all_runs() {
        let mut player = Player::default();
        for step in &run.steps {
            let mut written = Vec::new();
            player.play(&step.input, &mut written);
            assert_eq!(written, step.written, "{name}, line {}", step.line);
        }
        let mut written = Vec::new();
        player.end(&mut written);
        assert_eq!(written, run.at_end, "{name}, at the end");
    }
}

/// The model agrees with what was written down by hand, too.
#[test]
fn model_line_by_line() {
    for (name, run) in all_runs() {
        let mut player = model::log::player();
        for step in &run.steps {
            let mut written = Vec::new();
            player.feed(&step.input, &mut written);
            assert_eq!(written, step.written, "{name}, line {}", step.line);
        }
        let mut written = Vec::new();
        player.end(&mut written);
        assert_eq!(written, run.at_end, "{name}, at the end");
    }
}

/// What the program's crate is given and must print when it is checked.
#[test]
fn stored_input_and_output() {
    let runs = runs(&root().join("logs/cases.txt"));
    let [run] = &runs[..] else { panic!("logs/cases.txt has {} runs", runs.len()) };
    for (name, bytes) in [("stdin", run.input()), ("stdout", run.written())] {
        let path = root().join("crates/player").join(name);
        let stored = fs::read(&path).unwrap_or_else(|error| panic!("{}: {error}", path.display()));
        assert!(stored == bytes, "{} is not made from logs/cases.txt: assemble it anew", path.display());
    }
}

/// logs/ has every kind, taken or read, and every refusal that a log can give.
#[test]
fn cases_cover_every_kind_and_refusal() {
    let mut kinds = [0; 12];
    let mut refusals = [0; 12];
    for (_, run) in all_runs() {
        let mut player = Player::default();
        let _ = player.feed(&run.input(), |played| match played.answer {
            ivshmem_log::Answer::Refused(refusal) => refusals[refusal.number() as usize] += 1,
            _ => kinds[usize::from(played.record.kind())] += 1,
        });
    }
    assert!(kinds.iter().all(|&taken| taken > 0), "records taken by kind: {kinds:?}");
    let given = |number: &usize| refusals[*number] > 0;
    assert_eq!((0..12).filter(given).collect::<Vec<_>>(), [1, 3, 4, 5, 6, 7, 8, 9, 10]);
}

#[test]
fn case_files_are_read_to_the_letter() {
    let text = "# nothing\n01 00 00>80 0A # no hub\n\n  060\t0 \n end >84\n0c > 8 5\n01 0000\n";
    let runs = case::parse(text).unwrap();
    let [first, second] = &runs[..] else { panic!("{runs:?}") };
    assert_eq!(first.steps.iter().map(|step| step.line).collect::<Vec<_>>(), [2, 4]);
    assert_eq!((first.input(), first.written()), (vec![1, 0, 0, 6, 0], vec![0x80, 10, 0x84]));
    assert_eq!(first.at_end, [0x84]);
    assert_eq!((second.input(), second.written()), (vec![0x0c, 1, 0, 0], vec![0x85]));
    assert_eq!(case::parse(""), Ok(vec![Run::default()]));

    let bad = |text: &str| case::parse(text).unwrap_err();
    assert_eq!(bad("01\n0 > 81"), BadLine { line: 2, why: "half a byte: the number of digits is odd" });
    assert_eq!(bad("01 > 8"), BadLine { line: 1, why: "half a byte: the number of digits is odd" });
    let digit = "neither a hexadecimal digit nor a blank";
    assert_eq!(bad("0g").to_string(), format!("line 1: {digit}"));
    assert_eq!(bad("\n01 > 81 > 82"), BadLine { line: 2, why: digit });
    assert_eq!(bad("end of the log"), BadLine { line: 1, why: digit });
}
