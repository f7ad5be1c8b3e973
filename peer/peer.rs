//! A second drive program, written from docs/RULES.md alone, and its comparison with the first.
//! See peer/README.md for the modes.

mod board;
mod compare;
mod cover;
mod drive;
mod journal;
mod make;
mod ramp;
mod selftest;
mod watch;
mod wire;

use std::io::{self, Read, Write};
use std::path::{Path, PathBuf};
use std::process::ExitCode;
use std::{env, fs};

use cover::Cover;

const DIFFERENT: u8 = 1;
const NOT_COVERED: u8 = 2;
const BROKEN: u8 = 3;
const MISUSED: u8 = 64;

const USAGE: &str = "use: peer drive < FILE
     peer list < FILE
     peer make SEED > FILE
     peer damage SEED < FILE > COPY
     peer cover FILE-OR-DIRECTORY...
     peer compare N DRIVE-COMMAND [ARGUMENT...]
     peer selftest";

fn main() -> ExitCode {
    let arguments: Vec<String> = env::args().skip(1).collect();
    let (mode, rest) = match arguments.split_first() {
        Some((mode, rest)) => (mode.as_str(), rest),
        None => ("", &[][..]),
    };
    let outcome = match (mode, rest) {
        ("drive", []) => drive_mode(),
        ("list", []) => list_mode(),
        ("make", [seed]) => make_mode(seed),
        ("damage", [seed]) => damage_mode(seed),
        ("cover", [_, ..]) => cover_mode(rest),
        ("compare", [seeds, command @ ..]) if !command.is_empty() => compare_mode(seeds, command),
        ("selftest", []) => selftest_mode(),
        _ => Err((MISUSED, USAGE.to_string())),
    };
    match outcome {
        Ok(()) => ExitCode::SUCCESS,
        Err((status, message)) => {
            eprintln!("{message}");
            ExitCode::from(status)
        }
    }
}

/// An exit status and what to say about it.
type Failure = (u8, String);

fn io_failure(error: io::Error) -> Failure {
    (MISUSED, format!("peer: {error}"))
}

fn number(text: &str) -> Result<u64, Failure> {
    text.parse().map_err(|_| (MISUSED, format!("peer: {text} is not a number\n{USAGE}")))
}

/// Standard input up to the first byte beyond the longest file; that byte tells all there is to know.
fn read_input() -> Result<Vec<u8>, Failure> {
    let most = drive::LONGEST_FILE + 1;
    let mut bytes = Vec::with_capacity(most);
    io::stdin().lock().take(most as u64).read_to_end(&mut bytes).map_err(io_failure)?;
    Ok(bytes)
}

fn write_output(bytes: &[u8]) -> Result<(), Failure> {
    io::stdout().lock().write_all(bytes).map_err(io_failure)
}

fn check(run: &drive::Run, name: &str) -> Result<(), Failure> {
    match &run.journal {
        None => Ok(()),
        Some(journal) => journal.check().map_err(|why| (BROKEN, format!("peer: broken promise: {name}{why}"))),
    }
}

fn drive_mode() -> Result<(), Failure> {
    let run = drive::run(&read_input()?, &mut Cover::default());
    write_output(&run.listing)?;
    check(&run, "")
}

fn list_mode() -> Result<(), Failure> {
    write_output(&drive::list(&read_input()?))
}

fn make_mode(seed: &str) -> Result<(), Failure> {
    write_output(&make::make(number(seed)?))
}

fn damage_mode(seed: &str) -> Result<(), Failure> {
    let seed = number(seed)?;
    let mut bytes = Vec::new();
    io::stdin().lock().read_to_end(&mut bytes).map_err(io_failure)?;
    write_output(&make::damage(seed, &bytes))
}

/// The files of the list, and those of each directory in it.
fn listed_files(list: &[String]) -> io::Result<Vec<PathBuf>> {
    let mut files = Vec::new();
    for name in list {
        let path = Path::new(name);
        if !path.is_dir() {
            files.push(path.to_path_buf());
            continue;
        }
        let mut inside: Vec<PathBuf> = fs::read_dir(path)?.map(|e| e.map(|e| e.path())).collect::<io::Result<_>>()?;
        inside.retain(|p| p.is_file());
        inside.sort();
        files.extend(inside);
    }
    Ok(files)
}

fn cover_mode(list: &[String]) -> Result<(), Failure> {
    let mut cover = Cover::default();
    for path in listed_files(list).map_err(io_failure)? {
        let name = format!("{}: ", path.display());
        let bytes = fs::read(&path).map_err(|e| (MISUSED, format!("peer: {name}{e}")))?;
        check(&drive::run(&bytes, &mut cover), &name)?;
    }
    print_cover(&cover)
}

fn print_cover(cover: &Cover) -> Result<(), Failure> {
    let (lines, full) = cover.lines();
    write_output(lines.as_bytes())?;
    if full { Ok(()) } else { Err((NOT_COVERED, "peer: something was never reached".to_string())) }
}

fn compare_mode(seeds: &str, command: &[String]) -> Result<(), Failure> {
    let seeds = number(seeds)?;
    let (cover, stop) = compare::compare(seeds, command);
    match stop {
        Some(compare::Stop::Difference(text)) => {
            println!("{text}");
            return Err((DIFFERENT, "peer: the listings do not agree".to_string()));
        }
        Some(compare::Stop::Broken(text)) => return Err((BROKEN, format!("peer: broken promise: {text}"))),
        None => {}
    }
    let covered = print_cover(&cover);
    println!("peer: {} files and {} damaged copies agree", seeds, seeds * compare::DAMAGED_COPIES);
    covered
}

fn selftest_mode() -> Result<(), Failure> {
    let tests = selftest::run_all().map_err(|why| (DIFFERENT, format!("peer: self test failed: {why}")))?;
    println!("peer: {tests} self tests hold");
    Ok(())
}
