//! Compares another drive program with this one, over files made from seeds and damaged copies of them.

use std::io::{Read, Write};
use std::process::{Command, Stdio};
use std::sync::atomic::{AtomicU64, Ordering};
use std::thread;

use crate::cover::Cover;
use crate::drive;
use crate::make;

pub const DAMAGED_COPIES: u64 = 2;

/// Why a comparison stopped.
pub enum Stop {
    /// The listings differ, or the other program could not be run.
    Difference(String),
    /// A promise was broken in a run of this program.
    Broken(String),
}

/// What one worker did.
struct Work {
    cover: Cover,
    /// The seed at which it stopped, and why.
    stop: Option<(u64, Stop)>,
}

/// Compares over seeds 1 to `seeds`; gives the coverage, and the stop with the lowest seed.
pub fn compare(seeds: u64, command: &[String]) -> (Cover, Option<Stop>) {
    let workers = thread::available_parallelism().map_or(1, |n| n.get() as u64);
    // The lowest seed that stopped a worker: beyond it nobody needs to go on.
    let lowest = AtomicU64::new(u64::MAX);
    let works: Vec<Work> = thread::scope(|scope| {
        let handles: Vec<_> = (1..=workers)
            .map(|first| {
                let lowest = &lowest;
                scope.spawn(move || work(first, workers, seeds, command, lowest))
            })
            .collect();
        handles.into_iter().map(|h| h.join().expect("a worker ends by itself")).collect()
    });
    let mut cover = Cover::default();
    let mut stops = Vec::new();
    for work in works {
        cover.add(&work.cover);
        stops.extend(work.stop);
    }
    let first = stops.into_iter().min_by_key(|(seed, _)| *seed);
    (cover, first.map(|(_, stop)| stop))
}

fn work(first: u64, stride: u64, seeds: u64, command: &[String], lowest: &AtomicU64) -> Work {
    let mut cover = Cover::default();
    let mut seed = first;
    while seed <= seeds && seed < lowest.load(Ordering::Relaxed) {
        if let Err(stop) = compare_seed(seed, command, &mut cover) {
            lowest.fetch_min(seed, Ordering::Relaxed);
            return Work { cover, stop: Some((seed, stop)) };
        }
        seed += stride;
    }
    Work { cover, stop: None }
}

fn compare_seed(seed: u64, command: &[String], cover: &mut Cover) -> Result<(), Stop> {
    let file = make::make(seed);
    compare_file(&format!("seed {seed}"), &file, command, cover)?;
    for copy in 0..DAMAGED_COPIES {
        let damage_seed = DAMAGED_COPIES * seed + copy;
        let damaged = make::damage(damage_seed, &file);
        compare_file(&format!("seed {seed}, damage {damage_seed}"), &damaged, command, cover)?;
    }
    Ok(())
}

fn compare_file(name: &str, file: &[u8], command: &[String], cover: &mut Cover) -> Result<(), Stop> {
    let run = drive::run(file, cover);
    if let Some(journal) = &run.journal {
        journal.check().map_err(|why| Stop::Broken(format!("{name}: {why}")))?;
    }
    let theirs = run_child(command, file).map_err(|why| Stop::Difference(format!("{name}: {why}")))?;
    if theirs == run.listing {
        return Ok(());
    }
    Err(Stop::Difference(describe(name, file, &run.listing, &theirs)))
}

/// Runs the other program. Its exit status is not compared.
fn run_child(command: &[String], file: &[u8]) -> Result<Vec<u8>, String> {
    let mut child = Command::new(&command[0])
        .args(&command[1..])
        .stdin(Stdio::piped())
        .stdout(Stdio::piped())
        .spawn()
        .map_err(|e| format!("{} cannot be run: {e}", command[0]))?;
    let mut to_child = child.stdin.take().expect("standard input is piped");
    let mut from_child = child.stdout.take().expect("standard output is piped");
    let mut listing = Vec::new();
    let read = thread::scope(|scope| {
        // A program that lists while it reads would block if one thread did both ends.
        scope.spawn(move || {
            // It may stop reading early (a file too long), so a broken pipe is no error.
            let _ = to_child.write_all(file);
        });
        from_child.read_to_end(&mut listing)
    });
    let status = child.wait().map_err(|e| e.to_string())?;
    read.map_err(|e| e.to_string())?;
    if status.code().is_none() {
        return Err(format!("the drive program was ended by a signal ({status}); the file:\n{}", hex_lines(file)));
    }
    Ok(listing)
}

/// The file in hexadecimal and the first line that differs.
pub fn describe(name: &str, file: &[u8], ours: &[u8], theirs: &[u8]) -> String {
    let ours: Vec<&[u8]> = ours.split(|b| *b == b'\n').collect();
    let theirs: Vec<&[u8]> = theirs.split(|b| *b == b'\n').collect();
    let mut at = 0;
    while ours.get(at).is_some() && ours.get(at) == theirs.get(at) {
        at += 1;
    }
    let line = |lines: &[&[u8]]| match lines.get(at) {
        Some(text) => format!("{:?}", String::from_utf8_lossy(text)),
        None => "(no such line)".to_string(),
    };
    format!(
        "difference: {name}, {} bytes, line {}\n{}peer:  {}\ndrive: {}",
        file.len(),
        at + 1,
        hex_lines(file),
        line(&ours),
        line(&theirs)
    )
}

/// Plain hexadecimal, 32 bytes to the line.
fn hex_lines(file: &[u8]) -> String {
    let mut text = String::new();
    for part in file.chunks(32) {
        for byte in part {
            text += &format!("{byte:02x}");
        }
        text.push('\n');
    }
    text
}
