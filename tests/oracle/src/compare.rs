//! The live comparison: scripts go to a program and to the original, and every line must be the same.

use crate::engine::ORIGINAL;
use crate::generate;
use crate::named;
use crate::record::{Recorded, walks_far};
use crate::script::{self, Kind};
use crate::table::Table;
use std::io::{Read, Write};
use std::path::Path;
use std::process::{Command, Stdio};
use std::sync::Mutex;
use std::sync::atomic::{AtomicBool, AtomicU64, Ordering};
use std::time::{Duration, Instant};

/// The least bytes of a script that might not fit a pipe.
const PIPE: usize = 60_000;
/// Most programs started to shorten one script.
const MAX_TRIES: usize = 4_000;
/// The fewest random scripts that mean anything.
const FEW: u64 = 200;

/// The lines of a program under test; a status other than 0 is a line of its own, which no reference has.
pub fn port(program: &Path, bytes: &[u8]) -> Result<Vec<u8>, String> {
    let failed = |error: std::io::Error| format!("{}: {error}", program.display());
    let program = &program.canonicalize().map_err(failed)?;
    let mut child =
        Command::new(program).stdin(Stdio::piped()).stdout(Stdio::piped()).stderr(Stdio::null()).spawn().map_err(failed)?;
    let mut stdin = child.stdin.take().unwrap();
    let mut lines = Vec::new();
    std::thread::scope(|scope| {
        // A program that stops reading early is judged by its lines.
        if bytes.len() < PIPE {
            let _ = stdin.write_all(bytes);
            drop(stdin);
        } else {
            scope.spawn(move || stdin.write_all(bytes));
        }
        child.stdout.take().unwrap().read_to_end(&mut lines)
    })
    .map_err(failed)?;
    let status = child.wait().map_err(failed)?;
    if !status.success() {
        lines.extend(format!("{status}\n").into_bytes());
    }
    Ok(lines)
}

pub struct Plan<'a> {
    pub kind: Kind,
    pub seed: u64,
    pub count: u64,
    pub seconds: Option<u64>,
    pub jobs: u64,
    pub program: &'a Path,
}

/// Whether every script agreed. Named scripts come first, then random ones from the seed on.
pub fn compare(plan: &Plan) -> Result<bool, String> {
    let Plan { kind, program, .. } = *plan;
    let named: Vec<_> = named::all().into_iter().filter(|one| one.kind == kind && !one.slow).collect();
    for one in &named {
        if port(program, &one.bytes)? != script::run(kind, &one.bytes, ORIGINAL) {
            println!("{}: named script '{}' differs", kind.name(), one.name);
            report(kind, program, &one.bytes)?;
            return Ok(false);
        }
    }
    let next = AtomicU64::new(0);
    let done = AtomicU64::new(0);
    let stop = AtomicBool::new(false);
    let table = Mutex::new(Table::default());
    let found: Mutex<Option<(u64, Vec<u8>)>> = Mutex::new(None);
    let failure: Mutex<Option<String>> = Mutex::new(None);
    let start = Instant::now();
    let late = || plan.seconds.is_some_and(|seconds| start.elapsed() >= Duration::from_secs(seconds));
    std::thread::scope(|scope| {
        let workers: Vec<_> = (0..plan.jobs)
            .map(|_| {
                scope.spawn(|| {
                    let mut mine = Table::default();
                    while !stop.load(Ordering::Relaxed) && !late() {
                        let index = next.fetch_add(1, Ordering::Relaxed);
                        if index >= plan.count {
                            break;
                        }
                        let one = generate::script(kind, plan.seed + index);
                        mine.add(&one);
                        match port(program, &one.bytes) {
                            Ok(lines) if lines == one.lines => {}
                            Ok(_) => {
                                stop.store(true, Ordering::Relaxed);
                                found.lock().unwrap().get_or_insert((plan.seed + index, one.bytes));
                            }
                            Err(error) => {
                                stop.store(true, Ordering::Relaxed);
                                failure.lock().unwrap().get_or_insert(error);
                            }
                        }
                        done.fetch_add(1, Ordering::Relaxed);
                    }
                    table.lock().unwrap().join(mine);
                })
            })
            .collect();
        let mut told = Instant::now();
        while workers.iter().any(|worker| !worker.is_finished()) {
            std::thread::sleep(Duration::from_millis(20));
            if told.elapsed() >= Duration::from_secs(1) {
                told = Instant::now();
                eprintln!("{}: {} scripts agree", kind.name(), done.load(Ordering::Relaxed));
            }
        }
    });
    if let Some(error) = failure.into_inner().unwrap() {
        return Err(error);
    }
    let agreed = found.into_inner().unwrap();
    let count = done.load(Ordering::Relaxed);
    let word = if agreed.is_none() { "agree" } else { "were run" };
    println!(
        "{}: {} named and {count} random scripts (seeds {} to {}) {word}, {:.0} s",
        kind.name(),
        named.len(),
        plan.seed,
        plan.seed + count.max(1) - 1,
        start.elapsed().as_secs_f32()
    );
    print!("{}", table.into_inner().unwrap());
    match agreed {
        None if count < FEW.min(plan.count) => Err(format!("only {count} random scripts were run in that time")),
        None => Ok(true),
        Some((seed, bytes)) => {
            println!("{}: the script of seed {seed} differs", kind.name());
            report(kind, program, &bytes)?;
            Ok(false)
        }
    }
}

/// Whether the original gives every recorded line: notices a file that was recorded from anything else.
pub fn recorded(list: &[Recorded]) -> Result<bool, String> {
    let list: Vec<_> = list.iter().filter(|one| !walks_far(one)).collect();
    if list.is_empty() {
        return Err("no recorded script".into());
    }
    for (index, (kind, bytes, lines)) in list.iter().enumerate() {
        if script::run(*kind, bytes, ORIGINAL) != *lines {
            println!("{}: recorded script {index} is not what the original answers", kind.name());
            return Ok(false);
        }
    }
    println!("{} recorded scripts are what the original answers", list.len());
    Ok(true)
}

/// Whether the program prints every recorded line.
pub fn replay(list: &[Recorded], kind: Kind, program: &Path) -> Result<bool, String> {
    let mut count = 0;
    for (_, bytes, lines) in list.iter().filter(|(of, _, _)| *of == kind) {
        if port(program, bytes)? != *lines {
            println!("{}: recorded script {count} differs", kind.name());
            report(kind, program, bytes)?;
            return Ok(false);
        }
        count += 1;
    }
    if count == 0 {
        return Err(format!("no recorded {} script", kind.name()));
    }
    println!("{}: {count} recorded scripts agree", kind.name());
    Ok(true)
}

/// Shortens a script that differs and prints it, command by command, up to the first line that differs.
fn report(kind: Kind, program: &Path, bytes: &[u8]) -> Result<(), String> {
    let bytes = shrink(kind, bytes, &mut |bytes| Ok(port(program, bytes)? != script::run(kind, bytes, ORIGINAL)))?;
    let (ours, theirs) = (script::run(kind, &bytes, ORIGINAL), port(program, &bytes)?);
    let text = |lines: &[u8]| String::from_utf8_lossy(lines).into_owned();
    let (ours, theirs) = (text(&ours), text(&theirs));
    let (mut ours, mut theirs) = (ours.lines(), theirs.lines());
    let offsets = script::commands(kind, &bytes);
    let hex: String = bytes.iter().map(|byte| format!("{byte:02x}")).collect();
    println!("shortened, in hexadecimal: {hex}");
    for part in offsets.windows(2).map(|pair| &bytes[pair[0]..pair[1]]) {
        let hex: String = part.iter().map(|byte| format!("{byte:02x}")).collect();
        let (ours, theirs) = (ours.next().unwrap_or("(no line)"), theirs.next().unwrap_or("(no line)"));
        if ours == theirs {
            println!("  {hex}    {ours}");
        } else {
            println!("  {hex}\n    the original: {ours}\n    the program:  {theirs}");
            break;
        }
    }
    Ok(())
}

/// A shorter script that still differs: commands dropped, in ever smaller runs, then operands made 0.
pub fn shrink(kind: Kind, bytes: &[u8], differs: &mut dyn FnMut(&[u8]) -> Result<bool, String>) -> Result<Vec<u8>, String> {
    let offsets = script::commands(kind, bytes);
    let mut parts: Vec<Vec<u8>> = offsets.windows(2).map(|pair| bytes[pair[0]..pair[1]].to_vec()).collect();
    let mut tries = 0;
    let mut size = parts.len().div_ceil(2).max(1);
    loop {
        let mut dropped = false;
        let mut at = parts.len();
        while at > 0 && tries < MAX_TRIES {
            at = at.saturating_sub(size);
            let end = (at + size).min(parts.len());
            let rest: Vec<Vec<u8>> = [&parts[..at], &parts[end..]].concat();
            tries += 1;
            if !rest.is_empty() && differs(&rest.concat())? {
                parts = rest;
                dropped = true;
            }
        }
        if tries >= MAX_TRIES || (size == 1 && !dropped) {
            break;
        }
        if !dropped {
            size = size.div_ceil(2).max(1);
        }
    }
    // Operands, but not the command or its end: the highest bytes first, so that numbers get small.
    for index in 0..parts.len() {
        for at in (2..parts[index].len()).rev() {
            if parts[index][at] == 0 || tries >= MAX_TRIES {
                continue;
            }
            let mut other = parts.clone();
            other[index][at] = 0;
            if script::walks_far(&other[index]) {
                continue;
            }
            tries += 1;
            if differs(&other.concat())? {
                parts = other;
            }
        }
    }
    Ok(parts.concat())
}
