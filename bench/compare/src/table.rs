//! The tables, in Markdown.

use crate::options::Options;
use crate::rows::{Found, Kind, Row};
use crate::watch::CALLS;
use std::fmt::Write;

/// The calls of a round of 32 packets, in the order of `watch::Call`, and how often each is made.
const NAMES: [(&str, u32); CALLS] = [
    ("write", 32),
    ("drive that queues 32 packets", 1),
    ("take: four batches, and none left", 5),
    ("deliver of data", 32),
    ("read: 32 packets, then none", 33),
    ("drive that queues 32 acks", 1),
    ("take: four batches of acks, and none left", 5),
    ("deliver of an ack", 32),
    ("drive that settles 32 packets", 1),
    ("take where none is left", 1),
];

fn nanos(value: Option<f64>) -> String {
    match value {
        Some(value) if value >= 100.0 => format!("{value:.0}"),
        Some(value) => format!("{value:.1}"),
        None => "-".to_string(),
    }
}

/// The original's time, then the port's, direct and through the boundary, each with its ratio to the original's.
fn cells([original, direct, boundary]: [Option<f64>; 3]) -> String {
    let mut text = nanos(original);
    for port in [direct, boundary] {
        let ratio = port
            .zip(original)
            .map_or("-".to_string(), |(port, original)| format!("{:.2}", port / original));
        let _ = write!(text, " | {} | {ratio}", nanos(port));
    }
    text
}

fn bytes(size: usize) -> String {
    match size {
        0..1_000 => size.to_string(),
        _ => format!("{},{:03}", size / 1_000, size % 1_000),
    }
}

/// The rows of one kind, with their results.
fn of(kind: Kind, rows: &[(Row, Found)]) -> impl Iterator<Item = &(Row, Found)> {
    rows.iter().filter(move |(row, _)| row.kind == kind)
}

fn paths(rows: &[(Row, Found)]) -> String {
    let mut text = String::from(
        "| payload | loss | in flight | memcpy | Rust core | port, direct | ratio | port, boundary | ratio |\n|---|---|---|---|---|---|---|---|---|\n",
    );
    for (row, found) in of(Kind::Path, rows) {
        let (size, copy) = (bytes(row.load.size), nanos(Some(found.copy)));
        let cells = cells(found.nanos.each_ref().map(|nanos| nanos.as_ref().map(|nanos| nanos[0])));
        let _ = writeln!(text, "| {size} | {} % | {} | {copy} | {cells} |", row.percent, row.load.flight);
    }
    text
}

fn calls(rows: &[(Row, Found)]) -> String {
    let mut text = String::from(
        "| call | payload | a round | Rust core | port, direct | ratio | port, boundary | ratio |\n|---|---|---|---|---|---|---|---|\n",
    );
    for (index, (name, often)) in NAMES.into_iter().enumerate() {
        for (row, found) in of(Kind::Calls, rows) {
            let one = |nanos: &Vec<f64>| nanos[index] / f64::from(often);
            let cells = cells(found.nanos.each_ref().map(|nanos| nanos.as_ref().map(one)));
            let _ = writeln!(text, "| {name} | {} | {often} | {cells} |", bytes(row.load.size));
        }
    }
    text
}

/// What happened in the check of the rows with losses.
fn counts(rows: &[(Row, Found)]) -> String {
    let mut text = String::from(
        "| payload | in flight | packets | rounds | datagrams | timeouts | ends opened again |\n|---|---|---|---|---|---|---|\n",
    );
    for (row, found) in rows.iter().filter(|(row, _)| row.percent != 0) {
        let c = found.counts;
        let head = format!("| {} | {}", bytes(row.load.size), row.load.flight);
        let _ = writeln!(
            text,
            "{head} | {} | {} | {} | {} | {} |",
            c.packets, c.rounds, c.datagrams, c.timeouts, c.failures
        );
    }
    text
}

pub fn all(options: &Options, rows: &[(Row, Found)]) -> String {
    let mut text = format!(
        "Nanoseconds, the best of {} passes of {} packets.\n",
        options.passes, options.packets
    );
    if cfg!(not(feature = "original")) {
        text += "\nThe original was not run.\n";
    }
    if of(Kind::Path, rows).next().is_some() {
        text += "\nA packet written, driven, taken, delivered, read, acknowledged and settled:\n\n";
        text += &paths(rows);
    }
    if rows.iter().any(|(row, _)| row.percent != 0) {
        text += "\nWhat happened in the check with losses, in every engine:\n\n";
        text += &counts(rows);
    }
    if of(Kind::Calls, rows).next().is_some() {
        text += "\nOne call, 32 packets in flight, no losses:\n\n";
        text += &calls(rows);
    }
    text
}
