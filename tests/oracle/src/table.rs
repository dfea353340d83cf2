//! Counts how often each command gave each answer.

use crate::engine::Outcome;
use crate::generate::Script;
use std::collections::BTreeMap;
use std::fmt;

#[derive(Default)]
pub struct Table {
    answers: BTreeMap<(&'static str, u8), u64>,
    /// Scripts that reached each deep state.
    reached: BTreeMap<&'static str, u64>,
}

const ORDER: [&str; 15] = [
    "write", "drive", "take", "hand", "read", "close", "raw", "base", "open", "room", "look", "numbers", "encode", "decode",
    "spoil",
];

/// Answers in the order of the table: refusals by number, then the words.
fn key(outcome: Outcome) -> u8 {
    match outcome {
        Outcome::Refused(number) => number,
        Outcome::Ok => 100,
        Outcome::Wait => 101,
        Outcome::None => 102,
        Outcome::Done => 103,
    }
}

fn word(key: u8) -> String {
    match key {
        100 => "ok".into(),
        101 => "wait".into(),
        102 => "none".into(),
        103 => "done".into(),
        number => number.to_string(),
    }
}

impl Table {
    pub fn add(&mut self, script: &Script) {
        for (command, outcome, _) in &script.features {
            *self.answers.entry((command, key(*outcome))).or_default() += 1;
        }
        for state in &script.reached {
            *self.reached.entry(state).or_default() += 1;
        }
    }

    pub fn join(&mut self, other: Table) {
        for (cell, count) in other.answers {
            *self.answers.entry(cell).or_default() += count;
        }
        for (state, count) in other.reached {
            *self.reached.entry(state).or_default() += count;
        }
    }
}

impl fmt::Display for Table {
    fn fmt(&self, f: &mut fmt::Formatter<'_>) -> fmt::Result {
        writeln!(f, "answers, refusals by number:")?;
        for command in ORDER {
            let row: Vec<String> = self
                .answers
                .iter()
                .filter(|((name, _), _)| *name == command)
                .map(|((_, key), count)| format!("{} {count}", word(*key)))
                .collect();
            if !row.is_empty() {
                writeln!(f, "  {command:8}{}", row.join(" · "))?;
            }
        }
        let row: Vec<String> = self.reached.iter().map(|(state, count)| format!("{state} {count}")).collect();
        writeln!(f, "scripts that came through:\n  {}", row.join(" · "))
    }
}
