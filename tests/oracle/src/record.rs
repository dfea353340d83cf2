//! The recorded scripts: named ones, and random ones chosen for the states they reach, with the original's lines.

use crate::engine::ORIGINAL;
use crate::generate::{self, Feature, Script};
use crate::named;
use crate::script::{self, Kind, MAX_SCRIPT};
use std::collections::HashSet;

/// Random scripts of each kind to choose from.
const CANDIDATES: u64 = 12_000;
/// Bytes of the whole file, and the session scripts' share of what the named ones leave.
const MAX_FILE: usize = 3_000_000;
const SESSION_SHARE: (usize, usize) = (2, 5);
const MAX_ANSWER: usize = 60_000;
const MAX_LINE: usize = 8_300;
const HEAD: usize = 9;

struct Record {
    kind: Kind,
    bytes: Vec<u8>,
    lines: Vec<u8>,
}

impl Record {
    fn size(&self) -> usize {
        HEAD + self.bytes.len() + self.lines.len()
    }

    fn fits(&self) -> bool {
        self.bytes.len() <= MAX_SCRIPT
            && self.lines.len() <= MAX_ANSWER
            && self.lines.split(|byte| *byte == b'\n').all(|line| line.len() <= MAX_LINE)
    }

    fn put(&self, file: &mut Vec<u8>) {
        file.push(self.kind as u8);
        file.extend((self.bytes.len() as u32).to_le_bytes());
        file.extend((self.lines.len() as u32).to_le_bytes());
        file.extend(&self.bytes);
        file.extend(&self.lines);
    }
}

/// The file: for each script its kind (0 session, 1 drill), the lengths of script and answer (4 bytes each, little-endian), both.
pub fn file() -> Vec<u8> {
    let mut list: Vec<Record> = named::all()
        .into_iter()
        .map(|one| Record { kind: one.kind, lines: script::run(one.kind, &one.bytes, ORIGINAL), bytes: one.bytes })
        .filter(Record::fits)
        .collect();
    let named = list.len();
    let left = MAX_FILE - list.iter().map(Record::size).sum::<usize>();
    let session = left * SESSION_SHARE.0 / SESSION_SHARE.1;
    for (kind, budget) in [(Kind::Session, session), (Kind::Drill, left - session)] {
        let (chosen, seen, all) = choose(kind, budget);
        println!("{}: {} random scripts come through {seen} of {all} features", kind.name(), chosen.len());
        list.extend(chosen);
    }
    let mut file = Vec::new();
    for one in &list {
        one.put(&mut file);
    }
    println!("{} scripts ({named} named), {} bytes", list.len(), file.len());
    file
}

/// Greedily: in each round the shortest scripts first, and only those that add many new features for their size; then fewer.
fn choose(kind: Kind, budget: usize) -> (Vec<Record>, usize, usize) {
    let mut candidates: Vec<Option<Script>> = (0..CANDIDATES).map(|seed| Some(generate::script(kind, seed))).collect();
    candidates.sort_by_key(|one| one.as_ref().map(|one| one.bytes.len() + one.lines.len()));
    let all: HashSet<Feature> = candidates.iter().flatten().flat_map(|one| one.features.iter().copied()).collect();
    let mut seen: HashSet<Feature> = HashSet::new();
    let mut chosen = Vec::new();
    let mut left = budget;
    for bytes_each in [50, 100, 200, 400, 800, usize::MAX] {
        for candidate in &mut candidates {
            let Some(one) = candidate else { continue };
            let mine: HashSet<Feature> = one.features.iter().copied().collect();
            let new = mine.difference(&seen).count();
            let size = HEAD + one.bytes.len() + one.lines.len();
            if new == 0 || new < size / bytes_each || size > left {
                continue;
            }
            let record = Record { kind, bytes: std::mem::take(&mut one.bytes), lines: std::mem::take(&mut one.lines) };
            *candidate = None;
            if record.fits() {
                left -= size;
                seen.extend(mine);
                chosen.push(record);
            }
        }
    }
    (chosen, seen.len(), all.len())
}

/// A script and its lines.
pub type Recorded = (Kind, Vec<u8>, Vec<u8>);

/// Whether the original would walk over billions of numbers in it.
pub fn walks_far((kind, bytes, _): &Recorded) -> bool {
    script::commands(*kind, bytes).windows(2).any(|pair| script::walks_far(&bytes[pair[0]..pair[1]]))
}

/// The scripts of a file.
pub fn parse(file: &[u8]) -> Option<Vec<Recorded>> {
    let mut list = Vec::new();
    let mut rest = file;
    while !rest.is_empty() {
        let (head, body) = rest.split_at_checked(HEAD)?;
        let kind = match head[0] {
            0 => Kind::Session,
            1 => Kind::Drill,
            _ => return None,
        };
        let length = |at: usize| u32::from_le_bytes(head[at..at + 4].try_into().unwrap()) as usize;
        let (bytes, body) = body.split_at_checked(length(1))?;
        let (lines, body) = body.split_at_checked(length(5))?;
        list.push((kind, bytes.to_vec(), lines.to_vec()));
        rest = body;
    }
    Some(list)
}
