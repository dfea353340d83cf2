//! Scripts written by hand: 01's example, its edges, every refusal at its boundary. They are compared first, except the slow one, and
//! recorded if they fit.

mod drill;
mod session;

use crate::command::*;
use crate::engine::Fields;
use crate::script::Kind;

pub struct Named {
    pub name: String,
    pub kind: Kind,
    pub bytes: Vec<u8>,
    /// The original walks over billions of numbers: half a minute or more.
    pub slow: bool,
}

const SECOND: u64 = 1_000_000_000;
const MS: u64 = 1_000_000;
const CLOCK_END: u64 = 1 << 60;
const LAST: u32 = u32::MAX;

pub fn all() -> Vec<Named> {
    let mut list = List(Vec::new());
    session::sessions(&mut list);
    drill::drills(&mut list);
    list.0
}

struct List(Vec<Named>);

impl List {
    fn put(&mut self, kind: Kind, name: &str, parts: Vec<Vec<u8>>) {
        self.0.push(Named { name: name.into(), kind, bytes: parts.concat(), slow: false });
    }
    fn session(&mut self, name: &str, parts: Vec<Vec<u8>>) {
        self.put(Kind::Session, name, parts);
    }
    /// With the numbers of both ends after it.
    fn drill(&mut self, name: &str, mut parts: Vec<Vec<u8>>) {
        parts.push(numbers(0));
        parts.push(numbers(1));
        self.put(Kind::Drill, name, parts);
    }
    /// A drill that ends by itself.
    fn stop(&mut self, name: &str, parts: Vec<Vec<u8>>) {
        self.put(Kind::Drill, name, parts);
    }
}

/// A datagram to end 0 (id 1).
fn to_zero(typ: u8, seq: u32, ack: u32, payload: &[u8]) -> Vec<u8> {
    datagram(Fields { typ, offset: 0, id: 1, window: LAST, seq, ack }, payload)
}

fn times(count: usize, part: Vec<u8>) -> Vec<Vec<u8>> {
    vec![part; count]
}

/// A drive at this clock, and its batches.
fn driven(end: usize, clock: u64, batches: usize) -> Vec<u8> {
    [drive(end, clock), times(batches, take(end)).concat()].concat()
}
