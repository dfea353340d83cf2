//! One case of the comparison: a load and a line, and what an engine does with them, checked or timed.

use crate::driver::{Counts, Load, Run};
use crate::end::End;
use crate::line::{Losses, Source};
use crate::watch::{Check, Nothing, Stopwatch};
use std::hint::black_box;
use std::time::Instant;

const SEED: u64 = 1;
/// Packets before the first timed one: they open the window for 32 packets.
const WARM: u64 = 2_048;
/// Packets of the check: enough for some streams to fail.
const CHECKED: u64 = 100_000;

pub struct Case {
    load: Load,
    percent: u64,
    packets: u64,
    source: Source,
    losses: Losses,
}

/// What happens in a case: in every timed pass, and in the whole check, which starts like a pass and goes on.
#[derive(Clone, Copy, Debug, Default, PartialEq, Eq)]
pub struct Checked {
    pub pass: Counts,
    pub whole: Counts,
}

/// One pass of an engine: what happened, and nanoseconds, per packet or for each round's calls of a kind.
pub struct Pass {
    pub counts: Counts,
    pub nanos: Vec<f64>,
}

/// An engine's passes, compiled for it.
pub struct Engine {
    pub name: &'static str,
    pub check: fn(&Case) -> Result<Checked, String>,
    pub path: fn(&Case) -> Result<Pass, String>,
    pub calls: fn(&Case) -> Result<Pass, String>,
}

impl Engine {
    pub const fn new<E: End>(name: &'static str) -> Self {
        Engine {
            name,
            check: check::<E>,
            path: path::<E>,
            calls: calls::<E>,
        }
    }
}

impl Case {
    pub fn new(load: Load, percent: u64, packets: u64) -> Self {
        let source = Source::new(load.size * load.flight, SEED);
        Case {
            load,
            percent,
            packets,
            source,
            losses: Losses::new(percent, SEED),
        }
    }

    fn run<E: End>(&self) -> Run<'_, E> {
        Run::new(self.load, &self.source, &self.losses)
    }

    /// Nanoseconds of one memcpy of a packet's bytes.
    pub fn copy(&self) -> f64 {
        let Load { size, flight } = self.load;
        let mut got = vec![0; size * flight];
        let rounds = self.packets.div_ceil(flight as u64);
        let start = Instant::now();
        for round in 0..rounds {
            let sent = self.source.part(round * (size * flight) as u64, size * flight);
            for (to, from) in got.chunks_exact_mut(size).zip(sent.chunks_exact(size)) {
                black_box(to).copy_from_slice(black_box(from));
            }
        }
        start.elapsed().as_nanos() as f64 / (rounds * flight as u64) as f64
    }
}

/// Not timed: every byte that is read is compared.
fn check<E: End>(case: &Case) -> Result<Checked, String> {
    let mut run = case.run::<E>();
    let mut watch = Check { holds: true };
    run.packets(WARM, &mut watch);
    let warm = run.counts;
    run.packets(case.packets, &mut watch);
    let pass = run.counts;
    run.packets(CHECKED, &mut watch);
    let whole = run.counts;
    if !watch.holds {
        return Err("read other bytes than were written".to_string());
    }
    if case.percent == 0 && !is_lossless(case.load, warm, whole) {
        return Err(format!("kept packets back on a line without losses: {warm:?}, then {whole:?}"));
    }
    Ok(Checked { pass, whole })
}

/// Whether every round had all its packets, each with one datagram and one acknowledgement.
fn is_lossless(load: Load, before: Counts, after: Counts) -> bool {
    let packets = after.packets - before.packets;
    let full = packets == (after.rounds - before.rounds) * load.flight as u64;
    full && after.datagrams - before.datagrams == 2 * packets && after.timeouts == 0
}

/// Compares the bytes of the last round, after the clock was stopped.
fn right<E: End>(run: &Run<E>, nanos: Vec<f64>) -> Result<Pass, String> {
    if run.is_right() {
        Ok(Pass { counts: run.counts, nanos })
    } else {
        Err("read other bytes than were written, in the last round".to_string())
    }
}

fn path<E: End>(case: &Case) -> Result<Pass, String> {
    let mut run = case.run::<E>();
    run.packets(WARM, &mut Nothing);
    let before = run.counts.packets;
    let start = Instant::now();
    run.packets(case.packets, &mut Nothing);
    let nanos = start.elapsed().as_nanos() as f64;
    let packets = run.counts.packets - before;
    right(&run, vec![nanos / packets as f64])
}

fn calls<E: End>(case: &Case) -> Result<Pass, String> {
    let mut run = case.run::<E>();
    run.packets(WARM, &mut Nothing);
    let before = run.counts.rounds;
    let mut watch = Stopwatch::new();
    run.packets(case.packets, &mut watch);
    let rounds = run.counts.rounds - before;
    right(&run, watch.each(rounds).to_vec())
}
