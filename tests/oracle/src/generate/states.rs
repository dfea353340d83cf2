//! The states that a script reaches.

use super::CLOCK_END;
use crate::engine::View;

/// The state of an end, coarsely: what a recorded script is chosen for.
pub(super) fn coarse(view: &View) -> u64 {
    let n = &view.numbers;
    let bucket = |value: u64, limits: &[u64]| limits.iter().filter(|limit| value >= **limit).count() as u64;
    let waiting = view.stored.iter().filter(|packet| packet.waiting).count() as u64;
    let transmits = view.stored.iter().map(|packet| packet.transmits).max().unwrap_or(0) as u64;
    let ahead = view.held.iter().any(|(number, _, _)| *number as u64 > n.ack);
    let parts = [
        (n.error, 4),
        (n.state, 4),
        (n.ended, 2),
        ((n.left > 0) as u64, 2),
        (bucket(view.stored.len() as u64, &[1, 2, 32]), 4),
        (bucket(waiting, &[1, 2]), 3),
        (bucket(transmits, &[1, 3, 6]), 4),
        (bucket(view.states as u64, &[1, 2, 62, 63, 64]), 6),
        (bucket(view.held.len() as u64, &[1, 2, 32]), 4),
        (ahead as u64, 2),
        (bucket(n.window, &[1_401, 65_535, u32::MAX as u64]), 4),
        (bucket(n.srtt, &[1]), 2),
        (bucket(n.rto, &[1_000_000_001, 1 << 59]), 3),
        ((n.largest_ack > n.remote_acked) as u64, 2),
    ];
    parts.iter().fold(0, |all, (part, size)| all * size + part)
}

/// States that scripts seldom reach: the table counts them.
pub(super) fn reached(view: &View) -> Vec<&'static str> {
    let n = &view.numbers;
    let waiting = view.stored.iter().filter(|packet| packet.waiting).count();
    let some_sacked = view.stored.first().is_some_and(|first| first.number as u64 > n.remote_acked);
    let fails = n.error == 3 && n.left > 0 && view.states > 0 && n.deadline == view.last_clock + 2 * n.rto;
    let states = [
        ("TimedOut", n.error == 3),
        ("TimedOut, other packets waiting", n.error == 3 && waiting > 0),
        ("TimedOut, packets sacked", n.error == 3 && some_sacked),
        ("a drive that fails and queues packets", fails && n.left > view.states as u64),
        ("a drive that fails, packets sacked, none to queue", fails && some_sacked && n.left == view.states as u64),
        ("transmits 7", view.stored.iter().any(|packet| packet.transmits == 7)),
        ("32 stored", view.stored.len() == 32),
        ("32 held", view.held.len() == 32),
        ("31 held past a gap", view.held.iter().filter(|(number, _, _)| *number as u64 > n.ack).count() >= 31),
        ("window 65,535 or more", n.window >= 65_535),
        ("window 4,294,967,295", n.window == u32::MAX as u64),
        ("a sample", n.srtt > 0),
        ("rto above 1,000 ms", n.rto > 1_000_000_000),
        ("rto above 2^60", n.rto > CLOCK_END),
        ("62 state packets", view.states == 62),
        ("63 state packets", view.states == 63),
        ("64 state packets", view.states >= 64),
        ("ended", n.ended == 1),
        ("seq 4,294,967,295", n.seq == u32::MAX as u64),
        ("ack 4,294,967,295", n.ack == u32::MAX as u64),
        ("a read offset", view.held.iter().any(|(_, _, offset)| *offset > 0)),
    ];
    states.into_iter().filter(|(_, is)| *is).map(|(name, _)| name).collect()
}
