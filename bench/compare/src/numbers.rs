//! A row's results as a line of numbers, from the process that timed it to the one that asked.

use crate::driver::Counts;
use crate::rows::Found;

/// Between the parts of a line: counts and memcpy, then each engine.
const PART: &str = ";";
/// An engine that was not run.
const NONE: &str = "-";

pub fn line(found: &Found) -> String {
    let c = found.counts;
    let counts = [c.rounds, c.packets, c.datagrams, c.timeouts, c.failures, c.clock];
    let mut parts = vec![format!("{} {}", joined(&counts), found.copy)];
    parts.extend(found.nanos.iter().map(|nanos| nanos.as_deref().map_or(NONE.to_string(), joined)));
    parts.join(PART) + "\n"
}

fn joined<T: ToString>(numbers: &[T]) -> String {
    numbers.iter().map(T::to_string).collect::<Vec<_>>().join(" ")
}

/// `None` if the line is not one of these.
pub fn found(line: &str) -> Option<Found> {
    let mut parts = line.trim_end().split(PART);
    let (counts, copy) = parts.next()?.rsplit_once(' ')?;
    let counts: Vec<u64> = counts.split(' ').map(|word| word.parse().ok()).collect::<Option<_>>()?;
    let &[rounds, packets, datagrams, timeouts, failures, clock] = counts.as_slice() else {
        return None;
    };
    let mut nanos = [None, None, None];
    for slot in &mut nanos {
        let part = parts.next()?;
        if part != NONE {
            *slot = Some(part.split(' ').map(|word| word.parse().ok()).collect::<Option<_>>()?);
        }
    }
    let counts = Counts {
        rounds,
        packets,
        datagrams,
        timeouts,
        failures,
        clock,
    };
    Some(Found {
        counts,
        copy: copy.parse().ok()?,
        nanos,
    })
}
