//! The rows of the tables, and how one is timed.

use crate::case::{Case, Checked, Engine, Pass};
use crate::driver::{Counts, Load};
use crate::options::Options;
use std::hint::black_box;

/// Engines in the order of the columns: the original, the port directly, the port through its boundary.
pub type Engines = [Option<Engine>; 3];

#[derive(Clone, Copy, PartialEq, Eq)]
pub enum Kind {
    /// The path of a packet.
    Path,
    /// Each kind of call.
    Calls,
}

#[derive(Clone, Copy)]
pub struct Row {
    pub kind: Kind,
    pub load: Load,
    /// Percent of the datagrams lost.
    pub percent: u64,
}

/// A row's results: what happened in its check, a memcpy's nanoseconds, and those of each engine.
pub struct Found {
    pub counts: Counts,
    pub copy: f64,
    pub nanos: [Option<Vec<f64>>; 3],
}

const SIZES: [usize; 2] = [1_380, 30];
const FLIGHTS: [usize; 3] = [1, 8, 32];
const PERCENTS: [u64; 2] = [0, 5];
/// How many stack depths the passes cycle through, and the least bytes from one to the next.
const DEPTHS: u32 = 16;
const FRAME: usize = 64;

pub fn all() -> Vec<Row> {
    let row = |kind, size, flight, percent| Row {
        kind,
        load: Load { size, flight },
        percent,
    };
    let mut rows = Vec::new();
    for percent in PERCENTS {
        for size in SIZES {
            rows.extend(FLIGHTS.map(|flight| row(Kind::Path, size, flight, percent)));
        }
    }
    rows.extend(SIZES.map(|size| row(Kind::Calls, size, 32, 0)));
    rows
}

/// Times a row. The engines take turns in every pass, so that other load on the machine affects them alike.
pub fn time(row: Row, engines: &Engines, options: &Options) -> Result<Found, String> {
    let case = Case::new(row.load, row.percent, options.packets);
    let checked = agreed(engines, &case)?;
    let mut found = Found {
        counts: checked.whole,
        copy: f64::INFINITY,
        nanos: [None, None, None],
    };
    for pass in 0..options.passes {
        found.copy = found.copy.min(case.copy());
        for (engine, best) in engines.iter().zip(&mut found.nanos) {
            let Some(engine) = engine else { continue };
            let made = deeper(pass % DEPTHS, &|| match row.kind {
                Kind::Path => (engine.path)(&case),
                Kind::Calls => (engine.calls)(&case),
            });
            let nanos = held(engine, made, checked.pass)?;
            let best = best.get_or_insert_with(|| nanos.clone());
            best.iter_mut().zip(nanos).for_each(|(best, nanos)| *best = best.min(nanos));
        }
    }
    Ok(found)
}

/// What happens in this case, if it is the same in every engine.
fn agreed(engines: &Engines, case: &Case) -> Result<Checked, String> {
    let mut agreed = None;
    for engine in engines.iter().flatten() {
        let checked = (engine.check)(case).map_err(|why| format!("{} {why}", engine.name))?;
        let due = *agreed.get_or_insert(checked);
        if checked != due {
            return Err(format!("{} did something else: {checked:?}, not {due:?}", engine.name));
        }
    }
    Ok(agreed.unwrap_or_default())
}

/// The times of a pass, if the same happened in it as in the check.
fn held(engine: &Engine, pass: Result<Pass, String>, due: Counts) -> Result<Vec<f64>, String> {
    let Pass { counts, nanos } = pass.map_err(|why| format!("{} {why}", engine.name))?;
    if counts != due {
        return Err(format!("{} did something else: {counts:?}, not {due:?}", engine.name));
    }
    Ok(nanos)
}

/// A pass made `frames` frames further down the stack: the place of structs there changes times by up to 8 %, and no engine should win by
/// a lucky place.
#[inline(never)]
fn deeper<T>(frames: u32, pass: &dyn Fn() -> T) -> T {
    black_box([0_u8; FRAME]);
    if frames == 0 {
        pass()
    } else {
        black_box(deeper(frames - 1, pass))
    }
}
