//! What watches the driver: nothing, a stopwatch for each kind of call, or a check of every byte.

use std::time::Instant;

/// The calls of a round, in their order.
#[derive(Clone, Copy, Debug, PartialEq, Eq)]
pub enum Call {
    Write,
    DriveQueues,
    TakeData,
    DeliverData,
    Read,
    DriveAnswers,
    TakeAcks,
    DeliverAcks,
    DriveSettles,
    TakeNone,
}

pub const CALLS: usize = 10;

pub trait Watch {
    /// A round begins.
    fn start(&mut self) {}
    /// The calls of a kind have just been made.
    fn lap(&mut self, _call: Call) {}
    /// A round is over: the bytes read, and those expected.
    fn read(&mut self, _got: &[u8], _sent: &[u8]) {}
}

pub struct Nothing;
impl Watch for Nothing {}

/// Checks that every byte read is the one written.
pub struct Check {
    pub holds: bool,
}

impl Watch for Check {
    fn read(&mut self, got: &[u8], sent: &[u8]) {
        self.holds &= got == sent;
    }
}

/// Nanoseconds of each kind of call.
pub struct Stopwatch {
    last: Instant,
    nanos: [u64; CALLS],
}

impl Stopwatch {
    pub fn new() -> Self {
        Stopwatch {
            last: Instant::now(),
            nanos: [0; CALLS],
        }
    }

    /// The average time of each kind in a round, less the stopwatch's own.
    pub fn each(&self, rounds: u64) -> [f64; CALLS] {
        let own = Self::own();
        self.nanos.map(|nanos| (nanos as f64 / rounds as f64 - own).max(0.0))
    }

    /// Nanoseconds of a lap in which nothing happens, the best of some passes.
    fn own() -> f64 {
        const LAPS: usize = 10_000;
        let pass = || {
            let mut watch = Stopwatch::new();
            watch.start();
            (0..LAPS).for_each(|_| watch.lap(std::hint::black_box(Call::Write)));
            watch.nanos[0] as f64 / LAPS as f64
        };
        (0..10).map(|_| pass()).fold(f64::INFINITY, f64::min)
    }
}

impl Watch for Stopwatch {
    fn start(&mut self) {
        self.last = Instant::now();
    }

    fn lap(&mut self, call: Call) {
        let now = Instant::now();
        self.nanos[call as usize] += (now - self.last).as_nanos() as u64;
        self.last = now;
    }
}
