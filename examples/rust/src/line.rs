//! A simulated line: by seeded chance it loses datagrams, repeats them and holds them back. It takes the place of a socket.
use std::cmp::{Ordering, Reverse};
use std::collections::BinaryHeap;

/// A chance of 100 percent: chances are in millionths of a percent.
const ALWAYS: u64 = 100_000_000;
/// Nanoseconds that a datagram is held back at most.
const MOST_HELD: u64 = 100_000_000;

/// A copy of a datagram in transit.
pub struct Arrival {
    pub time: u64,
    order: u64, // of two at the same time, the one sent first arrives first
    /// The datagram's number over the whole run.
    pub id: u64,
    /// The end that it goes to.
    pub to: usize,
    pub bytes: Vec<u8>,
}

impl Ord for Arrival {
    fn cmp(&self, other: &Self) -> Ordering {
        (self.time, self.order).cmp(&(other.time, other.order))
    }
}

impl PartialOrd for Arrival {
    fn partial_cmp(&self, other: &Self) -> Option<Ordering> {
        Some(self.cmp(other))
    }
}

impl PartialEq for Arrival {
    fn eq(&self, other: &Self) -> bool {
        self.cmp(other) == Ordering::Equal
    }
}

impl Eq for Arrival {}

/// What the line did with a datagram.
#[derive(Default)]
pub struct Fate {
    pub lost: bool,
    pub repeated: bool,
    pub held: bool,
}

/// How bad the line is: chances, and nanoseconds from one end to the other.
#[derive(Clone, Copy)]
pub struct Habits {
    pub loss: u64,
    pub repeat: u64,
    pub reorder: u64,
    pub delay: u64,
}

pub struct Line {
    habits: Habits,
    random: u64,
    sent: u64, // copies put on the line so far
    under_way: BinaryHeap<Reverse<Arrival>>,
    spare: Vec<Vec<u8>>, // reused, so that memory is allocated only while the line fills up
}

impl Line {
    pub fn new(habits: Habits, seed: u64) -> Line {
        Line {
            habits,
            random: seed,
            sent: 0,
            under_way: BinaryHeap::new(),
            spare: Vec::new(),
        }
    }

    /// splitmix64: short, and the same numbers in every language.
    fn random(&mut self) -> u64 {
        self.random = self.random.wrapping_add(0x9e37_79b9_7f4a_7c15);
        let mut z = self.random;
        z = (z ^ z >> 30).wrapping_mul(0xbf58_476d_1ce4_e5b9);
        z = (z ^ z >> 27).wrapping_mul(0x94d0_49bb_1331_11eb);
        z ^ z >> 31
    }

    /// A number below `limit`, which fits 32 bits.
    fn below(&mut self, limit: u64) -> u64 {
        ((self.random() >> 32) * limit) >> 32
    }

    fn chance(&mut self, chance: u64) -> bool {
        self.below(ALWAYS) < chance
    }

    /// The extra delay of a copy that others are to overtake.
    fn hold(&mut self) -> u64 {
        1 + self.below(MOST_HELD)
    }

    /// The bytes are copied: the sender's buffer is reused before they arrive.
    fn put(&mut self, time: u64, to: usize, id: u64, datagram: &[u8]) {
        let mut bytes = self.spare.pop().unwrap_or_default();
        bytes.clear();
        bytes.extend_from_slice(datagram);
        let order = self.sent;
        self.sent += 1;
        self.under_way.push(Reverse(Arrival {
            time,
            order,
            id,
            to,
            bytes,
        }));
    }

    /// Sends a datagram to an end.
    pub fn send(&mut self, now: u64, to: usize, id: u64, datagram: &[u8]) -> Fate {
        let habits = self.habits;
        let lost = self.chance(habits.loss);
        if lost {
            return Fate { lost, ..Fate::default() };
        }
        let held = self.chance(habits.reorder);
        let hold = if held { self.hold() } else { 0 };
        self.put(now + habits.delay + hold, to, id, datagram);
        let repeated = self.chance(habits.repeat);
        if repeated {
            let hold = self.hold();
            self.put(now + habits.delay + hold, to, id, datagram);
        }
        Fate { lost, repeated, held }
    }

    /// When the next datagram arrives.
    pub fn next_time(&self) -> Option<u64> {
        self.under_way.peek().map(|Reverse(a)| a.time)
    }

    /// Takes the next arrival from the line, if its time has come; `release` gives it back.
    pub fn take(&mut self, now: u64) -> Option<Arrival> {
        if self.next_time()? > now {
            return None;
        }
        self.under_way.pop().map(|Reverse(a)| a)
    }

    pub fn release(&mut self, arrival: Arrival) {
        self.spare.push(arrival.bytes);
    }

    /// Copies in transit.
    pub fn count(&self) -> usize {
        self.under_way.len()
    }
}
