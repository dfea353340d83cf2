//! Two ends that do just what 'The round of a caller' and 'The end of a stream' (src/lib.rs) say, over a line that loses, repeats, delays
//! and reorders: every byte is read, both ends are done, and nobody waits for ever; but for runs in which a stream times out, which are few.
use std::time::Duration;
use udx::{Driven, EndState, Stream, StreamError, Written, TAKE_ROOM};

/// How long an end waits for the answer to its END, how often it closes, and how long the other one listens for more of them.
const PAUSE: Duration = Duration::from_millis(500);
const TRIES: u32 = 10;
const LINGER: Duration = Duration::from_secs(3);

/// Numbers that look random, the same for the same seed.
struct Numbers(u64);

impl Numbers {
    fn below(&mut self, n: u64) -> u64 {
        self.0 ^= self.0 << 13;
        self.0 ^= self.0 >> 7;
        self.0 ^= self.0 << 17;
        self.0 % n
    }
}

struct End {
    stream: Stream,
    bytes: Vec<u8>,
    written: usize,
    /// How many bytes are wanted from the other end, and those that were read.
    wanted: usize,
    read: Vec<u8>,
    came: Vec<Vec<u8>>,
    closes: bool,
    closed: u32,
    /// When it was closed, or last brought a datagram.
    heard: Duration,
    done: bool,
}

impl End {
    fn new(local: u32, bytes: Vec<u8>, wanted: usize, closes: bool) -> End {
        End {
            stream: Stream::open(local, 3 - local, 10, Duration::ZERO).unwrap(),
            bytes,
            written: 0,
            wanted,
            read: Vec::new(),
            came: Vec::new(),
            closes,
            closed: 0,
            heard: Duration::ZERO,
            done: false,
        }
    }

    /// Reads until a read puts nothing; the buffer is shorter than a packet.
    fn read_all(&mut self) {
        let mut buf = [0; 700];
        loop {
            let count = self.stream.read(&mut buf).count();
            self.read.extend_from_slice(&buf[..count]);
            if count == 0 {
                return;
            }
        }
    }

    /// Whether any bytes were accepted.
    fn write(&mut self) -> bool {
        let Ok(Written::Accepted(count)) = self.stream.write(&self.bytes[self.written..]) else {
            return false;
        };
        self.written += count;
        count > 0
    }

    /// Whether this end still waits for the other end's END.
    fn is_closing(&self) -> bool {
        self.closes && self.stream.state() != EndState::BothClosed
    }

    /// Whether it was closed now: all has come, and no answer to the last END for a while.
    fn close(&mut self, now: Duration) -> bool {
        let all_came = self.written == self.bytes.len() && self.stream.deadline().is_none() && self.read.len() == self.wanted;
        let is_time = self.is_closing() && all_came && self.closed < TRIES && (self.closed == 0 || self.heard + PAUSE <= now);
        if is_time {
            self.stream.close().unwrap();
            self.closed += 1;
            self.heard = now;
        }
        is_time
    }

    /// With an error and nothing to send, the next drive is the last one.
    fn is_over(&self) -> bool {
        self.stream.error().is_some() && self.stream.deadline().is_none() && self.stream.queued() == 0
    }

    /// When that drive may be made: at once after the other end's END, else when nothing has come for a while.
    fn ends_at(&self) -> Duration {
        match (self.closes, self.stream.state()) {
            (true, EndState::BothClosed) => Duration::ZERO,
            (true, _) => self.heard + PAUSE,
            (false, _) => self.heard + LINGER,
        }
    }

    /// A round without its last step; what is sent.
    fn round(&mut self, now: Duration) -> Vec<Vec<u8>> {
        let mut sent = Vec::new();
        let mut buf = vec![0; TAKE_ROOM];
        for datagram in std::mem::take(&mut self.came) {
            self.stream.deliver(&datagram, now).ok(); // a refused datagram is dropped
            self.heard = now;
        }
        self.read_all();
        self.write();
        self.close(now);
        loop {
            if self.is_over() && now < self.ends_at() {
                return sent;
            }
            if self.stream.drive(now).unwrap() == Driven::Done {
                self.done = true;
                return sent;
            }
            while let Some(batch) = self.stream.take(&mut buf).unwrap() {
                sent.extend(batch.datagrams().map(<[u8]>::to_vec));
            }
            if self.stream.error() == Some(StreamError::TimedOut) {
                self.done = true;
                return sent;
            }
            let has_written = self.written < self.bytes.len() && self.write();
            if !has_written && !self.close(now) && !self.is_over() {
                return sent;
            }
        }
    }

    /// Until when it waits, if no datagram comes.
    fn wakes(&self) -> Option<Duration> {
        let end = Some(self.ends_at()).filter(|_| self.is_over());
        [self.stream.deadline(), end].into_iter().flatten().min().filter(|_| !self.done)
    }
}

/// A run over a line; the ends after it.
fn run(seed: u64, loss: u64) -> [End; 2] {
    let mut numbers = Numbers(seed.wrapping_mul(0x9e37_79b9_7f4a_7c15));
    let samples = |n: usize, numbers: &mut Numbers| (0..n).map(|_| numbers.below(256) as u8).collect::<Vec<_>>();
    let (up, down) = (samples(30_000, &mut numbers), samples(4_000, &mut numbers));
    let (up_len, down_len) = (up.len(), down.len());
    let mut ends = [End::new(1, up, down_len, true), End::new(2, down, up_len, false)];
    let mut line: Vec<(Duration, usize, Vec<u8>)> = Vec::new();
    let mut now = Duration::ZERO;
    let mut awake = [true; 2];
    for _ in 0..100_000 {
        for i in (0..2).filter(|i| awake[*i] && !ends[*i].done).collect::<Vec<_>>() {
            for datagram in ends[i].round(now) {
                for _ in 0..1 + u64::from(numbers.below(100) < 3) {
                    if numbers.below(100) >= loss {
                        let delay = Duration::from_micros(20_000 + numbers.below(60_000));
                        line.push((now + delay, 1 - i, datagram.clone()));
                    }
                }
            }
        }
        let first = line.iter().map(|(at, ..)| *at).chain(ends.iter().filter_map(End::wakes)).min();
        let Some(next) = first else {
            return ends;
        };
        now = now.max(next);
        awake = [0, 1].map(|i| ends[i].wakes().is_some_and(|at| at <= now));
        let (came, later): (Vec<_>, Vec<_>) = line.into_iter().partition(|(at, ..)| *at <= now);
        line = later;
        for (_, to, datagram) in came {
            ends[to].came.push(datagram);
            awake[to] = true;
        }
    }
    panic!("seed {seed}: no end of it");
}

fn check(seeds: u64, loss: u64) -> u64 {
    let mut failed = 0;
    for seed in 1..=seeds {
        let ends = run(seed, loss);
        for (end, other) in [(&ends[0], &ends[1]), (&ends[1], &ends[0])] {
            assert!(other.bytes.starts_with(&end.read), "seed {seed}: other bytes were read");
        }
        if ends.iter().any(|end| end.stream.error() == Some(StreamError::TimedOut)) {
            failed += 1;
            continue;
        }
        for end in &ends {
            assert!(end.done && end.stream.is_done(), "seed {seed}: an end waits for ever");
            assert_eq!(end.read.len(), end.wanted, "seed {seed}: bytes are missing");
        }
    }
    failed
}

#[test]
fn a_line_that_loses_nothing() {
    assert_eq!(check(50, 0), 0);
}

#[test]
fn a_line_that_loses_five_of_a_hundred() {
    assert!(check(300, 5) < 15);
}

#[test]
fn a_line_that_loses_a_fifth() {
    assert!(check(300, 20) < 75);
}
