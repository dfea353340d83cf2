//! What a row is run on: the bytes that are sent, and which datagrams the line loses. Both are the same for every engine.

/// Datagrams until the losses repeat.
const DRAWN: usize = 1 << 19;
/// Bytes until the source repeats: a prime, so that no two packets near each other have the same bytes.
const PERIOD: usize = 4_093;

/// Seeded numbers (splitmix64).
struct Random(u64);

impl Random {
    fn next(&mut self) -> u64 {
        self.0 = self.0.wrapping_add(0x9e37_79b9_7f4a_7c15);
        let mut z = self.0;
        z = (z ^ (z >> 30)).wrapping_mul(0xbf58_476d_1ce4_e5b9);
        z = (z ^ (z >> 27)).wrapping_mul(0x94d0_49bb_1331_11eb);
        z ^ (z >> 31)
    }
}

/// Whether each datagram in turn, data or acknowledgement, is lost: drawn before anything is timed.
pub struct Losses {
    lost: Vec<u8>,
}

impl Losses {
    pub fn new(percent: u64, seed: u64) -> Self {
        let mut random = Random(seed);
        Losses {
            lost: (0..DRAWN).map(|_| u8::from(random.next() % 100 < percent)).collect(),
        }
    }

    /// Those of the next `count` datagrams from `place` on; advances `place`.
    pub fn next(&self, place: &mut usize, count: usize) -> &[u8] {
        if *place + count > DRAWN {
            *place = 0;
        }
        *place += count;
        &self.lost[*place - count..*place]
    }
}

/// An endless sequence of bytes.
pub struct Source(Vec<u8>);

impl Source {
    /// Parts of it have at most `most` bytes.
    pub fn new(most: usize, seed: u64) -> Self {
        let mut random = Random(seed);
        let period: Vec<u8> = (0..PERIOD).map(|_| random.next() as u8).collect();
        Source(period.iter().copied().cycle().take(PERIOD + most).collect())
    }

    pub fn part(&self, from: u64, length: usize) -> &[u8] {
        let start = (from % PERIOD as u64) as usize;
        &self.0[start..start + length]
    }
}
