//! The hub's samples: a source of bytes that can be generated from any offset.
//!
//! A sample has 30 bytes; its numbers are little-endian:
//!
//! | at | bytes | |
//! |---|---|---|
//! | 0 | 8 | counter: k in sample k |
//! | 8 | 4 | angle of blade 1 in millidegrees, signed |
//! | 12 | 4 | angle of blade 2 |
//! | 16 | 4 | angle of blade 3 |
//! | 20 | 4 | motor current in mA, signed: negative while the motor brakes |
//! | 24 | 4 | battery voltage in mV |
//! | 28 | 2 | check: the Internet checksum (RFC 1071) of bytes 0 to 27 as 14 little-endian words |
//!
//! Sample k depends only on k, by integer arithmetic, so that a receiver can generate the bytes it expects.

pub const SAMPLE_SIZE: usize = 30;

/// A triangle wave: from 0 up to `height` and back in `period` samples.
fn swing(k: u64, period: u64, height: u64) -> i32 {
    let (half, x) = (period / 2, k % period);
    ((if x < half { x } else { period - x }) * height / half) as i32
}

/// 0 to 31: the last digits of a measurement.
fn noise(k: u64) -> i32 {
    (k.wrapping_mul(0x9e37_79b9_7f4a_7c15) >> 59) as i32
}

/// The sum with its carries folded in, complemented.
fn check(bytes: &[u8]) -> u16 {
    let mut sum: u32 = bytes.chunks_exact(2).map(|w| u32::from(u16::from_le_bytes([w[0], w[1]]))).sum();
    sum = (sum & 0xffff) + (sum >> 16);
    sum = (sum & 0xffff) + (sum >> 16);
    !(sum as u16)
}

/// The three blades follow the wind together, each with its own correction by a third of a turn.
fn make(k: u64) -> [u8; SAMPLE_SIZE] {
    let mut to = [0; SAMPLE_SIZE];
    let (pitch, noise) = (swing(k, 60_000, 24_000) - 2_000, noise(k));
    to[..8].copy_from_slice(&k.to_le_bytes());
    for blade in 0..3 {
        let angle = pitch + swing(k + 2_000 * blade as u64, 6_000, 1_500) + noise;
        to[8 + 4 * blade..12 + 4 * blade].copy_from_slice(&angle.to_le_bytes());
    }
    let current = swing(k, 9_000, 3_000) - 600 + noise;
    to[20..24].copy_from_slice(&current.to_le_bytes());
    let voltage = 51_200 - swing(k, 3_600_000, 4_000) - noise;
    to[24..28].copy_from_slice(&voltage.to_le_bytes());
    let check = check(&to[..28]);
    to[28..].copy_from_slice(&check.to_le_bytes());
    to
}

/// The bytes from `offset` on of the endless sequence of samples `first`, `first + 1`, ..
pub fn bytes(first: u64, offset: u64, mut to: &mut [u8]) {
    let mut k = first + offset / SAMPLE_SIZE as u64;
    let mut skip = (offset % SAMPLE_SIZE as u64) as usize;
    while !to.is_empty() {
        let step = to.len().min(SAMPLE_SIZE - skip);
        let (now, rest) = to.split_at_mut(step);
        now.copy_from_slice(&make(k)[skip..skip + step]);
        (to, skip, k) = (rest, 0, k + 1);
    }
}
