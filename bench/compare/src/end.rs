//! What the driver needs of one end of a stream. Each function makes all the calls of its kind in a round: the driver is the same for
//! every engine, and an engine decides nothing.

/// What a drive leaves behind.
#[derive(Clone, Copy, PartialEq, Eq)]
pub enum Driven {
    /// Every packet is acknowledged.
    Settled,
    /// A packet waits for its acknowledgement; the timer is due at this clock.
    Waits(u64),
    /// The stream has ended with TimedOut.
    Failed,
}

/// The length of a header, and of a datagram that carries only an acknowledgement.
pub const HEADER: usize = 20;
/// Most datagrams in a batch.
pub const SEGMENTS: u8 = 10;
/// Both ends have this id: each pair of ends has its own line.
pub const ID: u32 = 1;
/// Bytes of a line: 32 packets are four batches, and a take that finds none left needs room for one more.
pub const LINE: usize = 5 * udx::TAKE_ROOM;

pub trait End {
    /// Datagrams in transit, in the form in which they were taken.
    type Line;

    fn line() -> Self::Line;
    fn open(clock: u64) -> Self;

    /// Writes `size` bytes at a time from the front of `bytes` until a write has to wait; returns the bytes accepted.
    fn write(&mut self, bytes: &[u8], size: usize) -> usize;

    fn drive(&mut self, clock: u64) -> Driven;

    /// Takes until none is left; returns how many datagrams, each of `size` bytes.
    fn take(&mut self, line: &mut Self::Line, size: usize) -> usize;

    /// Delivers the datagrams that are not lost: `lost` has a byte for each, 0 if it arrives.
    fn deliver(&mut self, line: &Self::Line, size: usize, lost: &[u8], clock: u64);

    /// Reads `size` bytes at a time until a read puts nothing; returns the bytes put.
    fn read(&mut self, buf: &mut [u8], size: usize) -> usize;
}
