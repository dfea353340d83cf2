//! The original's core over the oracle's shims (tests/oracle/src/direct.rs). The lock is taken once for all the calls of a kind.

use crate::end::{Driven, End, ID, SEGMENTS};
use oracle::shim::set_clock;
use oracle::stream::direct::Direct;
use oracle::udp::Transmit;

pub struct Original(Direct);

impl End for Original {
    type Line = Vec<Transmit>;

    fn line() -> Vec<Transmit> {
        Vec::new()
    }

    fn open(clock: u64) -> Self {
        Original(Direct::open(ID, ID, SEGMENTS.into(), clock))
    }

    fn write(&mut self, bytes: &[u8], size: usize) -> usize {
        let mut stream = self.0.lock();
        let mut count = 0;
        for packet in bytes.chunks_exact(size) {
            match stream.write(packet) {
                0 => break,
                accepted => count += accepted,
            }
        }
        count
    }

    fn drive(&mut self, clock: u64) -> Driven {
        let mut stream = self.0.lock();
        if stream.drive(clock).is_err() {
            return Driven::Failed;
        }
        stream.deadline().map_or(Driven::Settled, Driven::Waits)
    }

    fn take(&mut self, line: &mut Vec<Transmit>, _size: usize) -> usize {
        line.clear();
        while let Some(transmit) = self.0.take() {
            line.push(transmit);
        }
        line.iter().map(Transmit::num_segments).sum()
    }

    fn deliver(&mut self, line: &Vec<Transmit>, size: usize, lost: &[u8], clock: u64) {
        set_clock(clock);
        let mut stream = self.0.lock();
        let mut lost = lost.iter();
        for transmit in line {
            for datagram in transmit.contents.chunks_exact(size) {
                if lost.next() == Some(&0) {
                    stream.deliver(datagram);
                }
            }
        }
    }

    fn read(&mut self, buf: &mut [u8], size: usize) -> usize {
        let mut stream = self.0.lock();
        let mut count = 0;
        for part in buf.chunks_exact_mut(size) {
            match stream.read(part) {
                0 => break,
                put => count += put,
            }
        }
        count
    }
}
