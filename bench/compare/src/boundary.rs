//! The port as a program links it: crate `udx` over the archive's C functions.

use crate::end::{Driven, End, ID, LINE, SEGMENTS};
use std::time::Duration;
use udx::{Stream, Written};

pub struct Boundary(Stream);

impl End for Boundary {
    type Line = Vec<u8>;

    fn line() -> Vec<u8> {
        vec![0; LINE]
    }

    fn open(clock: u64) -> Self {
        Boundary(Stream::open(ID, ID, SEGMENTS, Duration::from_nanos(clock)).expect("an open"))
    }

    fn write(&mut self, bytes: &[u8], size: usize) -> usize {
        let mut count = 0;
        for packet in bytes.chunks_exact(size) {
            match self.0.write(packet).expect("a write") {
                Written::Accepted(accepted) => count += accepted,
                Written::Wait => break,
            }
        }
        count
    }

    fn drive(&mut self, clock: u64) -> Driven {
        let _ = self.0.drive(Duration::from_nanos(clock)).expect("a drive");
        match (self.0.error(), self.0.deadline()) {
            (Some(_), _) => Driven::Failed,
            (None, Some(deadline)) => Driven::Waits(deadline.as_nanos() as u64),
            (None, None) => Driven::Settled,
        }
    }

    fn take(&mut self, line: &mut Vec<u8>, size: usize) -> usize {
        let mut count = 0;
        while self.0.left_to_take() != 0 {
            let batch = self.0.take(&mut line[count..]).expect("a take");
            count += batch.map_or(0, |batch| batch.bytes().len());
        }
        count / size
    }

    fn deliver(&mut self, line: &Vec<u8>, size: usize, lost: &[u8], clock: u64) {
        let clock = Duration::from_nanos(clock);
        for (datagram, lost) in line.chunks_exact(size).zip(lost) {
            if *lost == 0 {
                self.0.deliver(datagram, clock).expect("a delivery");
            }
        }
    }

    fn read(&mut self, buf: &mut [u8], size: usize) -> usize {
        let mut count = 0;
        for part in buf.chunks_exact_mut(size) {
            match self.0.read(part).count() {
                0 => break,
                put => count += put,
            }
        }
        count
    }
}
