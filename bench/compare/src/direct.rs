//! The port's calls made from Rattle (crates/bench_path): one C function makes all the calls of a kind, so that the calls are timed and
//! not the boundary.

use crate::end::{Driven, End, LINE, SEGMENTS};

const SEQ: usize = 0;
const REMOTE_ACKED: usize = 1;
const CWND: usize = 4;
const LEFT: usize = 9;
const RTO: usize = 14;
const DEADLINE: usize = 15;
const LAST_CLOCK: usize = 16;
const DRIVE_CLOCK: usize = 17;
const CEILING: usize = 18;

const SECOND: u64 = 1_000_000_000;
const FRESH_WINDOW: u64 = 2_800;

pub struct Direct(Box<Records>);

struct Records {
    /// In the order of crates/bench_calls.
    numbers: [u64; 24],
    sent: [u64; 64],
    held: [u64; 32],
    queue: [u64; 128],
    outgoing: [u8; 44_800],
    incoming: [u8; 44_160],
    headers: [u8; 1_280],
}

/// The C functions: records, words and the three stores with their lengths, then the call's own arguments.
macro_rules! calls {
    ($($name:ident($($own:ident: $kind:ty),*) -> $answer:ty;)*) => {
        extern "C" {
            $(fn $name(
                numbers: *mut [u64; 24],
                sent: *mut [u64; 64],
                held: *mut [u64; 32],
                queue: *mut [u64; 128],
                outgoing: *mut u8,
                outgoing_length: usize,
                incoming: *mut u8,
                incoming_length: usize,
                headers: *mut u8,
                headers_length: usize,
                $($own: $kind),*
            ) -> $answer;)*
        }
    };
}

calls! {
    udx_path_write(bytes: *const u8, length: usize, size: usize) -> usize;
    udx_path_drive(clock: u64) -> u32;
    udx_path_take(buf: *mut u8, length: usize) -> usize;
    udx_path_deliver(line: *const u8, length: usize, size: usize, lost: *const u8, lost_length: usize, clock: u64) -> ();
    udx_path_read(buf: *mut u8, length: usize, size: usize) -> usize;
}

/// A call on the records of an end.
macro_rules! call {
    ($end:expr, $name:ident, $($own:expr),*) => {{
        let r = &mut *$end.0;
        // SAFETY: every pointer and length is that of a field or of a slice borrowed for the call, and no two of them overlap.
        unsafe {
            $name(
                &mut r.numbers,
                &mut r.sent,
                &mut r.held,
                &mut r.queue,
                r.outgoing.as_mut_ptr(),
                r.outgoing.len(),
                r.incoming.as_mut_ptr(),
                r.incoming.len(),
                r.headers.as_mut_ptr(),
                r.headers.len(),
                $($own),*
            )
        }
    }};
}

impl End for Direct {
    type Line = Vec<u8>;

    fn line() -> Vec<u8> {
        vec![0; LINE]
    }

    /// What `open` returns, as numbers.
    fn open(clock: u64) -> Self {
        let mut numbers = [0; 24];
        numbers[CWND] = FRESH_WINDOW;
        numbers[RTO] = SECOND;
        numbers[DEADLINE] = clock + SECOND;
        numbers[LAST_CLOCK] = clock;
        numbers[DRIVE_CLOCK] = clock;
        numbers[CEILING] = SEGMENTS.into();
        Direct(Box::new(Records {
            numbers,
            sent: [0; 64],
            held: [0; 32],
            queue: [0; 128],
            outgoing: [0; 44_800],
            incoming: [0; 44_160],
            headers: [0; 1_280],
        }))
    }

    fn write(&mut self, bytes: &[u8], size: usize) -> usize {
        call!(self, udx_path_write, bytes.as_ptr(), bytes.len(), size)
    }

    fn drive(&mut self, clock: u64) -> Driven {
        if call!(self, udx_path_drive, clock) != 0 {
            return Driven::Failed;
        }
        let n = &self.0.numbers;
        assert_eq!(n[DRIVE_CLOCK], clock, "a drive was refused");
        if n[SEQ] == n[REMOTE_ACKED] {
            Driven::Settled
        } else {
            Driven::Waits(n[DEADLINE])
        }
    }

    fn take(&mut self, line: &mut Vec<u8>, size: usize) -> usize {
        let count = call!(self, udx_path_take, line.as_mut_ptr(), line.len());
        assert_eq!(self.0.numbers[LEFT], 0, "a take was refused");
        count / size
    }

    fn deliver(&mut self, line: &Vec<u8>, size: usize, lost: &[u8], clock: u64) {
        call!(
            self,
            udx_path_deliver,
            line.as_ptr(),
            line.len(),
            size,
            lost.as_ptr(),
            lost.len(),
            clock
        );
        let none = lost.iter().all(|lost| *lost != 0);
        assert!(none || self.0.numbers[LAST_CLOCK] == clock, "a delivery was refused");
    }

    fn read(&mut self, buf: &mut [u8], size: usize) -> usize {
        call!(self, udx_path_read, buf.as_mut_ptr(), buf.len(), size)
    }
}
