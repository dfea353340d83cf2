//! A stream that owns its records and stores.
use crate::raw;
use crate::refusal;
use crate::Refusal;
use std::fmt;
use std::slice::Chunks;
use std::time::Duration;

/// The least length of the buffer for a [take](Stream::take): ten datagrams of 1,400 bytes.
pub const TAKE_ROOM: usize = 14_000;

/// What a write returns.
#[derive(Clone, Copy, Debug, PartialEq, Eq)]
#[must_use]
pub enum Written {
    /// This many bytes from the front were accepted; write the others again later.
    Accepted(usize),
    /// No room now: the window is full, or 32 packets are unacknowledged.
    Wait,
}

/// What a drive returns.
#[derive(Clone, Copy, Debug, PartialEq, Eq)]
#[must_use]
pub enum Driven {
    /// What is to be sent now is ready to be taken; it may be nothing.
    Ready,
    /// The stream has ended: it has an error, and nothing is queued or stored.
    Done,
}

/// What a read returns. In each case this many bytes were put at the front of the buffer, and more may be left in order: a packet longer
/// than what remains of the buffer gives its front part and is not finished. So read again while the count is not 0. A read that puts
/// nothing into a buffer that is not empty has found nothing more.
#[derive(Clone, Copy, Debug, PartialEq, Eq)]
#[must_use]
pub enum Read {
    /// A packet was finished.
    Ready(usize),
    /// No packet was finished, and the stream has no error.
    Wait(usize),
    /// No packet was finished, and the stream has this error.
    Ended(usize, Refusal),
}

impl Read {
    /// The bytes put.
    pub fn count(self) -> usize {
        match self {
            Read::Ready(count) | Read::Wait(count) | Read::Ended(count, _) => count,
        }
    }
}

/// A batch of datagrams, as one sendmsg with a segment size takes it.
#[derive(Clone, Copy, Debug, PartialEq, Eq)]
pub struct Batch<'a> {
    bytes: &'a [u8],
    segment: Option<usize>,
}

impl<'a> Batch<'a> {
    /// All its bytes, one datagram after another. A batch may be empty.
    pub fn bytes(&self) -> &'a [u8] {
        self.bytes
    }

    /// The length of each datagram, or `None` if the batch is a single one.
    pub fn segment(&self) -> Option<usize> {
        self.segment
    }

    /// The datagrams.
    pub fn datagrams(&self) -> Chunks<'a, u8> {
        self.bytes.chunks(self.segment.unwrap_or(self.bytes.len()).max(1))
    }
}

/// Why a stream ended.
#[derive(Clone, Copy, Debug, PartialEq, Eq, Hash)]
pub enum StreamError {
    /// This side was closed.
    ConnectionReset,
    /// The other side was closed.
    UnexpectedEof,
    /// A packet was sent too often without an acknowledgement.
    TimedOut,
}

/// Which sides are closed.
#[derive(Clone, Copy, Debug, PartialEq, Eq, Hash)]
pub enum EndState {
    Open,
    LocalClosed,
    RemoteClosed,
    BothClosed,
}

/// Totals since open. The first four wrap at 2^64, the last two count what is stored now.
#[derive(Clone, Copy, Debug, PartialEq, Eq, Hash)]
pub struct Totals {
    pub tx_packets: u64,
    pub tx_bytes: u64,
    pub rx_packets: u64,
    pub rx_bytes: u64,
    pub inflight_packets: u64,
    pub inflight_bytes: u64,
}

/// One end of a stream. It owns about 92 KB on the heap.
pub struct Stream {
    pub(crate) stream: raw::Stream,
    pub(crate) totals: raw::Totals,
    pub(crate) sent: Box<raw::Sent>,
    pub(crate) held: Box<raw::Held>,
    pub(crate) queue: Box<raw::Entries>,
    pub(crate) outgoing: Box<[u8]>,
    pub(crate) incoming: Box<[u8]>,
    pub(crate) headers: Box<[u8]>,
}

// Nanoseconds; a clock that does not fit is past every clock that the engine accepts.
fn nanos(clock: Duration) -> u64 {
    u64::try_from(clock.as_nanos()).unwrap_or(u64::MAX)
}

impl Stream {
    /// Opens a stream with the ids of both ends, at most `segments` (1 to 10) datagrams a batch, and the clock. Refusals 3 and 4.
    ///
    /// ```
    /// use std::time::Duration;
    /// use udx::{Refusal, Stream};
    ///
    /// assert!(Stream::open(1, 2, 10, Duration::ZERO).is_ok());
    /// assert_eq!(Stream::open(1, 2, 11, Duration::ZERO).unwrap_err(), Refusal::SegmentCeiling);
    /// assert_eq!(Stream::open(1, 2, 10, Duration::from_secs(1 << 40)).unwrap_err(), Refusal::BadClock);
    /// ```
    pub fn open(local: u32, remote: u32, segments: u8, clock: Duration) -> Result<Stream, Refusal> {
        let outgoing = vec![0; raw::OUTGOING_STORE].into_boxed_slice();
        let incoming = vec![0; raw::INCOMING_STORE].into_boxed_slice();
        let headers = vec![0; raw::HEADER_STORE].into_boxed_slice();
        // SAFETY: pointers and lengths are those of the stores.
        let r = unsafe {
            raw::udx_open(
                local,
                remote,
                segments,
                nanos(clock),
                outgoing.as_ptr(),
                outgoing.len(),
                incoming.as_ptr(),
                incoming.len(),
                headers.as_ptr(),
                headers.len(),
            )
        };
        if r.refusal != 0 {
            return Err(refusal(r.refusal));
        }
        let (sent, held, queue) = (Box::new([0; 64]), Box::new([0; 32]), Box::new([0; 128]));
        Ok(Stream {
            stream: r.stream,
            totals: r.totals,
            sent,
            held,
            queue,
            outgoing,
            incoming,
            headers,
        })
    }

    // Keeps stream and totals after a call.
    fn after(&mut self, r: raw::Step) -> Result<raw::Step, Refusal> {
        self.stream = r.stream;
        self.totals = r.totals;
        match r.refusal {
            0 => Ok(r),
            number => Err(refusal(number)),
        }
    }

    /// Accepts the front of `bytes`, as much as the window and 32 packets allow. Refusals 6 and 14 to 17.
    ///
    /// ```
    /// # use std::time::Duration;
    /// # use udx::{Stream, Written};
    /// let mut s = Stream::open(1, 2, 10, Duration::ZERO)?;
    /// assert_eq!(s.write(&[0; 3000])?, Written::Accepted(2760)); // a fresh window of 2,800 bytes
    /// assert_eq!(s.write(&[0; 1380])?, Written::Wait);
    /// # Ok::<(), udx::Refusal>(())
    /// ```
    pub fn write(&mut self, bytes: &[u8]) -> Result<Written, Refusal> {
        // SAFETY: here and in the other calls every pointer and length is that of a field of self or of a slice borrowed for the call;
        // what the archive changes is borrowed mutably, and no two of them overlap.
        let r = unsafe {
            raw::udx_write(
                self.stream,
                self.totals,
                &mut *self.sent,
                &*self.held,
                &mut *self.queue,
                self.outgoing.as_mut_ptr(),
                self.outgoing.len(),
                self.incoming.as_ptr(),
                self.incoming.len(),
                self.headers.as_ptr(),
                self.headers.len(),
                bytes.as_ptr(),
                bytes.len(),
            )
        };
        let r = self.after(r)?;
        Ok(if r.outcome == 0 {
            Written::Accepted(r.count)
        } else {
            Written::Wait
        })
    }

    /// Handles one incoming datagram. Refusals 4 to 13; a refused datagram may be dropped.
    pub fn deliver(&mut self, datagram: &[u8], clock: Duration) -> Result<(), Refusal> {
        // SAFETY: as in write.
        let r = unsafe {
            raw::udx_deliver(
                self.stream,
                self.totals,
                &mut *self.sent,
                &mut *self.held,
                &mut *self.queue,
                self.outgoing.as_ptr(),
                self.outgoing.len(),
                self.incoming.as_mut_ptr(),
                self.incoming.len(),
                self.headers.as_mut_ptr(),
                self.headers.len(),
                datagram.as_ptr(),
                datagram.len(),
                nanos(clock),
            )
        };
        self.after(r).map(|_| ())
    }

    /// Settles what was acknowledged, checks the timer, and makes ready what is to be sent now. Refusals 4, 5 and 6.
    pub fn drive(&mut self, clock: Duration) -> Result<Driven, Refusal> {
        // SAFETY: as in write.
        let r = unsafe {
            raw::udx_drive(
                self.stream,
                self.totals,
                &mut *self.sent,
                &*self.held,
                &mut *self.queue,
                self.outgoing.as_ptr(),
                self.outgoing.len(),
                self.incoming.as_ptr(),
                self.incoming.len(),
                self.headers.as_mut_ptr(),
                self.headers.len(),
                nanos(clock),
            )
        };
        let r = self.after(r)?;
        Ok(if r.outcome == 2 { Driven::Done } else { Driven::Ready })
    }

    /// Takes the next batch of the last drive into `buf`, which has [`TAKE_ROOM`] bytes or more (else refusal 2); `None` if none is left.
    /// `buf` is unchanged past the batch.
    ///
    /// ```
    /// # use std::time::Duration;
    /// # use udx::{Refusal, Stream, TAKE_ROOM};
    /// let mut s = Stream::open(1, 2, 10, Duration::ZERO)?;
    /// let _ = s.write(&[7; 2760])?;
    /// let _ = s.drive(Duration::ZERO)?;
    /// assert_eq!(s.take(&mut [0; 1400]), Err(Refusal::ShortBuffer));
    /// let mut buf = vec![0; TAKE_ROOM];
    /// let batch = s.take(&mut buf)?.expect("two packets");
    /// assert_eq!(batch.segment(), Some(1400));
    /// assert_eq!(batch.datagrams().map(<[u8]>::len).collect::<Vec<_>>(), [1400, 1400]);
    /// assert!(s.take(&mut buf)?.is_none());
    /// # Ok::<(), udx::Refusal>(())
    /// ```
    pub fn take<'b>(&mut self, buf: &'b mut [u8]) -> Result<Option<Batch<'b>>, Refusal> {
        // SAFETY: as in write.
        let r = unsafe {
            raw::udx_take(
                self.stream,
                self.totals,
                &mut *self.sent,
                &*self.held,
                &*self.queue,
                self.outgoing.as_ptr(),
                self.outgoing.len(),
                self.incoming.as_ptr(),
                self.incoming.len(),
                self.headers.as_ptr(),
                self.headers.len(),
                buf.as_mut_ptr(),
                buf.len(),
            )
        };
        let r = self.after(r)?;
        if r.outcome != 0 {
            return Ok(None);
        }
        let segment = if r.segment == 0 { None } else { Some(r.segment) };
        Ok(Some(Batch {
            bytes: &buf[..r.count],
            segment,
        }))
    }

    /// Queue entries of the last drive that are left to take. At 0 a [take](Stream::take) would return `None`, so it can be skipped.
    ///
    /// ```
    /// # use std::time::Duration;
    /// # use udx::{Stream, TAKE_ROOM};
    /// let mut s = Stream::open(1, 2, 10, Duration::ZERO)?;
    /// let _ = s.write(&[7; 2760])?;
    /// assert_eq!(s.left_to_take(), 0); // a drive decides what goes out
    /// let _ = s.drive(Duration::ZERO)?;
    /// assert_eq!(s.left_to_take(), 2);
    /// let _ = s.take(&mut vec![0; TAKE_ROOM])?;
    /// assert_eq!(s.left_to_take(), 0);
    /// # Ok::<(), udx::Refusal>(())
    /// ```
    pub fn left_to_take(&self) -> usize {
        self.stream.queue.left as usize
    }

    /// The next datagram to be taken, without taking it. Where there is none, empty batches may still be left: take until `None`.
    ///
    /// ```
    /// # use std::time::Duration;
    /// # use udx::Stream;
    /// let mut s = Stream::open(1, 2, 10, Duration::ZERO)?;
    /// let _ = s.write(b"AAA")?;
    /// assert_eq!(s.look(), None);
    /// let _ = s.drive(Duration::ZERO)?;
    /// assert_eq!(&s.look().unwrap()[20..], b"AAA");
    /// # Ok::<(), udx::Refusal>(())
    /// ```
    pub fn look(&self) -> Option<&[u8]> {
        // SAFETY: as in write.
        let p = unsafe {
            raw::udx_look(
                self.stream,
                self.totals,
                &*self.sent,
                &*self.held,
                &*self.queue,
                self.outgoing.as_ptr(),
                self.outgoing.len(),
                self.incoming.as_ptr(),
                self.incoming.len(),
                self.headers.as_ptr(),
                self.headers.len(),
            )
        };
        let store = if p.header == 1 { &self.headers } else { &self.outgoing };
        if p.length == 0 {
            None
        } else {
            Some(&store[p.start..p.start + p.length])
        }
    }

    /// Puts bytes, in order, at the front of `buf`. A packet that does not fit gives its front part: 5 bytes read 2 at a time give
    /// `Wait(2)`, `Wait(2)`, `Ready(1)`. Read again while the count is not 0. `buf` is unchanged past the count.
    ///
    /// ```
    /// # use std::time::Duration;
    /// # use udx::{Read, Refusal, Stream};
    /// let mut s = Stream::open(1, 2, 10, Duration::ZERO)?;
    /// let mut buf = [0; 100];
    /// assert_eq!(s.read(&mut buf), Read::Wait(0));
    /// s.close()?;
    /// assert_eq!(s.read(&mut buf), Read::Ended(0, Refusal::ConnectionReset));
    /// # Ok::<(), udx::Refusal>(())
    /// ```
    pub fn read(&mut self, buf: &mut [u8]) -> Read {
        // SAFETY: as in write.
        let r = unsafe {
            raw::udx_read(
                self.stream,
                self.totals,
                &*self.sent,
                &mut *self.held,
                &*self.queue,
                self.outgoing.as_ptr(),
                self.outgoing.len(),
                self.incoming.as_ptr(),
                self.incoming.len(),
                self.headers.as_ptr(),
                self.headers.len(),
                buf.as_mut_ptr(),
                buf.len(),
            )
        };
        match self.after(r) {
            Err(why) => Read::Ended(r.count, why),
            Ok(_) if r.outcome == 0 => Read::Ready(r.count),
            Ok(_) => Read::Wait(r.count),
        }
    }

    /// Ends the stream in both directions at once; the next drive has a state packet for the other end. That packet is not resent if the
    /// line loses it: another close queues another one. What is not acknowledged yet may be lost (see 'The end of a stream' in the crate's
    /// documentation). Refusals 5, 6 and 13.
    pub fn close(&mut self) -> Result<(), Refusal> {
        // SAFETY: as in write.
        let r = unsafe {
            raw::udx_close(
                self.stream,
                self.totals,
                &*self.sent,
                &*self.held,
                &mut *self.queue,
                self.outgoing.as_ptr(),
                self.outgoing.len(),
                self.incoming.as_ptr(),
                self.incoming.len(),
                self.headers.as_mut_ptr(),
                self.headers.len(),
            )
        };
        self.after(r).map(|_| ())
    }

    /// When to drive at the latest: the retransmission timer, on the caller's clock. `None` while nothing waits for an acknowledgement.
    ///
    /// ```
    /// # use std::time::Duration;
    /// # use udx::Stream;
    /// let mut s = Stream::open(1, 2, 10, Duration::from_secs(5))?;
    /// assert_eq!(s.deadline(), None);
    /// let _ = s.write(b"AAA")?;
    /// assert_eq!(s.deadline(), Some(Duration::from_secs(6)));
    /// # Ok::<(), udx::Refusal>(())
    /// ```
    pub fn deadline(&self) -> Option<Duration> {
        let waits = self.stream.sender.remote_acked != self.stream.sender.seq;
        waits.then(|| Duration::from_nanos(self.stream.timing.deadline))
    }

    /// Why the stream ended, if it has.
    pub fn error(&self) -> Option<StreamError> {
        match self.stream.ending.error {
            1 => Some(StreamError::ConnectionReset),
            2 => Some(StreamError::UnexpectedEof),
            3 => Some(StreamError::TimedOut),
            _ => None,
        }
    }

    /// Which sides are closed.
    pub fn state(&self) -> EndState {
        match self.stream.ending.state {
            1 => EndState::LocalClosed,
            2 => EndState::RemoteClosed,
            3 => EndState::BothClosed,
            _ => EndState::Open,
        }
    }

    /// Entries in the send queue: those for the next drive, or what is left to take of the last one.
    ///
    /// ```
    /// # use std::time::Duration;
    /// # use udx::Stream;
    /// let mut s = Stream::open(1, 2, 10, Duration::ZERO)?;
    /// assert_eq!(s.queued(), 0);
    /// s.close()?;
    /// assert_eq!(s.queued(), 1);
    /// # Ok::<(), udx::Refusal>(())
    /// ```
    pub fn queued(&self) -> usize {
        let q = self.stream.queue;
        (if q.left > 0 { q.left } else { q.count }) as usize
    }

    /// Whether a drive has returned [`Driven::Done`].
    pub fn is_done(&self) -> bool {
        self.stream.ending.ended == 1
    }

    pub fn totals(&self) -> Totals {
        let t = self.totals;
        Totals {
            tx_packets: t.tx_packets,
            tx_bytes: t.tx_bytes,
            rx_packets: t.rx_packets,
            rx_bytes: t.rx_bytes,
            inflight_packets: t.inflight_packets,
            inflight_bytes: t.inflight_bytes,
        }
    }

    /// The ids of this end and of the other one.
    pub fn ids(&self) -> (u32, u32) {
        (self.stream.ids.local, self.stream.ids.remote)
    }

    /// The congestion window in bytes.
    pub fn window(&self) -> u32 {
        self.stream.sender.cwnd
    }

    /// Bytes in flight.
    pub fn inflight(&self) -> u32 {
        self.stream.sender.inflight
    }

    /// The smoothed round-trip time, once there is a sample.
    pub fn round_trip(&self) -> Option<Duration> {
        let srtt = self.stream.timing.srtt;
        (srtt != 0).then(|| Duration::from_nanos(srtt))
    }

    /// The retransmission timeout: how long after a drive that settled an acknowledgement the timer is due.
    pub fn rto(&self) -> Duration {
        Duration::from_nanos(self.stream.timing.rto)
    }
}

impl fmt::Debug for Stream {
    fn fmt(&self, f: &mut fmt::Formatter<'_>) -> fmt::Result {
        f.debug_struct("Stream")
            .field("stream", &self.stream)
            .field("totals", &self.totals)
            .finish_non_exhaustive()
    }
}
