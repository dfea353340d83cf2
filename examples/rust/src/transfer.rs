//! The whole transfer: two sides, the line between them, and the simulated clock.
//!
//! The loop to copy is [`Transfer::carry_all`] with the functions it calls: the round of a caller of crate `udx`, for two ends at once.
//! With a real socket `line.send` becomes a send, `wait_for_event` a poll with a timeout, and the simulated clock a monotonic one.
use crate::failure::{failed, refused, Failure};
use crate::line::{Arrival, Habits, Line};
use crate::log::Log;
use crate::options::Options;
use crate::report::{grouped, Watch};
use crate::source::{Checksum, Source};
use std::time::Duration;
use udx::{Driven, Header, Read, Refusal, Stream, StreamError, Written, TAKE_ROOM};

pub const HUB: usize = 0;
pub const GATEWAY: usize = 1;

/// Most that a stream accepts before something is acknowledged, and most that a read puts: 32 payloads.
const FULL_STREAM: usize = 32 * 1380;
const OUTBOX_ROOM: usize = 6 * FULL_STREAM;
/// Most datagrams in a batch.
const SEGMENTS: u8 = 10;
/// Two are enough: one sends the END, the next finds nothing left.
const CLOSING_ROUNDS: u32 = 8;
/// Consecutive streams without a byte read: the line carries too little.
const IDLE_STREAMS: u64 = 1000;
/// Rounds between two looks at the wall clock.
const WATCH_EVERY: u64 = 256;
/// The two sides send different samples, so that no mix-up goes unseen.
const GATEWAY_SAMPLE: u64 = 500_000_000;

/// Bytes that are ready to be written: a write accepts their front, the others wait here.
struct Outbox {
    bytes: Vec<u8>,
    start: usize, // of those that wait
    next: u64,    // offset in the source of the byte after the last one here
}

impl Outbox {
    fn from(offset: u64) -> Outbox {
        Outbox {
            bytes: Vec::with_capacity(OUTBOX_ROOM),
            start: 0,
            next: offset,
        }
    }

    fn waiting(&self) -> &[u8] {
        &self.bytes[self.start..]
    }

    /// Offset in the source of the first byte that waits.
    fn offset(&self) -> u64 {
        self.next - self.waiting().len() as u64
    }

    /// Keeps enough ready for a whole window, so that no packet is cut short by the end of the buffer.
    fn fill(&mut self, source: &Source) -> Result<(), Failure> {
        let waiting = self.waiting().len();
        let left = source.length() - self.next;
        if waiting >= FULL_STREAM || left == 0 {
            return Ok(());
        }
        self.bytes.drain(..self.start);
        self.start = 0;
        let more = usize::try_from(left).unwrap_or(OUTBOX_ROOM).min(OUTBOX_ROOM - waiting);
        self.bytes.resize(waiting + more, 0);
        source.bytes(self.next, &mut self.bytes[waiting..])?;
        self.next += more as u64;
        Ok(())
    }
}

#[derive(Default)]
pub struct Counts {
    pub bytes_again: u64, // written again, on a fresh stream
    pub data: u64,        // packets taken: with data for the first time, again, and without
    pub resent: u64,
    pub states: u64,
    pub lost: u64, // by the line, of what this side sent
    pub repeated: u64,
    pub held: u64,
    pub delivered: u64,     // to this side
    pub refused: [u64; 18], // of them, by the refusal's number
    pub timeouts: u64,      // drives that found the timer due
}

pub struct Side {
    pub stream: Stream,
    woken: bool, // something has happened since its last drive
    pub source: Source,
    outbox: Outbox,
    next_data: u32, // number of the next data packet that is sent for the first time
    pub sent: u64,  // bytes of its own source accepted at least once
    pub read: u64,  // bytes of the other side's source read
    pub of_sent: Checksum,
    pub of_read: Checksum,
    pub wrong_at: Option<u64>, // the first offset at which a byte read was not the byte sent
    pub counts: Counts,
}

pub struct Transfer {
    pub sides: [Side; 2],
    pub line: Line,
    log: Log,
    pub clock: u64,   // simulated, nanoseconds
    datagrams: u64,   // taken so far: the next one's number in the log
    pub streams: u64, // opened so far
    read_at_open: u64,
    idle_streams: u64,
    pub done: bool, // both ends were closed and driven until they were done
    batch: Vec<u8>,
    got: Vec<u8>,
    expected: Vec<u8>,
}

impl Side {
    fn new(source: Source) -> Result<Side, Failure> {
        Ok(Side {
            stream: open_stream(0, HUB, 0)?,
            woken: true,
            source,
            outbox: Outbox::from(0),
            next_data: 0,
            sent: 0,
            read: 0,
            of_sent: Checksum::of_nothing(),
            of_read: Checksum::of_nothing(),
            wrong_at: None,
            counts: Counts::default(),
        })
    }

    /// Compares with the source, generated again at this offset, and finds the first wrong byte.
    fn check_bytes(&mut self, from: &Source, got: &[u8], expected: &mut [u8]) -> Result<(), Failure> {
        if got.len() as u64 > from.length() - self.read {
            return Err(failed("more bytes were read than were sent"));
        }
        from.bytes(self.read, expected)?;
        if self.wrong_at.is_none() && got != expected {
            let at = got.iter().zip(expected.iter()).take_while(|(a, b)| a == b).count();
            self.wrong_at = Some(self.read + at as u64);
        }
        Ok(())
    }

    /// Counts a packet by its header; new ones come in the order of their numbers. Returns whether it has data.
    fn count_packet(&mut self, header: &Header) -> bool {
        let is_data = header.typ & Header::DATA != 0;
        if !is_data {
            self.counts.states += 1;
        } else if header.seq < self.next_data {
            self.counts.resent += 1;
        } else {
            self.counts.data += 1;
            self.next_data = header.seq + 1;
        }
        is_data
    }

    /// The checksum counts each byte once, even if a fresh stream sends it again.
    fn note_written(&mut self, count: usize) {
        let known = (self.sent - self.outbox.offset()).min(count as u64) as usize;
        self.of_sent.add(&self.outbox.waiting()[known..count]);
        self.sent += (count - known) as u64;
        self.counts.bytes_again += known as u64;
        self.outbox.start += count;
    }

    /// Returns whether anything was accepted: then there is something new to drive.
    fn write_more(&mut self) -> Result<bool, Failure> {
        self.outbox.fill(&self.source)?;
        if self.outbox.waiting().is_empty() || self.stream.error().is_some() {
            return Ok(false);
        }
        match self.stream.write(self.outbox.waiting()).map_err(refused("write"))? {
            Written::Wait => Ok(false),
            Written::Accepted(count) => {
                self.note_written(count);
                Ok(true)
            }
        }
    }

    /// Whether the timer is running and due.
    fn is_due(&self, clock: u64) -> bool {
        self.stream
            .deadline()
            .is_some_and(|deadline| deadline <= Duration::from_nanos(clock))
    }
}

/// Ids that no earlier stream had, so that datagrams still on the line are refused.
fn open_stream(number: u64, end: usize, clock: u64) -> Result<Stream, Failure> {
    let first = 2 * number as u32 + 1;
    let (local, remote) = (first + end as u32, first + 1 - end as u32);
    Stream::open(local, remote, SEGMENTS, Duration::from_nanos(clock)).map_err(refused("open"))
}

impl Transfer {
    pub fn new(options: &Options) -> Result<Transfer, Failure> {
        let samples = |first, length| Source::Samples { first, length };
        let hub = match &options.file {
            Some(path) => Source::of_file(path)?,
            None => samples(0, options.bytes()),
        };
        let gateway = match (options.both, &options.file) {
            (false, _) => samples(0, 0),
            (true, Some(_)) => hub.clone(),
            (true, None) => samples(GATEWAY_SAMPLE, options.bytes()),
        };
        let habits = Habits {
            loss: options.loss,
            repeat: options.repeat,
            reorder: options.reorder,
            delay: options.delay,
        };
        Ok(Transfer {
            sides: [Side::new(hub)?, Side::new(gateway)?],
            line: Line::new(habits, options.seed),
            log: Log::open(options.log.as_deref(), options.file.as_deref())?,
            clock: 0,
            datagrams: 0,
            streams: 0,
            read_at_open: 0,
            idle_streams: 0,
            done: false,
            batch: vec![0; TAKE_ROOM],
            got: vec![0; FULL_STREAM],
            expected: vec![0; FULL_STREAM],
        })
    }

    pub fn bytes_in_all(&self) -> u64 {
        self.sides.iter().map(|side| side.source.length()).sum()
    }

    pub fn bytes_read(&self) -> u64 {
        self.sides.iter().map(|side| side.read).sum()
    }

    fn now(&self) -> Duration {
        Duration::from_nanos(self.clock)
    }

    // 1. Deliver and read what came in.

    /// Reads until a read puts nothing. A read can put bytes whatever it returns, so the count is checked in each case, and the error last.
    fn read_all(&mut self, i: usize) -> Result<(), Failure> {
        let [hub, gateway] = &mut self.sides;
        let (side, other) = if i == HUB { (hub, gateway) } else { (gateway, hub) };
        loop {
            let answer = side.stream.read(&mut self.got);
            let got = &self.got[..answer.count()];
            side.check_bytes(&other.source, got, &mut self.expected[..got.len()])?;
            side.of_read.add(got);
            side.read += got.len() as u64;
            match answer {
                Read::Ready(0) | Read::Wait(0) => return Ok(()),
                Read::Ended(0, why) => return Err(refused("read")(why)),
                _ => {}
            }
        }
    }

    /// A refused datagram is dropped: it belongs to an earlier stream, or will be resent. Any other refusal would be a bug in this program.
    fn deliver(&mut self, arrival: &Arrival) -> Result<(), Failure> {
        let (now, side) = (self.now(), &mut self.sides[arrival.to]);
        let answer = side.stream.deliver(&arrival.bytes, now);
        side.woken = true;
        side.counts.delivered += 1;
        self.log.datagram(self.clock, "came", arrival.to, arrival.id)?;
        let Err(why) = answer else {
            return Ok(());
        };
        side.counts.refused[usize::from(why.number())] += 1;
        self.log.refused(self.clock, arrival.to, arrival.id, why.number())?;
        match why {
            Refusal::OtherStream | Refusal::PastIncoming | Refusal::StateQueueFull => Ok(()),
            _ => Err(refused("deliver")(why)),
        }
    }

    /// Delivers everything that has arrived by now, then reads: bytes are read before the stream can fail.
    fn deliver_arrived(&mut self) -> Result<(), Failure> {
        while let Some(arrival) = self.line.take(self.clock) {
            self.deliver(&arrival)?;
            self.line.release(arrival);
        }
        for i in [HUB, GATEWAY] {
            if self.sides[i].woken {
                self.read_all(i)?;
            }
        }
        Ok(())
    }

    // 2. and 3. Drive, which decides what goes out; take and send all of it.

    /// A drive settles first, and settling restarts the timer: the timer was due only if nothing left the store.
    fn drive(&mut self, i: usize) -> Result<(), Failure> {
        let (now, side) = (self.now(), &mut self.sides[i]);
        let due = side.is_due(self.clock);
        let stored = side.stream.totals().inflight_packets;
        let _ = side.stream.drive(now).map_err(refused("drive"))?;
        if due && side.stream.totals().inflight_packets == stored {
            side.counts.timeouts += 1;
            self.log.end(self.clock, "timeout", i)?;
        }
        self.log.numbers(self.clock, i, &side.stream)
    }

    /// A program with a socket sends here.
    fn send_datagram(&mut self, from: usize, datagram: &[u8]) -> Result<(), Failure> {
        let (id, side) = (self.datagrams, &mut self.sides[from]);
        self.datagrams += 1;
        let header = Header::decode(datagram).map_err(refused("decode"))?;
        let is_data = side.count_packet(&header);
        let number = if is_data { header.seq } else { header.ack };
        self.log.sent(self.clock, from, id, is_data, number, datagram.len())?;
        let fate = self.line.send(self.clock, 1 - from, id, datagram);
        side.counts.lost += u64::from(fate.lost);
        side.counts.repeated += u64::from(fate.repeated);
        side.counts.held += u64::from(fate.held);
        if fate.lost {
            self.log.datagram(self.clock, "lost", from, id)?;
        }
        Ok(())
    }

    /// Until a take returns `None`, writes, deliveries, drives and closes are refused.
    fn send_all(&mut self, from: usize) -> Result<(), Failure> {
        let mut buf = std::mem::take(&mut self.batch); // its own variable while self sends
        while let Some(batch) = self.sides[from].stream.take(&mut buf).map_err(refused("take"))? {
            for datagram in batch.datagrams() {
                self.send_datagram(from, datagram)?;
            }
        }
        self.batch = buf;
        Ok(())
    }

    /// A drive that settles makes room in the window. So what is pending is written after it, and then needs another drive.
    fn drive_and_send(&mut self, i: usize) -> Result<(), Failure> {
        self.sides[i].woken = false;
        loop {
            self.drive(i)?;
            self.send_all(i)?;
            if !self.sides[i].write_more()? {
                return Ok(());
            }
        }
    }

    fn drive_woken(&mut self) -> Result<(), Failure> {
        for i in [HUB, GATEWAY] {
            if self.sides[i].woken || self.sides[i].is_due(self.clock) {
                self.drive_and_send(i)?;
            }
        }
        Ok(())
    }

    // 4. Nothing is left to do at this clock: wait.

    /// The next arrival or the next deadline. A stream has a deadline only while something is unacknowledged.
    fn wait_for_event(&mut self) -> Result<(), Failure> {
        let deadlines = self.sides.iter().filter_map(|side| side.stream.deadline());
        let arrival = self.line.next_time().map(Duration::from_nanos);
        let next = deadlines.chain(arrival).min();
        let next = next.ok_or_else(|| failed("nothing is under way and no timer runs"))?;
        self.clock = self.clock.max(next.as_nanos() as u64);
        Ok(())
    }

    // What a stream needs besides its rounds: opening, failing, ending.

    /// On a line that lets nothing through the run would never end.
    fn stop_if_idle(&mut self) -> Result<(), Failure> {
        let read = self.bytes_read();
        let idle = self.streams > 0 && read == self.read_at_open;
        self.idle_streams = if idle { self.idle_streams + 1 } else { 0 };
        self.read_at_open = read;
        if self.idle_streams == IDLE_STREAMS {
            let count = grouped(IDLE_STREAMS);
            return Err(failed(format!(
                "{count} streams one after another failed before a byte was read: the line carries too little"
            )));
        }
        Ok(())
    }

    /// Each direction continues at the first byte that its receiver has not read; on a real line the receiver tells the sender that offset.
    fn open_streams(&mut self) -> Result<(), Failure> {
        self.stop_if_idle()?;
        for i in [HUB, GATEWAY] {
            let offset = self.sides[1 - i].read;
            let side = &mut self.sides[i];
            side.stream = open_stream(self.streams, i, self.clock)?;
            side.woken = true;
            side.next_data = 0;
            side.outbox = Outbox::from(offset);
        }
        self.streams += 1;
        Ok(())
    }

    /// The first side whose stream has ended with TimedOut.
    fn timed_out(&self) -> Option<usize> {
        self.sides
            .iter()
            .position(|side| side.stream.error() == Some(StreamError::TimedOut))
    }

    /// Only then may a side close: what is not acknowledged could be lost.
    fn all_acknowledged(&self) -> bool {
        let [hub, gateway] = &self.sides;
        let all_read = gateway.read == hub.source.length() && hub.read == gateway.source.length();
        all_read && self.sides.iter().all(|side| side.stream.deadline().is_none())
    }

    /// The whole transfer. On a bad line it is normal for a stream to fail: what was read is right, and a fresh one carries the rest.
    pub fn carry_all(&mut self, watch: &mut Watch) -> Result<(), Failure> {
        self.open_streams()?;
        for round in 1u64.. {
            self.deliver_arrived()?;
            self.drive_woken()?;
            if let Some(failed) = self.timed_out() {
                self.log.end(self.clock, "failed", failed)?;
                self.open_streams()?;
            } else if self.all_acknowledged() {
                break;
            } else {
                self.wait_for_event()?;
            }
            if round % WATCH_EVERY == 0 {
                watch.look(self)?;
            }
        }
        Ok(())
    }

    /// A drive returns `Done` once the END has been taken and nothing is left to resend.
    fn drive_until_done(&mut self, i: usize) -> Result<bool, Failure> {
        for _ in 0..CLOSING_ROUNDS {
            let now = self.now();
            if self.sides[i].stream.drive(now).map_err(refused("drive"))? == Driven::Done {
                return Ok(true);
            }
            self.send_all(i)?;
        }
        Ok(false)
    }

    /// Both sides close: an END that the line loses is not resent, so neither waits for the other's.
    pub fn close_both(&mut self) -> Result<(), Failure> {
        for side in &mut self.sides {
            side.stream.close().map_err(refused("close"))?;
        }
        let (hub, gateway) = (self.drive_until_done(HUB)?, self.drive_until_done(GATEWAY)?);
        self.done = hub && gateway;
        self.log.close()
    }
}
