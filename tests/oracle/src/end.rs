//! One end: the original's stream, with 01's ceilings, refusals and stand-ins in front of it. A child of the original's stream
//! module, so that it sees the private fields and calls the private functions.

use super::*;
use crate::engine::{self, End, Engine, Fields, Numbers, Outcome, Stored, Taken, View};
use crate::shim;
use crate::socket::UdxSocketInner;

pub const ENGINE: Engine = Engine { open, encode, decode };

const CLOCK_END: u64 = 1 << 60;
const STORE_SLOTS: u32 = 32;
const LAST_NUMBER: u32 = u32::MAX;
const MAX_BATCH: usize = 14_000;
const WINDOW_MAX: usize = u32::MAX as usize;
/// The fewest queued state packets at which a delivery, and a close, is refused.
const DELIVER_STATES: usize = 62;
const CLOSE_STATES: usize = 63;

struct Stream {
    stream: UdxStream,
    /// Kept because a dropped driver would terminate the stream.
    _driver: Option<Box<dyn std::any::Any>>,
    socket: UdxSocketInner,
    ceiling: u8,
    /// Batches of the last drive that are left to take.
    sets: VecDeque<PacketSet>,
    /// The largest ack delivered since the last drive: the Rust finds it in its channel, from which deliver has taken the packets.
    largest_ack: u32,
    last_clock: u64,
    drive_clock: u64,
    ended: bool,
}

fn open(local: u32, remote: u32, ceiling: u8, clock: u64) -> Result<Box<dyn End>, u8> {
    if !(1..=10).contains(&ceiling) {
        return Err(3);
    }
    if clock >= CLOCK_END {
        return Err(4);
    }
    Ok(Box::new(Stream::connect(local, remote, ceiling, clock)))
}

fn encode(fields: Fields, buf: &mut [u8]) -> Outcome {
    let header = Header {
        typ: fields.typ.into(),
        data_offset: fields.offset.into(),
        stream_id: fields.id,
        recv_win: fields.window,
        seq: fields.seq,
        ack: fields.ack,
    };
    if header.encode(buf) { Outcome::Ok } else { Outcome::Refused(2) }
}

fn decode(bytes: &[u8]) -> Option<Fields> {
    let header = Header::from_bytes(bytes).ok()?;
    Some(Fields {
        typ: header.typ.try_into().unwrap(),
        offset: header.data_offset.try_into().unwrap(),
        id: header.stream_id,
        window: header.recv_win,
        seq: header.seq,
        ack: header.ack,
    })
}

/// 14, 15 and 16, the original's own answer.
fn refusal_of(error: &io::Error) -> Outcome {
    Outcome::Refused(match error.kind() {
        io::ErrorKind::ConnectionReset => 14,
        io::ErrorKind::UnexpectedEof => 15,
        io::ErrorKind::TimedOut => 16,
        kind => panic!("an error that 01 has no number for: {kind}"),
    })
}

fn nanos(span: Duration) -> u64 {
    span.as_nanos().try_into().unwrap()
}

impl Stream {
    fn connect(local: u32, remote: u32, ceiling: u8, clock: u64) -> Self {
        shim::set_clock(clock);
        let mut socket = UdxSocketInner::detached(ceiling.into());
        let stream = socket.connect(shim::udp::nowhere(), local, remote).unwrap();
        Self {
            stream,
            _driver: shim::task::spawned(),
            socket,
            ceiling,
            sets: VecDeque::new(),
            largest_ack: 0,
            last_clock: clock,
            drive_clock: clock,
            ended: false,
        }
    }

    fn inner(&self) -> MutexGuard<'_, UdxStreamInner> {
        self.stream.lock("oracle")
    }

    /// Queue entries left to take.
    fn left(&self) -> usize {
        self.sets.iter().map(PacketSet::len).sum()
    }

    fn states(&self) -> usize {
        let queued = self.inner().send_queue.iter().filter(|p| is_state(p)).count();
        let left = self.sets.iter().flat_map(|set| &set.packets).filter(|p| is_state(p)).count();
        queued + left
    }

    fn bad_clock(&self, clock: u64) -> bool {
        clock >= CLOCK_END || clock < self.last_clock
    }

    /// Refusals 4 to 6 of a call with a clock.
    fn refuses_clock(&self, clock: u64) -> Option<Outcome> {
        if self.bad_clock(clock) {
            return Some(Outcome::Refused(4));
        }
        self.refuses_now()
    }

    /// Refusals 5 and 6.
    fn refuses_now(&self) -> Option<Outcome> {
        if self.ended {
            return Some(Outcome::Refused(5));
        }
        if !self.sets.is_empty() {
            return Some(Outcome::Refused(6));
        }
        None
    }

    /// Refusals 9 to 13, on a packet that process_packet let through.
    fn refuses_packet(&self, packet: &IncomingPacket) -> Option<Outcome> {
        let inner = self.inner();
        if packet.data_len() > UDX_MAX_DATA_SIZE {
            return Some(Outcome::Refused(9));
        }
        if packet.ack() > inner.seq {
            return Some(Outcome::Refused(10));
        }
        if packet.has_type(UDX_HEADER_DATA) {
            if packet.seq() == LAST_NUMBER {
                return Some(Outcome::Refused(11));
            }
            if packet.seq() as u64 >= inner.read_cursor as u64 + STORE_SLOTS as u64 {
                return Some(Outcome::Refused(12));
            }
        }
        drop(inner);
        if self.states() >= DELIVER_STATES {
            return Some(Outcome::Refused(13));
        }
        None
    }
}

fn is_state(packet: &PacketRef) -> bool {
    matches!(packet, PacketRef::Owned(_))
}

impl End for Stream {
    fn write(&mut self, bytes: &[u8]) -> (Outcome, usize) {
        if !self.sets.is_empty() {
            return (Outcome::Refused(6), 0);
        }
        let mut inner = self.inner();
        let mut offered = bytes;
        if inner.error.is_none() && !bytes.is_empty() {
            if inner.seq == LAST_NUMBER {
                return (Outcome::Refused(17), 0);
            }
            // The ceiling of the outgoing store and the last number: no more pieces than they leave room for.
            let pieces = (STORE_SLOTS - (inner.seq - inner.remote_acked)).min(LAST_NUMBER - inner.seq) as usize;
            if pieces == 0 {
                return (Outcome::Wait, 0);
            }
            offered = &bytes[..bytes.len().min(pieces * UDX_MAX_DATA_SIZE)];
        }
        let mut cx = Context::from_waker(Waker::noop());
        match Pin::new(&mut *inner).poll_write(&mut cx, offered) {
            Poll::Ready(Ok(count)) => (Outcome::Ok, count),
            Poll::Ready(Err(error)) => (refusal_of(&error), 0),
            Poll::Pending => (Outcome::Wait, 0),
        }
    }

    /// StreamDriver::poll, with the largest ack settled where poll_incoming would have found it.
    fn drive(&mut self, clock: u64) -> Outcome {
        if let Some(refusal) = self.refuses_clock(clock) {
            return refusal;
        }
        shim::set_clock(clock);
        self.last_clock = clock;
        self.drive_clock = clock;
        let mut inner = self.inner();
        if inner.closed_and_drained() {
            drop(inner);
            self.ended = true;
            return Outcome::Done;
        }
        inner.handle_incoming_max_remote_ack(self.largest_ack);
        let mut cx = Context::from_waker(Waker::noop());
        while let Err(error) = inner.poll_drive(&mut cx) {
            // The driver terminates, wakes itself and is polled again; with a state packet queued it is not drained.
            inner.terminate(error);
        }
        drop(inner);
        self.largest_ack = 0;
        self.sets = self.socket.sent();
        Outcome::Ok
    }

    fn take(&mut self, room: usize) -> Taken {
        let answer = |outcome| Taken { outcome, bytes: Vec::new(), segment: 0 };
        if room < MAX_BATCH {
            return answer(Outcome::Refused(2));
        }
        let Some(set) = self.sets.pop_front() else {
            return answer(Outcome::None);
        };
        let transmit = set.to_transmit();
        // 01's stand-in for the socket driver's mark.
        shim::set_clock(self.drive_clock);
        let inner = self.inner();
        for packet in set.iter_shared() {
            if inner.outgoing.get(&packet.seq()).is_some_and(|stored| std::ptr::eq(&**stored, packet)) {
                packet.time_sent.set_now();
                packet.transmits.fetch_add(1, Ordering::SeqCst);
            }
        }
        Taken { outcome: Outcome::Ok, bytes: transmit.contents, segment: transmit.segment_size.unwrap_or(0) }
    }

    fn deliver(&mut self, datagram: &[u8], clock: u64) -> Outcome {
        if let Some(refusal) = self.refuses_clock(clock) {
            return refusal;
        }
        shim::set_clock(clock);
        if !self.socket.accepts(datagram) {
            return Outcome::Refused(if Header::from_bytes(datagram).is_err() { 7 } else { 8 });
        }
        let Some(EventIncoming::Packet(packet)) = self.inner().recv_rx.try_recv() else {
            panic!("process_packet took a datagram and handed none on");
        };
        if let Some(refusal) = self.refuses_packet(&packet) {
            return refusal;
        }
        self.last_clock = clock;
        self.largest_ack = self.largest_ack.max(packet.ack());
        let mut inner = self.inner();
        inner.handle_incoming(packet);
        inner.cwnd = inner.cwnd.min(WINDOW_MAX);
        Outcome::Ok
    }

    fn read(&mut self, buf: &mut [u8]) -> (Outcome, usize) {
        let mut buf = tokio::io::ReadBuf::new(buf);
        let mut cx = Context::from_waker(Waker::noop());
        let outcome = match Pin::new(&mut *self.inner()).poll_read(&mut cx, &mut buf) {
            Poll::Ready(Ok(())) => Outcome::Ok,
            Poll::Ready(Err(error)) => refusal_of(&error),
            Poll::Pending => Outcome::Wait,
        };
        (outcome, buf.filled().len())
    }

    fn close(&mut self) -> Outcome {
        if let Some(refusal) = self.refuses_now() {
            return refusal;
        }
        if self.states() >= CLOSE_STATES {
            return Outcome::Refused(13);
        }
        self.inner().terminate(UdxError::close_graceful());
        Outcome::Ok
    }

    fn look(&self) -> Vec<u8> {
        let mut left = self.sets.iter().flat_map(|set| &set.packets);
        match left.find(|packet| !packet.skip.load(Ordering::SeqCst)) {
            Some(packet) => packet.buf.as_slice().to_vec(),
            None => Vec::new(),
        }
    }

    fn base(&mut self, seq: u32, ack: u32, window: u32) -> Outcome {
        let idle = self.sets.is_empty() && self.largest_ack == 0;
        let mut inner = self.inner();
        let empty = inner.send_queue.is_empty() && inner.outgoing.is_empty() && inner.incoming.is_empty();
        let unread = inner.ack != inner.read_cursor;
        if !idle || !empty || unread || inner.error.is_some() || (window as usize) < UDX_MTU {
            return Outcome::None;
        }
        inner.seq = seq;
        inner.remote_acked = seq;
        inner.ack = ack;
        inner.read_cursor = ack;
        inner.cwnd = window as usize;
        Outcome::Ok
    }

    fn numbers(&self) -> Numbers {
        let inner = self.inner();
        let stats = &inner.stats;
        let totals = [
            stats.tx_packets,
            stats.tx_bytes,
            stats.rx_packets,
            stats.rx_bytes,
            stats.inflight_packets,
            stats.inflight_bytes,
        ];
        let error = inner.error.clone().map(|error| refusal_of(&error.into()));
        Numbers {
            seq: inner.seq.into(),
            remote_acked: inner.remote_acked.into(),
            largest_ack: self.largest_ack.into(),
            inflight: inner.inflight as u64,
            window: inner.cwnd as u64,
            ack: inner.ack.into(),
            read_cursor: inner.read_cursor.into(),
            srtt: nanos(inner.srtt),
            rttvar: nanos(inner.rttvar),
            rto: nanos(inner.rto),
            deadline: nanos(inner.rto_timeout.deadline().0),
            error: match error {
                Some(Outcome::Refused(number)) => number as u64 - 13,
                _ => 0,
            },
            state: inner.state.local_closed() as u64 + 2 * inner.state.remote_closed() as u64,
            ended: self.ended as u64,
            queued: (inner.send_queue.len() + self.left()) as u64,
            left: self.left() as u64,
            totals: totals.map(|total| total as u64),
        }
    }

    fn view(&self) -> View {
        let inner = self.inner();
        let mut stored: Vec<Stored> = inner
            .outgoing
            .values()
            .map(|packet| Stored {
                number: packet.seq(),
                length: packet.len(),
                waiting: packet.waiting.load(Ordering::SeqCst),
                transmits: packet.transmits.load(Ordering::SeqCst),
            })
            .collect();
        stored.sort_by_key(|packet| packet.number);
        let held = inner.incoming.iter().map(|(number, p)| (*number, p.data_len(), p.read_offset)).collect();
        let (local_id, remote_id) = (inner.local_id, inner.remote_id);
        drop(inner);
        View {
            local_id,
            remote_id,
            last_clock: self.last_clock,
            states: self.states(),
            stored,
            held,
            numbers: self.numbers(),
        }
    }

    fn copy(&self) -> Box<dyn End> {
        let from = self.inner();
        let mut copy = Self::connect(from.local_id, from.remote_id, self.ceiling, self.last_clock);
        copy.largest_ack = self.largest_ack;
        copy.drive_clock = self.drive_clock;
        copy.ended = self.ended;
        let mut to = copy.inner();
        // A packet that is in several places is one packet in the copy too.
        let mut copies: HashMap<*const Packet, Arc<Packet>> = HashMap::new();
        let mut shared = |packet: &Arc<Packet>| {
            copies.entry(Arc::as_ptr(packet)).or_insert_with(|| Arc::new(copy_packet(packet))).clone()
        };
        to.outgoing = from.outgoing.iter().map(|(number, packet)| (*number, shared(packet))).collect();
        let mut entry = |packet: &PacketRef| match packet {
            PacketRef::Owned(packet) => PacketRef::Owned(copy_packet(packet)),
            PacketRef::Shared(packet) => PacketRef::Shared(shared(packet)),
        };
        to.send_queue = from.send_queue.iter().map(&mut entry).collect();
        let sets = self
            .sets
            .iter()
            .map(|set| {
                let size = set.packets[0].buf.len();
                PacketSet::new(from.remote_addr, set.packets.iter().map(&mut entry).collect(), size)
            })
            .collect();
        to.incoming = from
            .incoming
            .iter()
            .map(|(number, packet)| {
                let IncomingPacket { header, buf, read_offset, from } = packet;
                let copy = IncomingPacket { header: header.clone(), buf: buf.clone(), read_offset: *read_offset, from: *from };
                (*number, copy)
            })
            .collect();
        to.seq = from.seq;
        to.ack = from.ack;
        to.remote_acked = from.remote_acked;
        to.inflight = from.inflight;
        to.cwnd = from.cwnd;
        to.rto = from.rto;
        to.rto_timeout.as_mut().reset(from.rto_timeout.deadline());
        to.rttvar = from.rttvar;
        to.srtt = from.srtt;
        to.read_cursor = from.read_cursor;
        to.error = from.error.clone();
        to.stats = from.stats.clone();
        to.state = match from.state {
            StreamState::Open => StreamState::Open,
            StreamState::LocalClosed => StreamState::LocalClosed,
            StreamState::RemoteClosed => StreamState::RemoteClosed,
            StreamState::BothClosed => StreamState::BothClosed,
        };
        drop(to);
        copy.sets = sets;
        Box::new(copy)
    }
}

fn copy_packet(packet: &Packet) -> Packet {
    let copy = Packet::new(packet.dest, packet.header.clone(), &packet.buf.as_slice()[crate::constants::UDX_HEADER_SIZE..]);
    copy.skip.store(packet.skip.load(Ordering::SeqCst), Ordering::SeqCst);
    copy.waiting.store(packet.waiting.load(Ordering::SeqCst), Ordering::SeqCst);
    copy.transmits.store(packet.transmits.load(Ordering::SeqCst), Ordering::SeqCst);
    Packet { time_sent: packet.time_sent.copy(), ..copy }
}
