//! The driver: packets go from one end to the other, are read and acknowledged, over a line that may lose datagrams. The same code for
//! every engine, compiled for each.

use crate::end::{Driven, End, HEADER};
use crate::line::{Losses, Source};
use crate::watch::{Call, Watch};

/// Nanoseconds that a datagram takes to arrive.
const ONE_WAY: u64 = 5_000_000;

/// Packets of `size` bytes; at most `flight` of them are written before all are acknowledged.
#[derive(Clone, Copy)]
pub struct Load {
    pub size: usize,
    pub flight: usize,
}

/// What has happened: the same for every engine, or one of them is wrong.
#[derive(Clone, Copy, Debug, Default, PartialEq, Eq)]
pub struct Counts {
    pub rounds: u64,
    /// Packets that were read.
    pub packets: u64,
    /// Datagrams taken, in both directions.
    pub datagrams: u64,
    /// Drives at the deadline of a packet that was not acknowledged.
    pub timeouts: u64,
    /// Streams that ended with TimedOut; a fresh pair of ends continued.
    pub failures: u64,
    /// The final clock.
    pub clock: u64,
}

/// What to do after the hub was driven and its datagrams sent.
enum Next {
    Answer,
    WaitFor(u64),
    Settled,
    Failed,
}

const QUEUES: [Call; 3] = [Call::DriveQueues, Call::TakeData, Call::DeliverData];
const SETTLES: [Call; 3] = [Call::DriveSettles, Call::TakeNone, Call::DeliverData];

/// The datagrams in transit, and which of them are lost.
struct Line<'a, E: End> {
    taken: E::Line,
    losses: &'a Losses,
    place: usize,
}

impl<E: End> Line<'_, E> {
    /// Carries all that one end has to take to the other; returns how many datagrams of this size.
    fn carry<W: Watch>(&mut self, from: &mut E, to: &mut E, size: usize, counts: &mut Counts, calls: [Call; 2], watch: &mut W) -> usize {
        let count = from.take(&mut self.taken, size);
        watch.lap(calls[0]);
        if count != 0 {
            counts.datagrams += count as u64;
            counts.clock += ONE_WAY;
            to.deliver(&self.taken, size, self.losses.next(&mut self.place, count), counts.clock);
            watch.lap(calls[1]);
        }
        count
    }
}

pub struct Run<'a, E: End> {
    hub: E,
    tower: E,
    line: Line<'a, E>,
    load: Load,
    source: &'a Source,
    /// What the last round read: bytes of `got`, and the number of their first packet.
    got: Vec<u8>,
    read: usize,
    first: u64,
    pub counts: Counts,
}

impl<'a, E: End> Run<'a, E> {
    pub fn new(load: Load, source: &'a Source, losses: &'a Losses) -> Self {
        let line = Line {
            taken: E::line(),
            losses,
            place: 0,
        };
        // Room for one packet more than a round has, so that the last read is made and finds none.
        let got = vec![0; (load.flight + 1) * load.size];
        Run {
            hub: E::open(0),
            tower: E::open(0),
            line,
            load,
            source,
            got,
            read: 0,
            first: 0,
            counts: Counts::default(),
        }
    }

    /// Runs rounds until this many more packets were read.
    pub fn packets<W: Watch>(&mut self, more: u64, watch: &mut W) {
        let end = self.counts.packets + more;
        while self.counts.packets < end {
            self.round(watch);
        }
    }

    /// Whether the last round read what was written.
    pub fn is_right(&self) -> bool {
        self.got[..self.read] == *self.sent(self.read)
    }

    /// The bytes of the last round's packets.
    fn sent(&self, length: usize) -> &'a [u8] {
        self.source.part(self.first * self.load.size as u64, length)
    }

    /// Writes packets as the window allows; datagrams go back and forth until all packets are settled or the stream fails. A fresh pair
    /// of ends then continues at the first byte that was not read.
    fn round<W: Watch>(&mut self, watch: &mut W) {
        let Load { size, flight } = self.load;
        self.first = self.counts.packets;
        self.read = 0;
        let sent = self.sent(size * flight);
        watch.start();
        let written = self.hub.write(sent, size);
        watch.lap(Call::Write);
        let mut next = self.send(QUEUES, watch);
        loop {
            next = match next {
                Next::Answer => {
                    self.answer(watch);
                    self.send(SETTLES, watch)
                }
                Next::WaitFor(deadline) => {
                    self.counts.timeouts += 1;
                    self.counts.clock = self.counts.clock.max(deadline);
                    self.send(QUEUES, watch)
                }
                Next::Settled => {
                    assert!(self.read == written && written != 0, "not all was read that was acknowledged");
                    break;
                }
                Next::Failed => {
                    self.open_again();
                    break;
                }
            };
        }
        self.counts.rounds += 1;
        self.counts.packets += (self.read / size) as u64;
        watch.read(&self.got[..self.read], &sent[..self.read]);
    }

    fn send<W: Watch>(&mut self, [drive, take, deliver]: [Call; 3], watch: &mut W) -> Next {
        let driven = self.hub.drive(self.counts.clock);
        watch.lap(drive);
        if driven == Driven::Failed {
            return Next::Failed;
        }
        let size = HEADER + self.load.size;
        let calls = [take, deliver];
        let moved = self
            .line
            .carry(&mut self.hub, &mut self.tower, size, &mut self.counts, calls, watch);
        match (driven, moved) {
            (Driven::Waits(deadline), 0) => Next::WaitFor(deadline),
            (_, 0) => Next::Settled,
            _ => Next::Answer,
        }
    }

    /// The tower reads what is there in order, and its acknowledgements go back.
    fn answer<W: Watch>(&mut self, watch: &mut W) {
        self.read += self.tower.read(&mut self.got[self.read..], self.load.size);
        watch.lap(Call::Read);
        self.tower.drive(self.counts.clock);
        watch.lap(Call::DriveAnswers);
        let calls = [Call::TakeAcks, Call::DeliverAcks];
        self.line
            .carry(&mut self.tower, &mut self.hub, HEADER, &mut self.counts, calls, watch);
    }

    fn open_again(&mut self) {
        self.counts.failures += 1;
        self.hub = E::open(self.counts.clock);
        self.tower = E::open(self.counts.clock);
    }
}
