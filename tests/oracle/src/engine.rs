//! What a script needs of an end, whichever version of the original is behind it.

/// What a call returns. `Refused` has 01's number.
#[derive(Debug, Clone, Copy, PartialEq, Eq, Hash)]
pub enum Outcome {
    Ok,
    Wait,
    Done,
    None,
    Refused(u8),
}

impl std::fmt::Display for Outcome {
    fn fmt(&self, f: &mut std::fmt::Formatter<'_>) -> std::fmt::Result {
        match self {
            Outcome::Ok => write!(f, "ok"),
            Outcome::Wait => write!(f, "wait"),
            Outcome::Done => write!(f, "done"),
            Outcome::None => write!(f, "none"),
            Outcome::Refused(number) => write!(f, "{number}"),
        }
    }
}

pub struct Taken {
    pub outcome: Outcome,
    pub bytes: Vec<u8>,
    /// 0 if the batch has none.
    pub segment: usize,
}

/// A stored packet, as the generator sees it.
pub struct Stored {
    pub number: u32,
    pub length: usize,
    pub waiting: bool,
    pub transmits: usize,
}

/// What the generator chooses its next command by.
pub struct View {
    pub local_id: u32,
    pub remote_id: u32,
    pub last_clock: u64,
    /// State packets in the queue.
    pub states: usize,
    pub stored: Vec<Stored>,
    /// Number, length and read offset of each held packet, ascending.
    pub held: Vec<(u32, usize, usize)>,
    pub numbers: Numbers,
}

/// The numbers of DRILL.md's command 15, in its order.
#[derive(Debug, Clone, PartialEq, Eq)]
pub struct Numbers {
    pub seq: u64,
    pub remote_acked: u64,
    pub largest_ack: u64,
    pub inflight: u64,
    pub window: u64,
    pub ack: u64,
    pub read_cursor: u64,
    pub srtt: u64,
    pub rttvar: u64,
    pub rto: u64,
    pub deadline: u64,
    pub error: u64,
    pub state: u64,
    pub ended: u64,
    pub queued: u64,
    pub left: u64,
    pub totals: [u64; 6],
}

impl Numbers {
    pub fn list(&self) -> Vec<u64> {
        let mut list = vec![
            self.seq,
            self.remote_acked,
            self.largest_ack,
            self.inflight,
            self.window,
            self.ack,
            self.read_cursor,
            self.srtt,
            self.rttvar,
            self.rto,
            self.deadline,
            self.error,
            self.state,
            self.ended,
            self.queued,
            self.left,
        ];
        list.extend(self.totals);
        list
    }
}

/// The fields of a header as a script gives them: one byte each for type and offset.
#[derive(Debug, Clone, Copy, PartialEq, Eq)]
pub struct Fields {
    pub typ: u8,
    pub offset: u8,
    pub id: u32,
    pub window: u32,
    pub seq: u32,
    pub ack: u32,
}

pub trait End {
    fn write(&mut self, bytes: &[u8]) -> (Outcome, usize);
    fn drive(&mut self, clock: u64) -> Outcome;
    fn take(&mut self, room: usize) -> Taken;
    fn deliver(&mut self, datagram: &[u8], clock: u64) -> Outcome;
    fn read(&mut self, buf: &mut [u8]) -> (Outcome, usize);
    fn close(&mut self) -> Outcome;
    /// The next datagram, empty when nothing is left to take.
    fn look(&self) -> Vec<u8>;
    /// DRILL.md's command 11.
    fn base(&mut self, seq: u32, ack: u32, window: u32) -> Outcome;
    fn numbers(&self) -> Numbers;
    fn view(&self) -> View;
    /// A copy that shares nothing with this end.
    fn copy(&self) -> Box<dyn End>;
}

/// One version of the original: itself, or one of its mutants.
#[derive(Clone, Copy)]
pub struct Engine {
    pub open: fn(local: u32, remote: u32, ceiling: u8, clock: u64) -> Result<Box<dyn End>, u8>,
    pub encode: fn(Fields, &mut [u8]) -> Outcome,
    pub decode: fn(&[u8]) -> Option<Fields>,
}

/// The original, byte for byte.
pub const ORIGINAL: Engine = crate::stream::end::ENGINE;
