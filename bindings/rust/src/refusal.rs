//! Why a call is refused.
use std::error::Error;
use std::fmt;

/// Why a call was refused, in the order in which the engine checks. A refused call has changed nothing, except that a
/// [read](crate::Stream::read) keeps the bytes it put.
#[derive(Clone, Copy, Debug, PartialEq, Eq, Hash, PartialOrd, Ord)]
#[repr(u8)]
pub enum Refusal {
    /// A store of the wrong length, or a broken rule of the records. A [`Stream`](crate::Stream) never returns it: it owns its records, and
    /// calls from a fresh stream never break a rule (proved).
    BrokenRecords = 1,
    /// Encode with under 20 bytes, take with under 14,000.
    ShortBuffer = 2,
    /// Open with a segment ceiling outside 1 to 10.
    SegmentCeiling = 3,
    /// A clock of 2^60 nanoseconds or more, or below that of the last accepted call with one.
    BadClock = 4,
    /// Deliver, drive or close after a drive returned [`Driven::Done`](crate::Driven::Done).
    AfterDone = 5,
    /// Write, deliver, drive or close while batches of the last drive remain: take them first.
    BatchesLeft = 6,
    /// A datagram without a header.
    BadHeader = 7,
    /// A datagram of another stream.
    OtherStream = 8,
    /// A payload of more than 1,380 bytes.
    LongPayload = 9,
    /// A datagram that acknowledges what was never sent.
    AckPastSeq = 10,
    /// DATA numbered 4,294,967,295, which no packet has.
    SeqEnd = 11,
    /// DATA 32 or more past what was read; the sender's timer resends it, three times at most.
    PastIncoming = 12,
    /// No room for another state packet: drive and take first.
    StateQueueFull = 13,
    /// This side was closed. This and the next two say only that the stream has that error: the read may have put bytes, and more may be
    /// left in order.
    ConnectionReset = 14,
    /// The other side was closed.
    UnexpectedEof = 15,
    /// A packet was sent too often without an acknowledgement.
    TimedOut = 16,
    /// No packet number is left to write with.
    SeqExhausted = 17,
}

const ALL: [Refusal; 17] = [
    Refusal::BrokenRecords,
    Refusal::ShortBuffer,
    Refusal::SegmentCeiling,
    Refusal::BadClock,
    Refusal::AfterDone,
    Refusal::BatchesLeft,
    Refusal::BadHeader,
    Refusal::OtherStream,
    Refusal::LongPayload,
    Refusal::AckPastSeq,
    Refusal::SeqEnd,
    Refusal::PastIncoming,
    Refusal::StateQueueFull,
    Refusal::ConnectionReset,
    Refusal::UnexpectedEof,
    Refusal::TimedOut,
    Refusal::SeqExhausted,
];

impl Refusal {
    /// Its number, 1 to 17.
    ///
    /// ```
    /// assert_eq!(udx::Refusal::BadClock.number(), 4);
    /// assert_eq!(udx::Refusal::from_number(4), Some(udx::Refusal::BadClock));
    /// assert_eq!(udx::Refusal::from_number(18), None);
    /// ```
    pub fn number(self) -> u8 {
        self as u8
    }

    /// The refusal with this number.
    pub fn from_number(number: u8) -> Option<Refusal> {
        ALL.get(usize::from(number).checked_sub(1)?).copied()
    }
}

impl fmt::Display for Refusal {
    fn fmt(&self, f: &mut fmt::Formatter<'_>) -> fmt::Result {
        f.write_str(match self {
            Refusal::BrokenRecords => "the records of the stream are broken",
            Refusal::ShortBuffer => "the buffer is too short",
            Refusal::SegmentCeiling => "the segment ceiling is not 1 to 10",
            Refusal::BadClock => "the clock is too large or runs backwards",
            Refusal::AfterDone => "the stream has ended",
            Refusal::BatchesLeft => "batches of the last drive remain to be taken",
            Refusal::BadHeader => "the datagram has no header",
            Refusal::OtherStream => "the datagram is another stream's",
            Refusal::LongPayload => "the payload exceeds 1,380 bytes",
            Refusal::AckPastSeq => "the datagram acknowledges what was never sent",
            Refusal::SeqEnd => "the datagram has a number that no packet has",
            Refusal::PastIncoming => "the datagram is too far ahead of the reader",
            Refusal::StateQueueFull => "no place for another state packet",
            Refusal::ConnectionReset => "connection reset",
            Refusal::UnexpectedEof => "unexpected end of file",
            Refusal::TimedOut => "timed out",
            Refusal::SeqExhausted => "no packet number is left",
        })
    }
}

impl Error for Refusal {}
