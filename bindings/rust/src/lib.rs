//! One stream of ordered bytes over datagrams, with retransmission, a congestion window and a round-trip estimate.
//!
//! The engine behind it is proved: every call returns for every input, and what is read at one end is what was written at the other, in
//! order, over any line that loses, repeats, delays or reorders datagrams. It owns no socket, clock or thread: bytes and instants go in,
//! bytes and a [deadline](Stream::deadline) come out. This crate adds ownership: a [`Stream`] owns its records and stores, so no caller
//! can break the engine's rules.
//!
//! Clocks are spans since a start of the caller's choice, such as `start.elapsed()`; they must never run backwards from call to call.
//!
//! ```
//! use std::time::Duration;
//! use udx::{Driven, Read, Stream, Written, TAKE_ROOM};
//!
//! let clock = Duration::from_millis(5);
//! let mut hub = Stream::open(1, 2, 10, clock)?;
//! let mut tower = Stream::open(2, 1, 10, clock)?;
//!
//! assert_eq!(hub.write(b"AAA")?, Written::Accepted(3));
//! assert_eq!(hub.drive(clock)?, Driven::Ready);
//! let mut buf = vec![0; TAKE_ROOM];
//! while let Some(batch) = hub.take(&mut buf)? {
//!     for datagram in batch.datagrams() {
//!         tower.deliver(datagram, clock)?; // a socket stands between them
//!     }
//! }
//! let mut bytes = [0; 8];
//! assert_eq!(tower.read(&mut bytes), Read::Ready(3));
//! assert_eq!(&bytes[..3], b"AAA");
//! assert_eq!(tower.read(&mut bytes), Read::Wait(0));
//! # Ok::<(), udx::Refusal>(())
//! ```
//!
//! # The round of a caller
//!
//! 1. [Deliver](Stream::deliver) each datagram that came in, [read](Stream::read) until a read puts nothing, [write](Stream::write) what
//!    is to be sent, [close](Stream::close) if it is time to.
//! 2. [Drive](Stream::drive) with the clock; with [`Driven::Done`] the stream needs no further call.
//! 3. [Take](Stream::take) until `None`, and send each datagram. Until then writes, deliveries, drives and closes are refused.
//! 4. Write again what is still pending, and close if it is time to; if any bytes were accepted or the stream was closed, go back to
//!    step 2. Acknowledgements are settled in the drive, so that is where room comes from: a caller that waits without another try may
//!    wait forever.
//! 5. Wait for a datagram, for bytes to write, or for the [deadline](Stream::deadline).
//!
//! # The end of a stream
//!
//! A [close](Stream::close) ends both directions: what is not acknowledged by then, at either end, may be lost. So close once everything
//! is written, [nothing waits for an acknowledgement](Stream::deadline) and nothing more is wanted from the other end. The other end
//! learns of it from an END, which the line may lose and no timer resends.
//!
//! - Once the stream has an [error](Stream::error), by a close or by the other end's END, and nothing waits for an acknowledgement or is
//!   [queued](Stream::queued), the next drive is the last: it returns [`Driven::Done`], and what arrives later is refused. An end that
//!   need not be sure of the other makes that drive at once. An end that has closed and wants to be sure holds it back until the other
//!   end's END arrives ([`EndState::BothClosed`]), closes again after a while without one, and eventually gives up. An end that has
//!   received an END holds it back until no datagram has arrived for a while: a repeated END needs another answer. tests/round.rs does
//!   exactly this.
//! - After [`StreamError::TimedOut`]: take and send what is left, then stop. The packets stay stored, so `Done` comes only if the other
//!   end still acknowledges them.
//! - What has arrived in order can still be read after the end, even after `Done`.
//!
//! ```
//! use std::time::Duration;
//! use udx::{Driven, Read, Refusal, Stream, TAKE_ROOM};
//!
//! // A drive, and what it left to take brought to the other end.
//! fn carry(from: &mut Stream, to: &mut Stream) -> Result<Driven, Refusal> {
//!     let driven = from.drive(Duration::ZERO)?;
//!     let mut buf = vec![0; TAKE_ROOM];
//!     while let Some(batch) = from.take(&mut buf)? {
//!         for datagram in batch.datagrams() {
//!             to.deliver(datagram, Duration::ZERO).ok(); // a refused datagram is dropped
//!         }
//!     }
//!     Ok(driven)
//! }
//!
//! let mut hub = Stream::open(1, 2, 10, Duration::ZERO)?;
//! let mut tower = Stream::open(2, 1, 10, Duration::ZERO)?;
//! hub.write(b"AAA")?;
//! carry(&mut hub, &mut tower)?; // the bytes
//! carry(&mut tower, &mut hub)?; // their acknowledgement
//! carry(&mut hub, &mut tower)?; // which this drive settles
//! assert_eq!(hub.deadline(), None);
//! hub.close()?;
//! assert_eq!(carry(&mut hub, &mut tower)?, Driven::Ready); // the END
//! assert_eq!(carry(&mut hub, &mut tower)?, Driven::Done);
//!
//! let mut bytes = [0; 8];
//! assert_eq!(tower.read(&mut bytes), Read::Ready(3));
//! assert_eq!(tower.read(&mut bytes), Read::Ended(0, Refusal::UnexpectedEof));
//! assert_eq!(carry(&mut tower, &mut hub)?, Driven::Ready); // its own END, which the hub refuses: it is done
//! assert_eq!(carry(&mut tower, &mut hub)?, Driven::Done);
//! # Ok::<(), udx::Refusal>(())
//! ```
#![warn(missing_debug_implementations, unsafe_op_in_unsafe_fn)]

mod header;
mod raw;
mod refusal;
mod stream;
#[cfg(test)]
mod tests;

pub use header::{Header, HEADER_SIZE};
pub use refusal::Refusal;
pub use stream::{Batch, Driven, EndState, Read, Stream, StreamError, Totals, Written, TAKE_ROOM};

// The refusal that the archive returned.
fn refusal(number: u8) -> Refusal {
    Refusal::from_number(number).expect("the linked archive answers refusals 1 to 17")
}
