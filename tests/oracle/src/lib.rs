//! The original stream core (datrs/async-udx) under a stepped nanosecond clock, with 01's ceilings and refusals in front of it.
//!
//! build.rs writes `original.rs`, which includes the original's files in place: nothing of them is copied. The shims below
//! are reached under the names of the crates that the original uses.

extern crate self as atomic_instant;
extern crate self as bytes;
extern crate self as futures;
extern crate self as log;
extern crate self as parking_lot;
extern crate self as tokio;
extern crate self as tracing;
extern crate self as udx_udp;

#[macro_use]
pub mod shim;

pub use crate::nothing as debug;
pub use crate::nothing as error;
pub use crate::nothing as trace;
pub use crate::nothing as warn;
pub use shim::task::spawn;
pub use shim::udp::Transmit;
pub use shim::{AtomicInstant, BufMut, Bytes, BytesMut, Future, FutureExt, Mutex, MutexGuard};
pub use shim::{io, sync, task, time, udp};

include!(concat!(env!("OUT_DIR"), "/original.rs"));

pub mod command;
pub mod compare;
pub mod engine;
pub mod generate;
pub mod named;
pub mod random;
pub mod record;
pub mod script;
pub mod table;

/// Wrong versions of the original, see mutations.rs.
#[cfg(feature = "mutants")]
#[allow(warnings)]
pub mod mutants {
    include!(concat!(env!("OUT_DIR"), "/mutants.rs"));
}
#[cfg(feature = "mutants")]
pub mod hunt;
pub mod mutations;
