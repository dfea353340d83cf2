//! The log of a run: one event per line, times in nanoseconds on the simulated clock.
//!
//! ```text
//! TIME sent END ID KIND NUMBER BYTES     datagram ID was taken from END; KIND data with its seq, or state with its ack
//! TIME lost END ID                       the line lost it
//! TIME came END ID                       it is delivered to END
//! TIME refused END ID REFUSAL            it arrived and was refused with this number
//! TIME numbers END WINDOW INFLIGHT RTO   after a drive that changed one of them
//! TIME timeout END                       a drive found the timer due
//! TIME failed END                        the stream ended with TimedOut; the next one starts fresh at both ends
//! ```
use crate::failure::{failed, on, Failure};
use std::fmt::Arguments;
use std::fs::{metadata, File};
use std::io::{BufWriter, Write};
use std::os::unix::fs::MetadataExt;
use std::path::{Path, PathBuf};
use std::time::Duration;
use udx::Stream;

/// Window, inflight and rto.
type Numbers = (u32, u32, Duration);

/// A log, if one is kept.
pub struct Log {
    file: Option<(BufWriter<File>, PathBuf)>,
    last: [Numbers; 2], // of each end, as last written
}

/// A log written over the file being sent would destroy it.
fn same_file(path: &Path, other: &Path) -> bool {
    match (metadata(path), metadata(other)) {
        (Ok(a), Ok(b)) => a.dev() == b.dev() && a.ino() == b.ino(),
        _ => false,
    }
}

impl Log {
    pub fn open(path: Option<&Path>, source: Option<&Path>) -> Result<Log, Failure> {
        let last = [(0, 0, Duration::ZERO); 2];
        let Some(path) = path else {
            return Ok(Log { file: None, last });
        };
        if source.is_some_and(|source| same_file(path, source)) {
            return Err(failed(format!("{}: is the file that is sent", path.display())));
        }
        let file = File::create(path).map_err(on(path.display()))?;
        let mut log = Log {
            file: Some((BufWriter::new(file), path.into())),
            last,
        };
        log.line(format_args!("udx-log 1"))?;
        Ok(log)
    }

    fn line(&mut self, text: Arguments<'_>) -> Result<(), Failure> {
        match &mut self.file {
            Some((file, path)) => writeln!(file, "{text}").map_err(on(path.display())),
            None => Ok(()),
        }
    }

    pub fn close(&mut self) -> Result<(), Failure> {
        match &mut self.file {
            Some((file, path)) => file.flush().map_err(on(path.display())),
            None => Ok(()),
        }
    }

    pub fn sent(&mut self, time: u64, end: usize, id: u64, is_data: bool, number: u32, bytes: usize) -> Result<(), Failure> {
        let kind = if is_data { "data" } else { "state" };
        self.line(format_args!("{time} sent {end} {id} {kind} {number} {bytes}"))
    }

    /// lost and came.
    pub fn datagram(&mut self, time: u64, what: &str, end: usize, id: u64) -> Result<(), Failure> {
        self.line(format_args!("{time} {what} {end} {id}"))
    }

    pub fn refused(&mut self, time: u64, end: usize, id: u64, refusal: u8) -> Result<(), Failure> {
        self.line(format_args!("{time} refused {end} {id} {refusal}"))
    }

    /// timeout and failed.
    pub fn end(&mut self, time: u64, what: &str, end: usize) -> Result<(), Failure> {
        self.line(format_args!("{time} {what} {end}"))
    }

    pub fn numbers(&mut self, time: u64, end: usize, stream: &Stream) -> Result<(), Failure> {
        if self.file.is_none() {
            return Ok(());
        }
        let now = (stream.window(), stream.inflight(), stream.rto());
        if now == self.last[end] {
            return Ok(());
        }
        self.last[end] = now;
        let (window, inflight, rto) = now;
        self.line(format_args!("{time} numbers {end} {window} {inflight} {}", rto.as_nanos()))
    }
}
