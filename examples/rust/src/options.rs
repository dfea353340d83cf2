//! The options of bad_line, and its help.
use crate::failure::{bad_use, Failure};
use std::ffi::OsString;
use std::path::PathBuf;

/// Numbers with decimals are kept in millionths: percent, milliseconds (so nanoseconds) and seconds (so microseconds).
pub const MILLIONTHS: u64 = 1_000_000;

pub const HELP: &str = "\
bad_line: two ends of a stream in one process, over a simulated line that loses, repeats and reorders datagrams.
The hub sends samples or a file, the gateway checks every byte that it reads.

  --file PATH      send this file (else samples)
  --bytes N        so many bytes of samples; 1,000,000
  --both           the gateway sends as much to the hub at the same time
  --loss P         percent of the datagrams that the line loses; 5
  --repeat P       percent that come twice; 2
  --reorder P      percent that are held back, so that later ones overtake them; 10
  --delay MS       milliseconds from one end to the other; 20
  --seed N         of the line's chances: the same seed gives the same run; 1
  --log FILE       write every event to FILE
  --limit SECONDS  stop with status 1 after so many seconds of wall clock
  --help           print these lines

Numbers may have separators: 1_000_000 or 1,000,000.
Status: 0 when every byte arrived, 1 when not, 2 when an option is wrong.
";

pub struct Options {
    pub file: Option<PathBuf>,
    bytes: Option<u64>,
    pub both: bool,
    pub loss: u64, // chances are percent, in millionths
    pub repeat: u64,
    pub reorder: u64,
    pub delay: u64, // nanoseconds
    pub seed: u64,
    pub log: Option<PathBuf>,
    pub limit: Option<u64>, // wall clock, microseconds
    pub help: bool,
}

impl Default for Options {
    fn default() -> Options {
        Options {
            file: None,
            bytes: None,
            both: false,
            loss: 5 * MILLIONTHS,
            repeat: 2 * MILLIONTHS,
            reorder: 10 * MILLIONTHS,
            delay: 20 * MILLIONTHS,
            seed: 1,
            log: None,
            limit: None,
            help: false,
        }
    }
}

/// A separator counts only between two digits.
fn is_separator(text: &[u8], at: usize) -> bool {
    let is_digit = |i: usize| text.get(i).is_some_and(u8::is_ascii_digit);
    matches!(text[at], b'_' | b',') && at > 0 && is_digit(at - 1) && is_digit(at + 1)
}

/// The whole number at the front of `text`, and where it ends. A number that is too large saturates, for the caller to refuse.
fn parse_whole(text: &[u8]) -> (u64, usize) {
    let mut value: u64 = 0;
    for (at, byte) in text.iter().enumerate() {
        if byte.is_ascii_digit() {
            value = value.saturating_mul(10).saturating_add(u64::from(byte - b'0'));
        } else if !is_separator(text, at) {
            return (value, at);
        }
    }
    (value, text.len())
}

/// Up to six decimals, as millionths.
fn parse_decimals(text: &[u8]) -> Option<u64> {
    if text.is_empty() || text.len() > 6 || !text.iter().all(u8::is_ascii_digit) {
        return None;
    }
    let digits = text.iter().chain(std::iter::repeat(&b'0')).take(6);
    Some(digits.fold(0, |value, byte| 10 * value + u64::from(byte - b'0')))
}

/// A number's whole part and its millionths.
fn parse_parts(text: &[u8], decimal: bool) -> Option<(u64, u64)> {
    match parse_whole(text) {
        (_, 0) => None,
        (whole, end) if end == text.len() => Some((whole, 0)),
        (whole, end) if decimal && text[end] == b'.' => Some((whole, parse_decimals(&text[end + 1..])?)),
        _ => None,
    }
}

/// A number from 0 to `most`, whole or in millionths.
fn parse_number(name: &str, text: &str, decimal: bool, most: u64) -> Result<u64, Failure> {
    let kind = if decimal {
        "number with up to six decimals"
    } else {
        "whole number"
    };
    let (whole, part) = parse_parts(text.as_bytes(), decimal).ok_or_else(|| bad_use(format!("{name} {text}: not a {kind}")))?;
    if whole > most || (whole == most && part > 0) {
        return Err(bad_use(format!("{name} {text}: more than {most}")));
    }
    Ok(whole * if decimal { MILLIONTHS } else { 1 } + part)
}

/// The word after an option.
struct Value<'a> {
    name: &'a str,
    words: &'a mut dyn Iterator<Item = OsString>,
}

impl Value<'_> {
    fn word(&mut self) -> Result<OsString, Failure> {
        self.words
            .next()
            .ok_or_else(|| bad_use(format!("{}: its value is missing", self.name)))
    }

    fn path(&mut self) -> Result<PathBuf, Failure> {
        self.word().map(PathBuf::from)
    }

    fn whole(&mut self, most: u64) -> Result<u64, Failure> {
        parse_number(self.name, &self.word()?.to_string_lossy(), false, most)
    }

    fn decimal(&mut self, most: u64) -> Result<u64, Failure> {
        parse_number(self.name, &self.word()?.to_string_lossy(), true, most)
    }
}

impl Options {
    fn set(&mut self, name: &str, words: &mut dyn Iterator<Item = OsString>) -> Result<(), Failure> {
        let mut value = Value { name, words };
        match name {
            "--file" => self.file = Some(value.path()?),
            "--bytes" => self.bytes = Some(value.whole(1_000_000_000_000)?),
            "--both" => self.both = true,
            "--loss" => self.loss = value.decimal(100)?,
            "--repeat" => self.repeat = value.decimal(100)?,
            "--reorder" => self.reorder = value.decimal(100)?,
            "--delay" => self.delay = value.decimal(60_000)?,
            "--seed" => self.seed = value.whole(1_000_000_000_000_000_000)?,
            "--log" => self.log = Some(value.path()?),
            "--limit" => self.limit = Some(value.decimal(1_000_000)?),
            "--help" => self.help = true,
            _ => return Err(bad_use(format!("{name}: unknown option, see --help"))),
        }
        Ok(())
    }

    pub fn parse(words: impl Iterator<Item = OsString>) -> Result<Options, Failure> {
        let mut words = words;
        let mut options = Options::default();
        while let Some(word) = words.next() {
            options.set(&word.to_string_lossy(), &mut words)?;
        }
        if options.file.is_some() && options.bytes.is_some() {
            return Err(bad_use("--bytes is for samples: a file is sent whole"));
        }
        Ok(options)
    }

    /// Bytes of samples, each way.
    pub fn bytes(&self) -> u64 {
        self.bytes.unwrap_or(1_000_000)
    }
}
