//! Scripts: 01's session, and the drill of docs/DRILL.md. Bytes in, lines out.

use crate::engine::{End, Engine, Fields, Outcome};
use std::collections::VecDeque;
use std::fmt::Write;

pub const MAX_SCRIPT: usize = 65_536;
const KEPT: usize = 32;
const MAX_READ: usize = 4_096;
const MAX_ROOM: usize = 14_000;
const MAX_HEADER: usize = 64;

#[derive(Debug, Clone, Copy, PartialEq, Eq, PartialOrd, Ord)]
pub enum Kind {
    Session,
    Drill,
}

impl Kind {
    pub fn name(self) -> &'static str {
        match self {
            Kind::Session => "session",
            Kind::Drill => "drill",
        }
    }
}

/// The lines that the program of this kind prints for a script.
pub fn run(kind: Kind, script: &[u8], engine: Engine) -> Vec<u8> {
    let mut run = Run::new(kind, engine);
    let mut lines = String::new();
    let script = &script[..script.len().min(MAX_SCRIPT)];
    let mut at = 0;
    while at < script.len() {
        match run.step(&script[at..]) {
            Some(step) => {
                lines += &step.line;
                at += step.length;
            }
            None => {
                lines += &format!("script {at}\n");
                break;
            }
        }
    }
    lines.into_bytes()
}

/// The offsets at which commands begin, up to the end of the run, and the end.
pub fn commands(kind: Kind, script: &[u8]) -> Vec<usize> {
    let mut offsets = vec![0];
    let mut at = 0;
    while at < script.len() {
        at += match Operands::new(kind, &script[at..]).length() {
            Some(length) => length,
            None => script.len() - at,
        };
        offsets.push(at);
    }
    offsets
}

/// Whether a raw delivery's SACK blocks name so many numbers that the original, which walks over all of them, takes seconds.
pub fn walks_far(command: &[u8]) -> bool {
    const HEADER: usize = 12;
    const PAYLOAD: usize = HEADER + 20;
    if command[0] != 0x10 || command.len() < PAYLOAD || command[HEADER + 2] & 4 == 0 {
        return false;
    }
    let word = |bytes: &[u8]| u32::from_le_bytes(bytes.try_into().unwrap());
    let width = |block: &[u8]| word(&block[4..]).saturating_sub(word(&block[..4]));
    command[PAYLOAD..].chunks_exact(8).any(|block| width(block) > 1 << 20)
}

/// What one command did.
pub struct Step {
    pub line: String,
    pub length: usize,
    pub command: &'static str,
    pub outcome: Outcome,
    /// Bytes taken, if the command takes.
    pub count: usize,
}

/// Two ends, and the datagrams last taken from each.
pub struct Run {
    kind: Kind,
    engine: Engine,
    pub ends: [Box<dyn End>; 2],
    pub kept: [VecDeque<Vec<u8>>; 2],
    count: usize,
}

/// A command's operands, read from its first byte on. A short one reads as `None`.
struct Operands<'a> {
    kind: Kind,
    bytes: &'a [u8],
    at: usize,
}

impl<'a> Operands<'a> {
    fn new(kind: Kind, bytes: &'a [u8]) -> Self {
        Self { kind, bytes, at: 0 }
    }
    fn bytes(&mut self, count: usize) -> Option<&'a [u8]> {
        let bytes = self.bytes.get(self.at..self.at + count)?;
        self.at += count;
        Some(bytes)
    }
    fn number(&mut self, width: usize) -> Option<u64> {
        Some(self.bytes(width)?.iter().rev().fold(0, |n, b| n << 8 | *b as u64))
    }
    fn byte(&mut self) -> Option<u8> {
        Some(self.number(1)? as u8)
    }
    fn short(&mut self) -> Option<usize> {
        Some(self.number(2)? as usize)
    }
    fn word(&mut self) -> Option<u32> {
        Some(self.number(4)? as u32)
    }
    fn clock(&mut self) -> Option<u64> {
        self.number(8)
    }
    fn end(&mut self) -> Option<usize> {
        self.byte().filter(|end| *end <= 1).map(usize::from)
    }
    /// The command's length, if all its bytes are there: for cutting a script, so operands are not checked.
    fn length(&mut self) -> Option<usize> {
        let command = self.byte()?;
        let width = match command {
            0x01 => 4,
            0x02 => 9,
            0x03 | 0x06 => 1,
            0x04 => 11,
            0x05 => 3,
            _ if self.kind == Kind::Session => return None,
            0x10 => 11 + u16::from_le_bytes(self.bytes.get(10..12)?.try_into().unwrap()) as usize,
            0x11 => 13,
            0x12 => 18,
            0x13 => 3,
            0x14 | 0x15 => 1,
            0x16 => 19,
            0x17 => 1 + *self.bytes.get(1)? as usize,
            0x18 => 11,
            _ => return None,
        };
        self.bytes(width)?;
        Some(self.at)
    }
}

fn hex(bytes: &[u8]) -> String {
    if bytes.is_empty() {
        return "-".into();
    }
    let mut text = String::with_capacity(2 * bytes.len());
    for byte in bytes {
        write!(text, "{byte:02x}").unwrap();
    }
    text
}

/// DRILL.md's SUM.
fn sum(bytes: &[u8]) -> u64 {
    bytes.iter().fold(0, |sum, byte| (31 * sum + *byte as u64) % 4_294_967_291)
}

impl Run {
    pub fn new(kind: Kind, engine: Engine) -> Self {
        let open = |local, remote| (engine.open)(local, remote, 10, 0).ok().unwrap();
        Self { kind, engine, ends: [open(1, 2), open(2, 1)], kept: Default::default(), count: 0 }
    }

    /// Runs the first command; `None` if it ends the run.
    pub fn step(&mut self, script: &[u8]) -> Option<Step> {
        let mut ops = Operands::new(self.kind, script);
        let command = ops.byte()?;
        self.count = 0;
        let (name, outcome, line) = match command {
            0x01..=0x06 => self.session(command, &mut ops)?,
            0x10..=0x18 if self.kind == Kind::Drill => self.drill(command, &mut ops)?,
            _ => return None,
        };
        Some(Step { line, length: ops.at, command: name, outcome, count: self.count })
    }

    fn session(&mut self, command: u8, ops: &mut Operands) -> Option<(&'static str, Outcome, String)> {
        let end = ops.end()?;
        Some(match command {
            0x01 => {
                let length = ops.short()?;
                let fill = ops.byte()?;
                let (outcome, count) = self.ends[end].write(&vec![fill; length]);
                ("write", outcome, format!("write {end} {outcome} {count}\n"))
            }
            0x02 => {
                let outcome = self.ends[end].drive(ops.clock()?);
                ("drive", outcome, format!("drive {end} {outcome} 0\n"))
            }
            0x03 => {
                let (outcome, count, _, _) = self.take(end, MAX_ROOM);
                ("take", outcome, format!("take {end} {outcome} {count}\n"))
            }
            0x04 => {
                let number = ops.short()?;
                let clock = ops.clock()?;
                let datagram = self.kept[1 - end].get(number)?;
                let outcome = self.ends[end].deliver(datagram, clock);
                ("hand", outcome, format!("hand {end} {outcome} 0\n"))
            }
            0x05 => {
                let length = ops.short().filter(|length| *length <= MAX_READ)?;
                let mut buf = vec![0; length];
                let (outcome, count) = self.ends[end].read(&mut buf);
                ("read", outcome, format!("read {end} {outcome} {count} {}\n", hex(&buf[..count])))
            }
            _ => {
                let outcome = self.ends[end].close();
                ("close", outcome, format!("close {end} {outcome} 0\n"))
            }
        })
    }

    /// Takes a batch and keeps its datagrams: its pieces of segment size, or all of it if it has none; none of an empty one.
    fn take(&mut self, end: usize, room: usize) -> (Outcome, usize, usize, u64) {
        let taken = self.ends[end].take(room);
        let size = if taken.segment == 0 { taken.bytes.len().max(1) } else { taken.segment };
        for datagram in taken.bytes.chunks(size) {
            if self.kept[end].len() == KEPT {
                self.kept[end].pop_front();
            }
            self.kept[end].push_back(datagram.to_vec());
        }
        self.count = taken.bytes.len();
        (taken.outcome, self.count, taken.segment, sum(&taken.bytes))
    }

    fn drill(&mut self, command: u8, ops: &mut Operands) -> Option<(&'static str, Outcome, String)> {
        if command == 0x16 {
            return self.encode(ops);
        }
        if command == 0x17 {
            return self.decode(ops);
        }
        let end = ops.end()?;
        Some(match command {
            0x10 => {
                let clock = ops.clock()?;
                let length = ops.short()?;
                let outcome = self.ends[end].deliver(ops.bytes(length)?, clock);
                ("raw", outcome, format!("raw {end} {outcome} 0\n"))
            }
            0x11 => {
                let (seq, ack, window) = (ops.word()?, ops.word()?, ops.word()?);
                let outcome = self.ends[end].base(seq, ack, window);
                ("base", outcome, format!("base {end} {outcome} 0\n"))
            }
            0x12 => {
                let (local, remote) = (ops.word()?, ops.word()?);
                let (ceiling, clock) = (ops.byte()?, ops.clock()?);
                let outcome = match (self.engine.open)(local, remote, ceiling, clock) {
                    Ok(opened) => {
                        self.ends[end] = opened;
                        Outcome::Ok
                    }
                    Err(number) => Outcome::Refused(number),
                };
                ("open", outcome, format!("open {end} {outcome} 0\n"))
            }
            0x13 => {
                let room = ops.short().filter(|room| *room <= MAX_ROOM)?;
                let (outcome, count, segment, sum) = self.take(end, room);
                ("room", outcome, format!("room {end} {outcome} {count} {segment} {sum}\n"))
            }
            0x14 => {
                let bytes = self.ends[end].look();
                ("look", Outcome::Ok, format!("look {end} ok {} {}\n", bytes.len(), hex(&bytes)))
            }
            0x15 => {
                let numbers = self.ends[end].numbers().list();
                let list: Vec<String> = numbers.iter().map(u64::to_string).collect();
                ("numbers", Outcome::Ok, format!("numbers {end} {}\n", list.join(" ")))
            }
            _ => {
                let which = ops.byte().filter(|which| *which <= 24)?;
                let call = ops.byte().filter(|call| *call <= 7)?;
                let outcome = self.spoil(end, which, call, ops.clock()?);
                ("spoil", outcome, format!("spoil {end} {outcome} 0\n"))
            }
        })
    }

    fn encode(&self, ops: &mut Operands) -> Option<(&'static str, Outcome, String)> {
        let length = ops.byte().filter(|length| *length as usize <= MAX_HEADER)? as usize;
        let fields = Fields {
            typ: ops.byte()?,
            offset: ops.byte()?,
            id: ops.word()?,
            window: ops.word()?,
            seq: ops.word()?,
            ack: ops.word()?,
        };
        let mut buf = vec![0xaa; length];
        let outcome = (self.engine.encode)(fields, &mut buf);
        Some(("encode", outcome, format!("encode {outcome} {length} {}\n", hex(&buf))))
    }

    fn decode(&self, ops: &mut Operands) -> Option<(&'static str, Outcome, String)> {
        let length = ops.byte().filter(|length| *length as usize <= MAX_HEADER)? as usize;
        Some(match (self.engine.decode)(ops.bytes(length)?) {
            Some(Fields { typ, offset, id, window, seq, ack }) => {
                ("decode", Outcome::Ok, format!("decode ok {typ} {offset} {id} {window} {seq} {ack}\n"))
            }
            None => ("decode", Outcome::Refused(7), "decode 7\n".into()),
        })
    }

    /// One call on a copy with one thing broken. Every call is lent all three stores and checks every rule, open only the
    /// lengths; the original has neither stores nor rules, so it is called only where nothing is broken for the call.
    fn spoil(&self, end: usize, which: u8, call: u8, clock: u64) -> Outcome {
        const OPEN: u8 = 0;
        const LOOK: u8 = 7;
        let broken = matches!(which, 1..=6) || which >= 7 && call != OPEN;
        if broken {
            return if call == LOOK { Outcome::None } else { Outcome::Refused(1) };
        }
        let mut copy = self.ends[end].copy();
        match call {
            OPEN => match (self.engine.open)(1, 2, 10, clock) {
                Ok(_) => Outcome::Ok,
                Err(number) => Outcome::Refused(number),
            },
            1 => copy.write(&[0x5a]).0,
            2 => copy.drive(clock),
            3 => copy.take(MAX_ROOM).outcome,
            4 => {
                let mut datagram = [0; 20];
                let fields = Fields { typ: 0, offset: 0, id: copy.view().local_id, window: 0, seq: 0, ack: 0 };
                (self.engine.encode)(fields, &mut datagram);
                copy.deliver(&datagram, clock)
            }
            5 => copy.read(&mut [0; 16]).0,
            6 => copy.close(),
            _ => {
                if copy.look().is_empty() {
                    Outcome::None
                } else {
                    Outcome::Ok
                }
            }
        }
    }
}
