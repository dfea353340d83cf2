//! The recorded session scripts of this repository through the crate: each line is held to the original's answer.
use std::collections::VecDeque;
use std::fmt::Write;
use std::time::Duration;
use udx::{Driven, Read, Refusal, Stream, Written, TAKE_ROOM};

/// 01's session: ends 0 (id 1) and 1 (id 2), and the last 32 datagrams that each has taken.
struct Session {
    ends: [Stream; 2],
    kept: [VecDeque<Vec<u8>>; 2],
    text: String,
}

fn number(bytes: &[u8]) -> u64 {
    bytes.iter().rev().fold(0, |n, b| n << 8 | u64::from(*b))
}

fn answer<T>(r: Result<T, Refusal>, of: impl FnOnce(T) -> (&'static str, usize)) -> (String, usize) {
    match r {
        Ok(t) => {
            let (outcome, count) = of(t);
            (outcome.to_string(), count)
        }
        Err(why) => (why.number().to_string(), 0),
    }
}

impl Session {
    fn new() -> Session {
        let open = |local, remote| Stream::open(local, remote, 10, Duration::ZERO).unwrap();
        Session {
            ends: [open(1, 2), open(2, 1)],
            kept: Default::default(),
            text: String::new(),
        }
    }

    /// Takes a batch and keeps its datagrams; what look showed before it is its first one.
    fn take(&mut self, end: usize) -> (String, usize) {
        let mut buf = vec![0; TAKE_ROOM];
        let shown = self.ends[end].look().map(<[u8]>::to_vec);
        let kept = &mut self.kept[end];
        answer(self.ends[end].take(&mut buf), |batch| match batch {
            None => ("none", 0),
            Some(batch) => {
                let datagrams: Vec<_> = batch.datagrams().map(<[u8]>::to_vec).collect();
                assert!(datagrams.is_empty() || datagrams.first() == shown.as_ref());
                kept.extend(datagrams);
                while kept.len() > 32 {
                    kept.pop_front();
                }
                ("ok", batch.bytes().len())
            }
        })
    }

    fn read(&mut self, end: usize, length: usize) -> (String, usize, String) {
        let mut buf = vec![0; length];
        let (outcome, count) = match self.ends[end].read(&mut buf) {
            Read::Ready(count) => ("ok".to_string(), count),
            Read::Wait(count) => ("wait".to_string(), count),
            Read::Ended(count, why) => (why.number().to_string(), count),
        };
        let hex: String = buf[..count].iter().map(|b| format!("{b:02x}")).collect();
        (outcome, count, if count == 0 { " -".to_string() } else { format!(" {hex}") })
    }

    /// Runs the command at the front of what is left of a script, or answers none where it ends the run.
    fn command(&mut self, p: &[u8]) -> Option<usize> {
        let width = *[0, 4, 9, 1, 11, 3, 1].get(usize::from(p[0])).filter(|w| **w > 0)?;
        let end = usize::from(*p.get(1).filter(|_| p.len() > width)?);
        if end > 1 {
            return None;
        }
        let clock = |from: usize| Duration::from_nanos(number(&p[from..from + 8]));
        let mut bytes = String::new();
        let (name, (outcome, count)) = match p[0] {
            1 => {
                let fill = vec![p[4]; number(&p[2..4]) as usize];
                let r = self.ends[end].write(&fill);
                (
                    "write",
                    answer(r, |w| match w {
                        Written::Accepted(n) => ("ok", n),
                        Written::Wait => ("wait", 0),
                    }),
                )
            }
            2 => {
                let r = self.ends[end].drive(clock(2));
                ("drive", answer(r, |d| (if d == Driven::Done { "done" } else { "ok" }, 0)))
            }
            3 => ("take", self.take(end)),
            4 => {
                let datagram = self.kept[1 - end].get(number(&p[2..4]) as usize)?.clone();
                ("hand", answer(self.ends[end].deliver(&datagram, clock(4)), |_| ("ok", 0)))
            }
            5 => {
                let length = number(&p[2..4]) as usize;
                if length > 4096 {
                    return None;
                }
                let (outcome, count, hex) = self.read(end, length);
                bytes = hex;
                ("read", (outcome, count))
            }
            _ => ("close", answer(self.ends[end].close(), |_| ("ok", 0))),
        };
        writeln!(self.text, "{name} {end} {outcome} {count}{bytes}").unwrap();
        Some(width + 1)
    }

    fn run(mut self, script: &[u8]) -> String {
        let mut at = 0;
        while at < script.len() {
            match self.command(&script[at..]) {
                Some(size) => at += size,
                None => {
                    writeln!(self.text, "script {at}").unwrap();
                    break;
                }
            }
        }
        self.text
    }
}

#[test]
fn recorded_sessions() {
    let file = concat!(env!("CARGO_MANIFEST_DIR"), "/../../crates/drill_replay/data/scripts.bin");
    let file = std::fs::read(file).unwrap_or_else(|e| panic!("{file}: {e}"));
    let (mut rest, mut run, mut script_number) = (&file[..], 0, 0);
    while !rest.is_empty() {
        let (n, m) = (number(&rest[1..5]) as usize, number(&rest[5..9]) as usize);
        let (script, due) = (&rest[9..9 + n], &rest[9 + n..9 + n + m]);
        script_number += 1;
        // The drill's commands are not a session's.
        if rest[0] == 0 {
            let text = Session::new().run(script);
            assert!(text.as_bytes() == due, "script {script_number} differs:\n{text}");
            run += 1;
        }
        rest = &rest[9 + n + m..];
    }
    assert!(run > 500, "{run} scripts");
}
