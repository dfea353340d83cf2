//! Random scripts. Each command is run as it is written, so that the next one can be chosen by the state that was reached: at the
//! deadline and beside it, at the last byte of a window, at the 62nd state packet.

mod choices;
mod datagrams;
mod moves;
mod profiles;
mod single;
mod states;

use crate::command;
use crate::engine::{Fields, ORIGINAL, Outcome, View};
use crate::random::Random;
use crate::script::{Kind, Run};
use std::collections::BTreeSet;

const CLOCK_END: u64 = 1 << 60;
/// Scripts stop growing here, far below what a program reads.
const MAX_BYTES: usize = 24_000;
/// And so do the lines that they make.
const MAX_LINES: usize = 55_000;

/// What a script is mostly about.
#[derive(Debug, Clone, Copy, PartialEq, Eq)]
enum Profile {
    /// Both ends talk; datagrams get lost, repeated and reordered.
    Traffic,
    /// Nobody hears one end, until it gives up.
    Silence,
    /// State packets pile up.
    Flood,
    /// Windows and stores are filled.
    Fill,
    /// Both ends close, at any time.
    Closing,
    /// Spans that come near 2^60.
    Ages,
    /// Whole rounds: bytes over, acks back, samples.
    Rounds,
    /// Stores filled past a gap, which is closed later.
    Gaps,
    /// A stream that times out with its queue of state packets full.
    Brim,
    /// Anything in any order.
    Chaos,
    /// SACK blocks take packets out of a stream that is about to time out (drill).
    Sacked,
    /// Numbers near 4,294,967,295 (drill).
    LastNumbers,
    /// Raw datagrams, most of them wrong (drill).
    Noise,
    /// Header coding, broken records, buffers of other lengths (drill).
    Borders,
}

/// Those that a session can follow come first.
const PROFILES: [Profile; 14] = [
    Profile::Traffic,
    Profile::Silence,
    Profile::Flood,
    Profile::Fill,
    Profile::Closing,
    Profile::Ages,
    Profile::Rounds,
    Profile::Gaps,
    Profile::Brim,
    Profile::Chaos,
    Profile::Sacked,
    Profile::LastNumbers,
    Profile::Noise,
    Profile::Borders,
];
const SESSION: usize = 10;

/// A command's name, its outcome, and the state that it left its end in, coarsely.
pub type Feature = (&'static str, Outcome, u64);

pub struct Script {
    pub kind: Kind,
    pub bytes: Vec<u8>,
    pub lines: Vec<u8>,
    pub features: Vec<Feature>,
    /// The deep states that it reached.
    pub reached: BTreeSet<&'static str>,
}

/// The script of a seed.
pub fn script(kind: Kind, seed: u64) -> Script {
    let mut random = Random::new(seed ^ ((kind as u64 + 1) << 56));
    random.next();
    let profile = match kind {
        Kind::Session => random.pick(&PROFILES[..SESSION]),
        Kind::Drill => random.pick(&PROFILES),
    };
    let commands = match random.below(10) {
        0 => random.between(3, 12),
        1..=4 => random.between(10, 60),
        5..=7 => random.between(40, 160),
        _ => random.between(150, 400),
    };
    let commands = match profile {
        // Full stores and queues take a hundred commands.
        Profile::Gaps | Profile::Brim => commands.max(150),
        _ => commands,
    };
    let mut writer = Writer::new(kind, profile, random, commands as usize);
    writer.start();
    while !writer.full() {
        writer.next();
    }
    writer.finish()
}
struct Writer {
    kind: Kind,
    profile: Profile,
    random: Random,
    run: Run,
    bytes: Vec<u8>,
    lines: Vec<u8>,
    features: Vec<Feature>,
    reached: BTreeSet<&'static str>,
    commands: usize,
    most: usize,
    /// The size of the steps of the clock, as a power of two.
    pace: u64,
    /// Out of 100 datagrams, how many are lost.
    loss: u64,
    /// Nothing is acked to the ends, so that their packets time out.
    deaf: bool,
    /// Payloads are short in most scripts, so that their lines are.
    short: bool,
}

impl Writer {
    fn new(kind: Kind, profile: Profile, mut random: Random, most: usize) -> Self {
        let pace = match profile {
            Profile::Ages => random.between(50, 59),
            _ => random.pick(&[4, 20, 24, 27, 29, 30, 31]),
        };
        let loss = random.pick(&[0, 5, 20, 50, 80]);
        let short = !random.one_in(4);
        Self {
            kind,
            profile,
            random,
            run: Run::new(kind, ORIGINAL),
            bytes: Vec::new(),
            lines: Vec::new(),
            features: Vec::new(),
            reached: BTreeSet::new(),
            commands: 0,
            most,
            pace,
            loss,
            deaf: profile == Profile::Brim,
            short,
        }
    }

    fn full(&self) -> bool {
        self.commands >= self.most || self.bytes.len() >= MAX_BYTES || self.lines.len() >= MAX_LINES
    }

    /// Runs a command and puts it into the script. Once the script is full nothing is added, so that a long move stops.
    fn put(&mut self, command: Vec<u8>) -> Outcome {
        if self.full() {
            return Outcome::None;
        }
        self.put_past(command)
    }

    fn put_past(&mut self, command: Vec<u8>) -> Outcome {
        let step = self.run.step(&command).expect("a command of the generator");
        assert_eq!(step.length, command.len());
        let end = match command[0] {
            0x16 | 0x17 => 0,
            _ => command[1] as usize,
        };
        let view = self.view(end);
        self.features.push((step.command, step.outcome, states::coarse(&view)));
        self.reached.extend(states::reached(&view));
        if matches!(step.command, "take" | "room") && step.outcome == Outcome::Ok && step.count == 0 {
            self.reached.insert("an empty batch");
        }
        self.bytes.extend(command);
        self.lines.extend(step.line.into_bytes());
        self.commands += 1;
        step.outcome
    }

    fn view(&self, end: usize) -> View {
        self.run.ends[end].view()
    }

    fn end(&mut self) -> usize {
        self.random.below(2) as usize
    }

    /// Finally the numbers of both ends, then in some scripts a command that ends the run.
    fn finish(mut self) -> Script {
        if self.kind == Kind::Drill {
            self.put_past(command::numbers(0));
            self.put_past(command::numbers(1));
        }
        if self.random.one_in(8) {
            let bad = self.bad_command();
            let at = self.bytes.len();
            assert!(self.run.step(&bad).is_none(), "{bad:02x?} is a command");
            self.bytes.extend(bad);
            self.lines.extend(format!("script {at}\n").into_bytes());
        }
        Script { kind: self.kind, bytes: self.bytes, lines: self.lines, features: self.features, reached: self.reached }
    }
}
