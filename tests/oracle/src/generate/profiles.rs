//! What a script of each profile does.

use super::*;

impl Writer {
    /// What must be there before the first move.
    pub(super) fn start(&mut self) {
        if self.kind == Kind::Session {
            return;
        }
        if self.random.one_in(3) || self.profile == Profile::LastNumbers {
            let (a, b) = (self.start_number(), self.start_number());
            let (a, b) = if self.profile == Profile::LastNumbers || self.random.one_in(2) { (a, b) } else { (0, 0) };
            let (v, w) = (self.window(), self.window());
            self.put(command::base(0, a, b, v));
            self.put(command::base(1, b, a, w));
        }
        if self.profile == Profile::Fill || self.profile == Profile::Sacked && self.random.one_in(2) {
            let window = self.random.pick(&[2_800, 5_000, 20_000, 46_000, 70_000]);
            self.put(command::base(0, 0, 0, window));
        }
        if self.random.one_in(3) {
            let end = self.end();
            let ceiling = self.random.between(1, 9) as u8;
            let view = self.view(end);
            self.put(command::open(end, view.local_id, view.remote_id, ceiling, view.last_clock));
        }
        if self.profile == Profile::Ages && self.random.one_in(2) {
            let clock = CLOCK_END - 1 - self.random.sized(40);
            self.put(command::open(0, 1, 2, 10, clock));
        }
    }

    pub(super) fn next(&mut self) {
        let end = self.end();
        // Little is left to test once an end has answered done.
        let ended = self.view(end).numbers.ended == 1;
        if ended && self.random.one_in(5) {
            self.most = self.commands;
        } else if ended && self.kind == Kind::Drill && self.random.one_in(4) {
            self.open(end);
        }
        if self.random.one_in(12) {
            return self.any(end);
        }
        match self.profile {
            Profile::Traffic => self.traffic(end),
            Profile::Silence => self.silence(0),
            Profile::Flood => {
                self.traffic(end);
                if self.random.one_in(3) {
                    self.flood(end);
                }
            }
            Profile::Fill => self.fill(end),
            Profile::Closing => self.closing(end),
            Profile::Ages => match self.random.below(3) {
                0 => self.silence(end),
                _ => self.traffic(end),
            },
            Profile::Rounds => self.round(end),
            Profile::Gaps => self.gap(end),
            Profile::Brim => self.brim(0),
            Profile::Chaos => self.any(end),
            Profile::Sacked => self.sacked(0),
            Profile::LastNumbers => match self.random.below(3) {
                0 => self.fill(end),
                1 => self.any_drill(end),
                _ => self.traffic(end),
            },
            Profile::Noise => {
                if self.random.one_in(3) {
                    self.traffic(end);
                } else {
                    let clock = self.any_clock(end);
                    let datagram = self.any_datagram(end);
                    self.put(command::raw(end, clock, &datagram));
                }
            }
            Profile::Borders => match self.random.below(3) {
                0 => self.traffic(end),
                _ => self.any_drill(end),
            },
        }
    }

    pub(super) fn any(&mut self, end: usize) {
        if self.kind == Kind::Drill && self.random.one_in(2) {
            self.any_drill(end);
        } else {
            self.any_session(end);
        }
    }

    pub(super) fn write_some(&mut self, end: usize) {
        for _ in 0..self.random.between(1, 4) {
            let length = self.write_length(&self.view(end));
            let fill = self.random.next() as u8;
            if self.put(command::write(end, length, fill)) != Outcome::Ok {
                break;
            }
        }
    }

    pub(super) fn traffic(&mut self, end: usize) {
        match self.random.weighted(&[5, 6, 4, 1, 3]) {
            0 => self.write_some(end),
            1 => self.exchange(end),
            2 => self.read_all(end),
            3 => {
                let clock = self.due_clock(end);
                self.drive(end, clock);
            }
            _ => self.round(end),
        }
    }

    /// Bytes over, acks back, and the drive that settles them.
    pub(super) fn round(&mut self, end: usize) {
        self.write_some(end);
        self.exchange(end);
        self.read_all(1 - end);
        self.exchange(1 - end);
        let clock = if self.random.one_in(4) { self.due_clock(end) } else { self.clock(end) };
        self.drive(end, clock);
    }

    /// All slots filled with short packets, one or two of which arrive last.
    pub(super) fn gap(&mut self, end: usize) {
        let length = self.random.between(1, 66) as usize;
        for fill in 0..self.random.pick(&[3, 31, 32, 33, 33]) {
            if self.put(command::write(end, length, fill)) != Outcome::Ok {
                break;
            }
        }
        let clock = self.clock(end);
        self.drive(end, clock);
        let kept = self.run.kept[end].len() as u64;
        let late = [self.random.below(3), self.random.below(kept.max(1))];
        for number in 0..kept {
            if !late.contains(&number) {
                let clock = self.clock(1 - end);
                self.put(command::hand(1 - end, number as usize, clock));
            }
        }
        if self.random.one_in(2) {
            self.read_all(1 - end);
        }
        if self.random.one_in(2) {
            self.exchange(1 - end);
        }
        for number in late.into_iter().filter(|number| *number < kept) {
            let clock = self.clock(1 - end);
            self.put(command::hand(1 - end, number as usize, clock));
        }
        self.read_all(1 - end);
        self.exchange(1 - end);
        let clock = self.due_clock(end);
        self.drive(end, clock);
    }

    /// Due drives until the next one fails, state packets up to 62 or 63, then that drive.
    pub(super) fn brim(&mut self, end: usize) {
        self.write_some(end);
        for _ in 0..6 {
            if self.view(end).stored.iter().any(|packet| packet.transmits > 5) {
                break;
            }
            let clock = self.view(end).numbers.deadline.min(CLOCK_END - 1);
            self.drive(end, clock);
        }
        self.pace = self.random.pick(&[0, 4]);
        self.flood(end);
        let clock = self.view(end).numbers.deadline.min(CLOCK_END - 1);
        self.drive(end, clock);
        self.traffic(end);
    }

    /// Due drives in a row: transmits 1, 3, 5, 7, then TimedOut, and on.
    pub(super) fn silence(&mut self, end: usize) {
        self.write_some(end);
        for _ in 0..self.random.between(1, 6) {
            let clock = self.due_clock(end);
            self.drive(end, clock);
            match self.random.below(10) {
                0 => self.write_some(end),
                1 => self.exchange(1 - end),
                2 => self.hand_newest(1 - end, 2),
                3 => self.read_all(end),
                _ => {}
            }
        }
        if self.random.one_in(6) {
            self.put(command::close(end));
        }
    }

    pub(super) fn fill(&mut self, end: usize) {
        for _ in 0..self.random.between(1, 40) {
            let length = match self.random.below(4) {
                0 => self.write_length(&self.view(end)),
                _ => self.random.between(1, 30) as usize,
            };
            let fill = self.random.next() as u8;
            let outcome = self.put(command::write(end, length, fill));
            if outcome != Outcome::Ok {
                break;
            }
        }
        self.exchange(end);
        if self.random.one_in(2) {
            self.exchange(1 - end);
        }
        if self.random.one_in(2) {
            self.read_all(1 - end);
        }
    }

    pub(super) fn closing(&mut self, end: usize) {
        match self.random.below(5) {
            0 => {
                self.put(command::close(end));
            }
            1 => self.exchange(end),
            2 => self.read_all(end),
            _ => self.traffic(end),
        }
    }

    /// Due drives until one packet times out, while SACK blocks take others away: those that wait, those that are queued, or all
    /// of them. Random moves seldom reach a TimedOut drive that finds the waiting packets gone.
    pub(super) fn sacked(&mut self, end: usize) {
        if self.view(end).stored.len() < 2 {
            for _ in 0..self.random.between(2, 12) {
                let length = self.random.pick(&[1, 2, 20, 300, 700, 1_380]);
                self.put(command::write(end, length, 0x73));
            }
        }
        let clock = self.due_clock(end);
        if self.random.one_in(4) {
            self.sack_stored(end);
        }
        self.drive(end, clock);
        if self.random.one_in(2) {
            self.sack_stored(end);
        }
        if self.random.one_in(5) {
            let length = self.random.pick(&[1, 30, 1_380]);
            self.put(command::write(end, length, 0x74));
        }
        if self.random.one_in(3) {
            self.put(command::numbers(end));
        }
    }

    /// A SACK of some of the stored packets, rarely with an ack that moves.
    pub(super) fn sack_stored(&mut self, end: usize) {
        let view = self.view(end);
        let n = &view.numbers;
        let way = self.random.below(5);
        let mut list = Vec::new();
        for packet in &view.stored {
            let named = match way {
                0 => packet.waiting,
                1 => !packet.waiting,
                2 => packet.transmits < 6,
                3 => true,
                _ => self.random.one_in(2),
            };
            if named {
                list.push((packet.number, packet.number + 1));
            }
        }
        if self.random.one_in(3) {
            list.truncate(1);
        }
        let ack = if self.random.one_in(6) { self.number_near(n.remote_acked, n.seq) } else { n.remote_acked as u32 };
        let typ = self.random.pick(&[4, 4, 4, 4, 6, 5]);
        let fields = Fields { typ, offset: 0, id: view.local_id, window: u32::MAX, seq: n.ack as u32, ack };
        let datagram = command::datagram(fields, &command::blocks(&list, 1));
        let clock = self.clock(end);
        self.put(command::raw(end, clock, &datagram));
    }
}
