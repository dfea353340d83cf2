//! Moves of several commands: what two ends that talk to each other do.

use super::*;

impl Writer {
    pub(super) fn take_all(&mut self, end: usize) {
        loop {
            if self.kind == Kind::Drill && self.random.one_in(8) {
                self.put(command::look(end));
            }
            let one =
                if self.kind == Kind::Drill && self.random.one_in(3) { command::room(end, 14_000) } else { command::take(end) };
            if self.put(one) != Outcome::Ok || self.full() {
                break;
            }
        }
    }

    pub(super) fn drive(&mut self, end: usize, clock: u64) -> Outcome {
        let outcome = self.put(command::drive(end, clock));
        if outcome == Outcome::Ok {
            self.take_all(end);
        }
        outcome
    }

    /// Hands the newest `count` datagrams of the other end over, with the script's loss, some twice, some out of order.
    pub(super) fn hand_newest(&mut self, end: usize, count: usize) {
        let kept = self.run.kept[1 - end].len();
        let mut order: Vec<usize> = (kept - count.min(kept)..kept).collect();
        if self.random.one_in(3) && order.len() > 1 {
            for _ in 0..3 {
                let (a, b) = (self.random.below(order.len() as u64), self.random.below(order.len() as u64));
                order.swap(a as usize, b as usize);
            }
        }
        for number in order {
            if self.random.below(100) < self.loss {
                continue;
            }
            let clock = self.clock(end);
            self.put(command::hand(end, number, clock));
            if self.random.one_in(12) {
                let clock = self.clock(end);
                self.put(command::hand(end, number, clock));
            }
        }
    }

    /// One end sends what it has, the other one receives it.
    pub(super) fn exchange(&mut self, from: usize) {
        let before = self.run.kept[from].len();
        let clock = if self.random.one_in(5) { self.due_clock(from) } else { self.clock(from) };
        self.drive(from, clock);
        let taken = self.run.kept[from].len().max(before) - before;
        let count = if before == 32 { self.random.between(1, 8) as usize } else { taken };
        self.hand_newest(1 - from, count);
    }

    pub(super) fn read_all(&mut self, end: usize) {
        for _ in 0..self.random.between(1, 5) {
            let length = self.read_length(&self.view(end));
            if self.put(command::read(end, length)) != Outcome::Ok {
                break;
            }
        }
    }

    /// Deliveries until the queue of state packets is full, and what is refused then.
    pub(super) fn flood(&mut self, end: usize) {
        if self.run.kept[1 - end].is_empty() && self.kind == Kind::Session {
            self.put(command::write(1 - end, 5, 0x66));
            let clock = self.clock(1 - end);
            self.drive(1 - end, clock);
        }
        let stop = self.random.pick(&[60, 61, 62, 63, 64]);
        while self.view(end).states < stop && !self.full() {
            let before = self.view(end).states;
            let clock = self.clock(end);
            let kept = self.run.kept[1 - end].len();
            if self.kind == Kind::Drill && self.random.one_in(2) {
                let typ = self.random.pick(&[1, 1, 1, 2, 3]);
                let datagram = self.likely_datagram(end, typ);
                self.put(command::raw(end, clock, &datagram));
            } else if kept > 0 {
                let number = self.random.below(kept as u64) as usize;
                self.put(command::hand(end, number, clock));
            }
            if self.view(end).states == before && self.random.one_in(3) {
                if self.put(command::close(end)) != Outcome::Ok {
                    break;
                }
            }
        }
        if self.kind == Kind::Drill {
            for call in [4, 6] {
                let clock = self.clock(end);
                self.put(command::spoil(end, 0, call, clock));
            }
        }
        for _ in 0..self.random.between(1, 4) {
            self.any_session(end);
        }
    }
}
