//! Clocks and lengths, chosen by the state of an end.

use super::*;

impl Writer {
    /// A step forward at the script's pace.
    pub(super) fn step(&mut self) -> u64 {
        let bits = self.pace;
        match self.random.below(6) {
            0 => 0,
            1 => self.random.below(3),
            // To the end of all clocks; `clock` stops there.
            2 if self.profile == Profile::Ages && self.random.one_in(8) => CLOCK_END,
            _ => self.random.sized(bits),
        }
    }

    /// A clock that the end takes: ahead of its last, below 2^60.
    pub(super) fn clock(&mut self, end: usize) -> u64 {
        let last = self.view(end).last_clock;
        (last + self.step()).min(CLOCK_END - 1)
    }

    /// At the deadline, next to it, or anywhere.
    pub(super) fn due_clock(&mut self, end: usize) -> u64 {
        let view = self.view(end);
        let deadline = view.numbers.deadline;
        let clock = match self.random.below(8) {
            0 => deadline - 1,
            1..=4 => deadline,
            5 => deadline + 1,
            6 => deadline + self.random.sized(self.pace),
            _ => view.last_clock + self.random.sized(self.pace),
        };
        clock.max(view.last_clock).min(CLOCK_END - 1)
    }

    /// Any clock, refused ones too.
    pub(super) fn any_clock(&mut self, end: usize) -> u64 {
        let last = self.view(end).last_clock;
        match self.random.below(24) {
            0 => last.saturating_sub(1),
            1 => self.random.pick(&[CLOCK_END, CLOCK_END + 1, u64::MAX]),
            2 if self.random.one_in(6) => CLOCK_END - 1,
            3..=9 => self.due_clock(end),
            _ => self.clock(end),
        }
    }

    pub(super) fn write_length(&mut self, view: &View) -> usize {
        let free = view.numbers.window.saturating_sub(view.numbers.inflight);
        let length = match self.random.below(14) {
            0 => self.random.pick(&[0, 1, 2]),
            1 => self.random.pick(&[1_379, 1_380, 1_381, 2_760, 2_761]),
            // The last byte that the window leaves room for, in one piece or several.
            2 => free,
            3 => free + 1,
            4 => free.saturating_sub(1),
            5 => free % 1_400,
            6 => self.random.pick(&[1_380 * 31, 1_380 * 32, 1_380 * 32 + 1, 65_535]),
            _ if self.short => self.random.between(1, 40),
            _ => self.random.between(1, 1_500),
        };
        length.min(65_535) as usize
    }

    pub(super) fn read_length(&mut self, view: &View) -> usize {
        let head = view.held.first().map_or(1, |(_, length, offset)| (length - offset) as u64);
        let length = match self.random.below(12) {
            0 => 0,
            1 => self.random.between(1, 9),
            2 => head.saturating_sub(1),
            3 | 4 => head,
            5 => head + 1,
            6 => head + self.random.between(1, 70),
            7 => 1_380,
            8 if !self.short => 4_096,
            _ => self.random.between(1, 64),
        };
        length.min(4_096) as usize
    }
}
