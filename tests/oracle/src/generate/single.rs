//! Any single command, refused ones too, and the ones that end a run.

use super::*;

impl Writer {
    pub(super) fn any_session(&mut self, end: usize) {
        let view = self.view(end);
        match self.random.weighted(&[6, 6, 6, 6, 5, 1]) {
            0 => {
                let length = self.write_length(&view);
                let fill = self.random.next() as u8;
                self.put(command::write(end, length, fill));
            }
            1 => {
                let clock = self.any_clock(end);
                self.put(command::drive(end, clock));
            }
            2 => {
                self.put(command::take(end));
            }
            3 => {
                let kept = self.run.kept[1 - end].len();
                if kept > 0 {
                    let number = self.random.below(kept as u64) as usize;
                    let clock = self.any_clock(end);
                    self.put(command::hand(end, number, clock));
                }
            }
            4 => {
                let length = self.read_length(&view);
                self.put(command::read(end, length));
            }
            _ => {
                self.put(command::close(end));
            }
        }
    }

    pub(super) fn any_drill(&mut self, end: usize) {
        let view = self.view(end);
        match self.random.weighted(&[14, 1, 1, 3, 3, 4, 2, 2, 5]) {
            0 => {
                let clock = self.any_clock(end);
                let datagram = self.any_datagram(end);
                self.put(command::raw(end, clock, &datagram));
            }
            1 => self.base(end),
            2 => self.open(end),
            3 => {
                let length = match self.random.below(6) {
                    0 => 13_999,
                    1 => self.random.below(14_000),
                    _ => 14_000,
                };
                self.put(command::room(end, length as usize));
            }
            4 => {
                self.put(command::look(end));
            }
            5 => {
                self.put(command::numbers(end));
            }
            6 => {
                let length = self.random.pick(&[0, 1, 19, 20, 20, 20, 21, 40, 64]);
                let fields = self.any_fields();
                self.put(command::encode(length, fields));
            }
            7 => {
                let mut bytes = command::datagram(self.any_fields(), &[7; 44]);
                bytes.truncate(self.random.pick(&[0, 1, 2, 19, 20, 20, 20, 21, 64]));
                if self.random.one_in(3) && bytes.len() >= 2 {
                    let at = self.random.below(2) as usize;
                    bytes[at] = self.random.next() as u8;
                }
                self.put(command::decode(&bytes));
            }
            _ => {
                let which = if self.random.one_in(3) { 0 } else { self.random.below(25) as u8 };
                let call = self.random.below(8) as u8;
                let clock = match self.random.below(5) {
                    0 => CLOCK_END,
                    1 => view.last_clock.saturating_sub(1),
                    _ => self.any_clock(end),
                };
                self.put(command::spoil(end, which, call, clock));
            }
        }
    }

    pub(super) fn any_fields(&mut self) -> Fields {
        Fields {
            typ: self.random.next() as u8,
            offset: self.random.next() as u8,
            id: self.random.sized(32) as u32,
            window: self.random.sized(32) as u32,
            seq: self.random.sized(32) as u32,
            ack: self.random.sized(32) as u32,
        }
    }

    pub(super) fn window(&mut self) -> u32 {
        let few = self.random.sized(32) as u32;
        self.random.pick(&[
            1_399,
            1_400,
            1_401,
            2_800,
            2_801,
            10_000,
            45_000,
            65_533,
            65_534,
            65_535,
            66_934,
            1_959_999,
            1_960_000,
            1_960_001,
            u32::MAX - 1_400,
            u32::MAX - 1,
            u32::MAX,
            few,
        ])
    }

    pub(super) fn start_number(&mut self) -> u32 {
        let few = self.random.sized(32) as u32;
        let back = self.random.below(70) as u32;
        self.random.pick(&[0, 1, u32::MAX, u32::MAX - 1, u32::MAX - 2, u32::MAX - 31, u32::MAX - 32, u32::MAX - back, few])
    }

    pub(super) fn base(&mut self, end: usize) {
        let (seq, ack, window) = (self.start_number(), self.start_number(), self.window());
        self.put(command::base(end, seq, ack, window));
    }

    pub(super) fn open(&mut self, end: usize) {
        let view = self.view(end);
        let (local, remote) = match self.random.below(4) {
            0 => (self.random.sized(32) as u32, self.random.sized(32) as u32),
            _ => (view.local_id, view.remote_id),
        };
        let ceiling = self.random.pick(&[0, 1, 2, 3, 9, 10, 10, 11, 255]);
        let clock = match self.random.below(10) {
            0 => self.random.pick(&[CLOCK_END, CLOCK_END - 1, u64::MAX]),
            1..=3 => 0,
            _ => view.last_clock,
        };
        self.put(command::open(end, local, remote, ceiling, clock));
    }

    pub(super) fn bad_command(&mut self) -> Vec<u8> {
        let kept = self.run.kept[1].len();
        let unknown: &[u8] = match self.kind {
            Kind::Session => &[0x00, 0x07, 0x08, 0x10, 0x18, 0x7f, 0xff],
            Kind::Drill => &[0x00, 0x07, 0x08, 0x0f, 0x19, 0x1a, 0xff],
        };
        let mut list = vec![
            vec![self.random.pick(unknown), 0, 0, 0],
            command::read(0, 4_097),
            command::read(1, 65_535),
            command::hand(0, kept, 0),
            command::hand(0, 32, 0),
            command::take(2),
            command::close(255),
            command::write(2, 1, 1),
            command::drive(2, 0),
            command::read(2, 1),
        ];
        let mut whole = vec![
            command::write(0, 1, 1),
            command::drive(0, 0),
            command::take(0),
            command::hand(0, 0, 0),
            command::read(0, 1),
            command::close(0),
        ];
        if self.kind == Kind::Drill {
            list.extend([
                command::room(0, 14_001),
                command::room(0, 65_535),
                command::encode(65, self.any_fields()),
                vec![[0x17, 65].to_vec(), vec![0; 65]].concat(),
                command::spoil(0, 25, 0, 0),
                command::spoil(0, 0, 8, 0),
                command::spoil(2, 0, 0, 0),
                command::look(2),
                command::numbers(2),
                command::raw(2, 0, &[]),
                command::base(2, 0, 0, 2_800),
                command::open(2, 1, 2, 10, 0),
            ]);
            whole.extend([
                command::raw(0, 0, &[255; 20]),
                command::base(0, 0, 0, 2_800),
                command::open(0, 1, 2, 10, 0),
                command::room(0, 14_000),
                command::look(0),
                command::numbers(0),
                command::encode(20, self.any_fields()),
                command::decode(&[255; 20]),
                command::spoil(0, 0, 0, 0),
            ]);
        }
        if self.random.one_in(2) {
            return list.swap_remove(self.random.below(list.len() as u64) as usize);
        }
        // Cut short, by one byte or more.
        let mut one = whole.swap_remove(self.random.below(whole.len() as u64) as usize);
        let keep = if self.random.one_in(2) { one.len() - 1 } else { self.random.between(1, one.len() as u64 - 1) as usize };
        one.truncate(keep);
        one
    }
}
