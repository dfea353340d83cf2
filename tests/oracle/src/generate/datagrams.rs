//! Datagrams for raw deliveries: valid, wrong and broken ones.

use super::*;

impl Writer {
    /// One that most likely is not refused.
    pub(super) fn likely_datagram(&mut self, end: usize, typ: u8) -> Vec<u8> {
        let view = self.view(end);
        let n = &view.numbers;
        let seq = n.ack + self.random.below(4);
        let ack = if self.deaf { n.remote_acked } else { self.random.between(n.remote_acked, n.seq) };
        let length = self.random.below(24) as usize;
        let payload: Vec<u8> = (0..length).map(|_| self.random.next() as u8).collect();
        let fields =
            Fields { typ, offset: 0, id: view.local_id, window: u32::MAX, seq: seq.min(u32::MAX as u64) as u32, ack: ack as u32 };
        command::datagram(fields, &payload)
    }

    pub(super) fn number_near(&mut self, low: u64, high: u64) -> u32 {
        let number = match self.random.below(12) {
            0 => low.saturating_sub(1),
            1 => low,
            2 => low + 1,
            3 => high,
            4 => high + 1,
            5 => high.saturating_sub(1),
            6 => self.random.pick(&[0, u32::MAX as u64, u32::MAX as u64 - 1]),
            7 => self.random.sized(32),
            _ => self.random.between(low, high.max(low)),
        };
        number.min(u32::MAX as u64) as u32
    }

    /// Blocks about the stored packets. The original walks over every number of a block, so most are short.
    pub(super) fn sack_blocks(&mut self, view: &View) -> Vec<(u32, u32)> {
        let (low, high) = (view.numbers.remote_acked, view.numbers.seq);
        let count = self.random.pick(&[0, 1, 1, 1, 2, 2, 3, 5, 9]);
        let mut list = Vec::new();
        for _ in 0..count {
            let start = self.number_near(low, high);
            let width = match self.random.below(8) {
                0 => 0,
                1 => self.random.below(5_000),
                2 => high.saturating_sub(start as u64),
                _ => self.random.between(1, 4),
            };
            let end = (start as u64 + width).min(u32::MAX as u64) as u32;
            list.push(if self.random.one_in(20) { (end, start) } else { (start, end) });
            // A block that goes down names nothing, unless it goes up after all.
            if list[list.len() - 1].1.saturating_sub(list[list.len() - 1].0) > 100_000 {
                list.pop();
            }
        }
        list
    }

    pub(super) fn any_datagram(&mut self, end: usize) -> Vec<u8> {
        if self.random.one_in(6) {
            return self.broken_datagram(end);
        }
        let view = self.view(end);
        let n = &view.numbers;
        let typ = if self.random.one_in(12) {
            self.random.pick(&[2, 3, 6, 7, 255])
        } else {
            self.random.pick(&[0, 0, 1, 1, 1, 1, 4, 4, 4, 5, 5, 8, 16, 253])
        };
        let payload = if typ & 4 != 0 && !self.random.one_in(5) {
            let blocks = self.sack_blocks(&view);
            let after = self.random.pick(&[0, 0, 0, 1, 1, 1, 1, 2, 7]);
            command::blocks(&blocks, after)
        } else {
            let length = match self.random.below(12) {
                0 => self.random.pick(&[1_379, 1_380, 1_381]),
                1 | 2 => 0,
                _ => self.random.below(20),
            };
            // Read as blocks by a SACK header, these name few numbers: their ends are below 2^16.
            let fill = if typ & 4 != 0 { 0 } else { self.random.next() as u8 };
            vec![fill; length as usize]
        };
        let seq = match self.random.below(3) {
            0 => self.number_near(n.read_cursor, n.read_cursor + 31),
            1 => self.number_near(n.ack, n.ack + 2),
            _ => n.ack as u32,
        };
        let ack = match self.random.below(3) {
            0 => n.seq as u32,
            _ => self.number_near(n.remote_acked, n.seq),
        };
        let id = if self.random.one_in(25) { self.random.sized(32) as u32 } else { view.local_id };
        let fields = Fields {
            typ,
            offset: if self.random.one_in(4) { self.random.next() as u8 } else { 0 },
            id,
            window: self.random.pick(&[u32::MAX, 0, 1]),
            seq,
            ack,
        };
        command::datagram(fields, &payload)
    }

    /// A kept datagram of the other end, or one made here, cut or with a byte changed.
    pub(super) fn broken_datagram(&mut self, end: usize) -> Vec<u8> {
        let kept = &self.run.kept[1 - end];
        let mut bytes = if kept.is_empty() || self.random.one_in(2) {
            self.likely_datagram(end, 1)
        } else {
            kept[self.random.below(kept.len() as u64) as usize].clone()
        };
        match self.random.below(6) {
            0 => bytes.truncate(self.random.below(21) as usize),
            1 => bytes.truncate(self.random.pick(&[19, 20])),
            2 => bytes[0] = self.random.next() as u8,
            3 => bytes[1] = self.random.next() as u8,
            _ => {
                // Not among the payload of a SACK header, which could then name billions of numbers.
                let at = self.random.pick(&[4, 5, 8, 12, 12, 13, 16, 16, 17]);
                bytes[at] = bytes[at].wrapping_add(self.random.pick(&[1, 255, 32, 2]));
            }
        }
        bytes
    }
}
