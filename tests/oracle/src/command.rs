//! The bytes of each command.

use crate::engine::Fields;

pub fn write(end: usize, length: usize, fill: u8) -> Vec<u8> {
    let length = (length as u16).to_le_bytes();
    vec![0x01, end as u8, length[0], length[1], fill]
}

pub fn drive(end: usize, clock: u64) -> Vec<u8> {
    [&[0x02, end as u8][..], &clock.to_le_bytes()].concat()
}

pub fn take(end: usize) -> Vec<u8> {
    vec![0x03, end as u8]
}

/// Hands datagram `number` of the other end to the receiving end.
pub fn hand(end: usize, number: usize, clock: u64) -> Vec<u8> {
    [&[0x04, end as u8][..], &(number as u16).to_le_bytes(), &clock.to_le_bytes()].concat()
}

pub fn read(end: usize, length: usize) -> Vec<u8> {
    [&[0x05, end as u8][..], &(length as u16).to_le_bytes()].concat()
}

pub fn close(end: usize) -> Vec<u8> {
    vec![0x06, end as u8]
}

pub fn raw(end: usize, clock: u64, datagram: &[u8]) -> Vec<u8> {
    [&[0x10, end as u8][..], &clock.to_le_bytes(), &(datagram.len() as u16).to_le_bytes(), datagram].concat()
}

pub fn base(end: usize, seq: u32, ack: u32, window: u32) -> Vec<u8> {
    [&[0x11, end as u8][..], &seq.to_le_bytes(), &ack.to_le_bytes(), &window.to_le_bytes()].concat()
}

pub fn open(end: usize, local: u32, remote: u32, ceiling: u8, clock: u64) -> Vec<u8> {
    [&[0x12, end as u8][..], &local.to_le_bytes(), &remote.to_le_bytes(), &[ceiling], &clock.to_le_bytes()].concat()
}

pub fn room(end: usize, length: usize) -> Vec<u8> {
    [&[0x13, end as u8][..], &(length as u16).to_le_bytes()].concat()
}

pub fn look(end: usize) -> Vec<u8> {
    vec![0x14, end as u8]
}

pub fn numbers(end: usize) -> Vec<u8> {
    vec![0x15, end as u8]
}

pub fn encode(length: usize, fields: Fields) -> Vec<u8> {
    let mut bytes = vec![0x16, length as u8, fields.typ, fields.offset];
    for word in [fields.id, fields.window, fields.seq, fields.ack] {
        bytes.extend(word.to_le_bytes());
    }
    bytes
}

pub fn decode(bytes: &[u8]) -> Vec<u8> {
    [&[0x17, bytes.len() as u8][..], bytes].concat()
}

pub fn spoil(end: usize, which: u8, call: u8, clock: u64) -> Vec<u8> {
    [&[0x18, end as u8, which, call][..], &clock.to_le_bytes()].concat()
}

/// A datagram for `raw`, written out here so that a wrong encoder cannot hide in it.
pub fn datagram(fields: Fields, payload: &[u8]) -> Vec<u8> {
    let mut bytes = vec![255, 1, fields.typ, fields.offset];
    for word in [fields.id, fields.window, fields.seq, fields.ack] {
        bytes.extend(word.to_le_bytes());
    }
    bytes.extend(payload);
    bytes
}

/// The payload of a SACK datagram: its blocks, and `after` more bytes. The last block counts only if bytes follow it.
pub fn blocks(blocks: &[(u32, u32)], after: usize) -> Vec<u8> {
    let mut bytes = Vec::new();
    for (start, end) in blocks {
        bytes.extend(start.to_le_bytes());
        bytes.extend(end.to_le_bytes());
    }
    bytes.extend(std::iter::repeat_n(0x5b, after));
    bytes
}
