//! The archive's functions and structs, as include/udx.h declares them; `tests` checks the layout against the archive.

#[repr(C)]
#[derive(Clone, Copy, Debug, PartialEq)]
pub struct Ids {
    pub local: u32,
    pub remote: u32,
    pub segments: u8,
}

#[repr(C)]
#[derive(Clone, Copy, Debug, PartialEq)]
pub struct Sender {
    pub seq: u32,
    pub remote_acked: u32,
    pub largest_ack: u32,
    pub inflight: u32,
    pub cwnd: u32,
}

#[repr(C)]
#[derive(Clone, Copy, Debug, PartialEq)]
pub struct Receiver {
    pub ack: u32,
    pub read_cursor: u32,
    pub top: u32,
}

#[repr(C)]
#[derive(Clone, Copy, Debug, PartialEq)]
pub struct Queue {
    pub count: u32,
    pub left: u32,
    pub states: u32,
    pub gone: u32,
}

#[repr(C)]
#[derive(Clone, Copy, Debug, PartialEq)]
pub struct Timing {
    pub srtt: u64,
    pub rttvar: u64,
    pub rto: u64,
    pub deadline: u64,
}

#[repr(C)]
#[derive(Clone, Copy, Debug, PartialEq)]
pub struct Clocks {
    pub last: u64,
    pub drive: u64,
}

#[repr(C)]
#[derive(Clone, Copy, Debug, PartialEq)]
pub struct Ending {
    pub error: u8,
    pub state: u8,
    pub ended: u8,
}

#[repr(C)]
#[derive(Clone, Copy, Debug, PartialEq)]
pub struct Stream {
    pub ids: Ids,
    pub sender: Sender,
    pub receiver: Receiver,
    pub queue: Queue,
    pub timing: Timing,
    pub clocks: Clocks,
    pub ending: Ending,
}

#[repr(C)]
#[derive(Clone, Copy, Debug, PartialEq)]
pub struct Totals {
    pub tx_packets: u64,
    pub tx_bytes: u64,
    pub rx_packets: u64,
    pub rx_bytes: u64,
    pub inflight_packets: u64,
    pub inflight_bytes: u64,
}

#[repr(C)]
#[derive(Clone, Copy, Debug, PartialEq)]
pub struct Step {
    pub stream: Stream,
    pub totals: Totals,
    pub count: usize,
    pub segment: usize,
    pub outcome: u8,
    pub refusal: u8,
}

#[repr(C)]
#[derive(Clone, Copy, Debug, PartialEq)]
pub struct Part {
    pub start: usize,
    pub length: usize,
    pub header: u8,
}

#[repr(C)]
#[derive(Clone, Copy, Debug, PartialEq)]
pub struct Header {
    pub stream_id: u32,
    pub recv_win: u32,
    pub seq: u32,
    pub ack: u32,
    pub typ: u8,
    pub data_offset: u8,
}

#[repr(C)]
#[derive(Clone, Copy, Debug, PartialEq)]
pub struct Decoded {
    pub header: Header,
    pub outcome: u8,
    pub refusal: u8,
}

#[repr(C)]
#[cfg(test)]
pub struct Numbers {
    pub n: [u64; 24],
}

pub type Sent = [u64; 64];
pub type Held = [u64; 32];
pub type Entries = [u64; 128];

pub const OUTGOING_STORE: usize = 44_800;
pub const INCOMING_STORE: usize = 44_160;
pub const HEADER_STORE: usize = 1_280;

extern "C" {
    pub fn udx_open(
        local: u32,
        remote: u32,
        segments: u8,
        clock: u64,
        outgoing: *const u8,
        outgoing_length: usize,
        incoming: *const u8,
        incoming_length: usize,
        headers: *const u8,
        headers_length: usize,
    ) -> Step;
    pub fn udx_write(
        stream: Stream,
        totals: Totals,
        sent: *mut Sent,
        held: *const Held,
        queue: *mut Entries,
        outgoing: *mut u8,
        outgoing_length: usize,
        incoming: *const u8,
        incoming_length: usize,
        headers: *const u8,
        headers_length: usize,
        bytes: *const u8,
        length: usize,
    ) -> Step;
    pub fn udx_deliver(
        stream: Stream,
        totals: Totals,
        sent: *mut Sent,
        held: *mut Held,
        queue: *mut Entries,
        outgoing: *const u8,
        outgoing_length: usize,
        incoming: *mut u8,
        incoming_length: usize,
        headers: *mut u8,
        headers_length: usize,
        datagram: *const u8,
        length: usize,
        clock: u64,
    ) -> Step;
    pub fn udx_drive(
        stream: Stream,
        totals: Totals,
        sent: *mut Sent,
        held: *const Held,
        queue: *mut Entries,
        outgoing: *const u8,
        outgoing_length: usize,
        incoming: *const u8,
        incoming_length: usize,
        headers: *mut u8,
        headers_length: usize,
        clock: u64,
    ) -> Step;
    pub fn udx_take(
        stream: Stream,
        totals: Totals,
        sent: *mut Sent,
        held: *const Held,
        queue: *const Entries,
        outgoing: *const u8,
        outgoing_length: usize,
        incoming: *const u8,
        incoming_length: usize,
        headers: *const u8,
        headers_length: usize,
        buf: *mut u8,
        length: usize,
    ) -> Step;
    pub fn udx_look(
        stream: Stream,
        totals: Totals,
        sent: *const Sent,
        held: *const Held,
        queue: *const Entries,
        outgoing: *const u8,
        outgoing_length: usize,
        incoming: *const u8,
        incoming_length: usize,
        headers: *const u8,
        headers_length: usize,
    ) -> Part;
    pub fn udx_read(
        stream: Stream,
        totals: Totals,
        sent: *const Sent,
        held: *mut Held,
        queue: *const Entries,
        outgoing: *const u8,
        outgoing_length: usize,
        incoming: *const u8,
        incoming_length: usize,
        headers: *const u8,
        headers_length: usize,
        buf: *mut u8,
        length: usize,
    ) -> Step;
    pub fn udx_close(
        stream: Stream,
        totals: Totals,
        sent: *const Sent,
        held: *const Held,
        queue: *mut Entries,
        outgoing: *const u8,
        outgoing_length: usize,
        incoming: *const u8,
        incoming_length: usize,
        headers: *mut u8,
        headers_length: usize,
    ) -> Step;
    pub fn udx_encode(header: Header, buf: *mut u8, length: usize) -> u8;
    pub fn udx_decode(datagram: *const u8, length: usize) -> Decoded;
    #[cfg(test)]
    pub fn udx_layout_stream(stream: Stream) -> Numbers;
    #[cfg(test)]
    pub fn udx_layout_totals(stream: Stream, totals: Totals) -> Numbers;
    #[cfg(test)]
    pub fn udx_layout_step() -> Step;
}
