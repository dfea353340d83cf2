//! The 20 bytes in front of every payload.
use crate::raw;
use crate::Refusal;

/// The length of a header.
pub const HEADER_SIZE: usize = 20;

/// The header of a datagram.
///
/// ```
/// use udx::Header;
///
/// let header = Header { typ: Header::DATA, data_offset: 0, stream_id: 2, recv_win: u32::MAX, seq: 7, ack: 3 };
/// let mut datagram = [0; 23];
/// header.encode(&mut datagram)?;
/// assert_eq!(datagram[..4], [255, 1, 1, 0]);
/// assert_eq!(Header::decode(&datagram), Ok(header));
/// assert_eq!(Header::decode(b"no header at all, though long"), Err(udx::Refusal::BadHeader));
/// # Ok::<(), udx::Refusal>(())
/// ```
#[derive(Clone, Copy, Debug, PartialEq, Eq, Hash)]
pub struct Header {
    /// Type bits: [`DATA`](Header::DATA), [`END`](Header::END), [`SACK`](Header::SACK).
    pub typ: u8,
    pub data_offset: u8,
    pub stream_id: u32,
    pub recv_win: u32,
    pub seq: u32,
    pub ack: u32,
}

impl Header {
    /// The datagram carries a payload at its seq.
    pub const DATA: u8 = 1;
    /// The sender has ended.
    pub const END: u8 = 2;
    /// The payload is a list of SACK blocks.
    pub const SACK: u8 = 4;

    /// Puts the header's 20 bytes at the front of `buf` and leaves the rest unchanged. Refusal 2 if `buf` is shorter.
    pub fn encode(&self, buf: &mut [u8]) -> Result<(), Refusal> {
        let header = raw::Header {
            stream_id: self.stream_id,
            recv_win: self.recv_win,
            seq: self.seq,
            ack: self.ack,
            typ: self.typ,
            data_offset: self.data_offset,
        };
        // SAFETY: pointer and length are those of a slice borrowed for the call.
        match unsafe { raw::udx_encode(header, buf.as_mut_ptr(), buf.len()) } {
            0 => Ok(()),
            number => Err(crate::refusal(number)),
        }
    }

    /// The header at the front of a datagram; what follows it is ignored. Refusal 7 if there is none.
    pub fn decode(datagram: &[u8]) -> Result<Header, Refusal> {
        // SAFETY: pointer and length are those of a slice borrowed for the call.
        let r = unsafe { raw::udx_decode(datagram.as_ptr(), datagram.len()) };
        if r.refusal != 0 {
            return Err(crate::refusal(r.refusal));
        }
        let h = r.header;
        Ok(Header {
            typ: h.typ,
            data_offset: h.data_offset,
            stream_id: h.stream_id,
            recv_win: h.recv_win,
            seq: h.seq,
            ack: h.ack,
        })
    }
}
