//! The socket's part of a delivery: process_packet of a socket that knows one stream, with no UDP socket behind it.

use super::*;

impl UdxSocketInner {
    /// A socket without a UDP socket. What a stream sends through it goes to `send_rx`.
    pub(crate) fn detached(segments: usize) -> Self {
        let (send_tx, send_rx) = mpsc::unbounded_channel();
        Self {
            socket: UdpSocket,
            send_rx,
            send_tx,
            streams: HashMap::new(),
            recv_buf: None,
            udp_state: Arc::new(UdpState::with_segments(segments)),
            outgoing_transmits: VecDeque::new(),
            outgoing_packet_sets: VecDeque::new(),
            stats: SocketStats::default(),
            has_refs: true,
            drive_waker: None,
            send_overflow_timer: None,
            recv_waker: None,
            recv_dgrams: VecDeque::new(),
        }
    }

    /// The batches that the stream has sent since the last call.
    pub(crate) fn sent(&mut self) -> VecDeque<PacketSet> {
        let mut sets = VecDeque::new();
        while let Some(event) = self.send_rx.try_recv() {
            if let EventOutgoing::Transmit(set) = event {
                sets.push_back(set);
            }
        }
        sets
    }

    /// False if process_packet hands the datagram back: no header, or no stream with that id. Else the packet is in the stream's
    /// channel.
    pub(crate) fn accepts(&mut self, datagram: &[u8]) -> bool {
        self.process_packet(datagram.into(), &RecvMeta::default()).is_ok()
    }
}
