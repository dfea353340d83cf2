//! The original's calls with nothing in front of them, for bench/: what its driver has to do, and no more. A child of the original's
//! stream module, as end.rs is.

use super::*;
use crate::constants::UDX_HEADER_SIZE;
use crate::shim::{self, BytesMut};
use crate::udp::Transmit;
use tokio::sync::mpsc;

pub struct Direct {
    stream: UdxStream,
    /// Kept because a dropped driver would terminate the stream.
    _driver: Option<Box<dyn std::any::Any>>,
    send_rx: Receiver<EventOutgoing>,
    /// The largest ack delivered since the last drive, which poll_incoming would have found in the stream's channel.
    largest_ack: u32,
}

/// A stream that is locked for any number of calls: the lock is no part of the core.
pub struct Locked<'a> {
    inner: MutexGuard<'a, UdxStreamInner>,
    largest_ack: &'a mut u32,
}

fn context() -> Context<'static> {
    Context::from_waker(Waker::noop())
}

impl Direct {
    pub fn open(local: u32, remote: u32, segments: usize, clock: u64) -> Self {
        shim::set_clock(clock);
        let (_, recv_rx) = mpsc::unbounded_channel();
        let (send_tx, send_rx) = mpsc::unbounded_channel();
        let udp_state = Arc::new(UdpState::with_segments(segments));
        let stream = UdxStream::connect(recv_rx, send_tx, udp_state, shim::udp::nowhere(), remote, local);
        Self { stream, _driver: shim::task::spawned(), send_rx, largest_ack: 0 }
    }

    pub fn lock(&mut self) -> Locked<'_> {
        Locked { inner: self.stream.lock("bench"), largest_ack: &mut self.largest_ack }
    }

    /// The next batch of the last drive, with the mark that 01 has in place of the socket driver's (end.rs): time sent is that
    /// drive's clock, which is still set, and one transmit more. Every packet of a batch is stored when it is taken right after
    /// its drive, so end.rs's test of that is left out.
    pub fn take(&mut self) -> Option<Transmit> {
        let Some(EventOutgoing::Transmit(set)) = self.send_rx.try_recv() else {
            return None;
        };
        let transmit = set.to_transmit();
        for packet in set.iter_shared() {
            packet.time_sent.set_now();
            packet.transmits.fetch_add(1, Ordering::SeqCst);
        }
        Some(transmit)
    }
}

impl Locked<'_> {
    /// The bytes accepted, 0 if it has to wait.
    pub fn write(&mut self, bytes: &[u8]) -> usize {
        match Pin::new(&mut *self.inner).poll_write(&mut context(), bytes) {
            Poll::Ready(count) => count.expect("a stream without an error"),
            Poll::Pending => 0,
        }
    }

    /// As process_packet and poll_incoming do it, without the channel between them.
    pub fn deliver(&mut self, datagram: &[u8]) {
        let header = Header::from_bytes(datagram).expect("a header");
        let buf = BytesMut::from(&datagram[UDX_HEADER_SIZE..]).into();
        *self.largest_ack = header.ack.max(*self.largest_ack);
        self.inner.handle_incoming(IncomingPacket { header, buf, read_offset: 0, from: shim::udp::nowhere() });
    }

    /// An error ends the stream: its driver would terminate it.
    pub fn drive(&mut self, clock: u64) -> io::Result<bool> {
        shim::set_clock(clock);
        self.inner.handle_incoming_max_remote_ack(std::mem::take(self.largest_ack));
        self.inner.poll_drive(&mut context())
    }

    /// When the timer is due, if a packet waits for its ack.
    pub fn deadline(&self) -> Option<u64> {
        let waits = self.inner.remote_acked != self.inner.seq;
        waits.then(|| self.inner.rto_timeout.deadline().0.as_nanos() as u64)
    }

    /// The bytes put.
    pub fn read(&mut self, buf: &mut [u8]) -> usize {
        let mut buf = tokio::io::ReadBuf::new(buf);
        if let Poll::Ready(answer) = Pin::new(&mut *self.inner).poll_read(&mut context(), &mut buf) {
            answer.expect("a stream without an error");
        }
        buf.filled().len()
    }
}
