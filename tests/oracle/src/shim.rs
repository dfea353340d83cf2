//! Stand-ins for the crates that the original uses, as small as its calls allow. The crate root gives them the original's paths
//! (`extern crate self as tokio`, ..).

use std::cell::Cell;

thread_local! {
    static CLOCK: Cell<u64> = const { Cell::new(0) };
}

/// Sets the clock, in nanoseconds, that every instant of the original is read from.
pub fn set_clock(nanos: u64) {
    CLOCK.with(|c| c.set(nanos));
}

fn clock() -> u64 {
    CLOCK.with(|c| c.get())
}

/// tokio::time, due to the nanosecond.
pub mod time {
    use std::future::Future;
    use std::pin::Pin;
    use std::task::{Context, Poll};
    use std::time::Duration;

    #[derive(Debug, Clone, Copy, PartialEq, Eq, PartialOrd, Ord)]
    pub struct Instant(pub Duration);

    impl Instant {
        pub fn now() -> Self {
            Self(Duration::from_nanos(super::clock()))
        }
        pub fn checked_add(&self, span: Duration) -> Option<Self> {
            self.0.checked_add(span).map(Self)
        }
    }

    #[derive(Debug)]
    pub struct Sleep {
        deadline: Instant,
    }

    impl Sleep {
        pub fn reset(mut self: Pin<&mut Self>, deadline: Instant) {
            self.deadline = deadline;
        }
        pub fn deadline(&self) -> Instant {
            self.deadline
        }
    }

    impl Future for Sleep {
        type Output = ();
        fn poll(self: Pin<&mut Self>, _cx: &mut Context<'_>) -> Poll<()> {
            if self.deadline <= Instant::now() { Poll::Ready(()) } else { Poll::Pending }
        }
    }

    pub fn sleep(span: Duration) -> Sleep {
        Sleep { deadline: Instant::now().checked_add(span).unwrap() }
    }
}

/// tokio::sync: an unbounded channel and a one-shot one.
pub mod sync {
    pub mod mpsc {
        use std::collections::VecDeque;
        use std::sync::{Arc, Mutex};
        use std::task::{Context, Poll};

        type Shared<T> = Arc<Mutex<VecDeque<T>>>;

        #[derive(Debug)]
        pub struct UnboundedSender<T>(Shared<T>);
        #[derive(Debug)]
        pub struct UnboundedReceiver<T>(Shared<T>);
        #[derive(Debug)]
        pub struct SendError<T>(pub T);

        impl<T> Clone for UnboundedSender<T> {
            fn clone(&self) -> Self {
                Self(self.0.clone())
            }
        }

        impl<T> UnboundedSender<T> {
            pub fn send(&self, value: T) -> Result<(), SendError<T>> {
                self.0.lock().unwrap().push_back(value);
                Ok(())
            }
        }

        impl<T> UnboundedReceiver<T> {
            /// Never closed: an end keeps the other side of each of its channels.
            pub fn poll_recv(&mut self, _cx: &mut Context<'_>) -> Poll<Option<T>> {
                match self.try_recv() {
                    Some(value) => Poll::Ready(Some(value)),
                    None => Poll::Pending,
                }
            }
            pub fn try_recv(&mut self) -> Option<T> {
                self.0.lock().unwrap().pop_front()
            }
        }

        pub fn unbounded_channel<T>() -> (UnboundedSender<T>, UnboundedReceiver<T>) {
            let shared = Arc::new(Mutex::new(VecDeque::new()));
            (UnboundedSender(shared.clone()), UnboundedReceiver(shared))
        }
    }

    pub mod oneshot {
        use std::future::Future;
        use std::pin::Pin;
        use std::sync::{Arc, Mutex};
        use std::task::{Context, Poll};

        pub struct Sender<T>(Arc<Mutex<Option<T>>>);
        pub struct Receiver<T>(Arc<Mutex<Option<T>>>);

        impl<T> Sender<T> {
            pub fn send(self, value: T) -> Result<(), T> {
                *self.0.lock().unwrap() = Some(value);
                Ok(())
            }
        }

        impl<T> Future for Receiver<T> {
            type Output = Result<T, ()>;
            fn poll(self: Pin<&mut Self>, _cx: &mut Context<'_>) -> Poll<Self::Output> {
                match self.0.lock().unwrap().take() {
                    Some(value) => Poll::Ready(Ok(value)),
                    None => Poll::Pending,
                }
            }
        }

        pub fn channel<T>() -> (Sender<T>, Receiver<T>) {
            let shared = Arc::new(Mutex::new(None));
            (Sender(shared.clone()), Receiver(shared))
        }
    }
}

/// tokio::io: the two traits, and a read buffer that counts what was put.
pub mod io {
    use std::io;
    use std::pin::Pin;
    use std::task::{Context, Poll};

    pub struct ReadBuf<'a> {
        buf: &'a mut [u8],
        filled: usize,
    }

    impl<'a> ReadBuf<'a> {
        pub fn new(buf: &'a mut [u8]) -> Self {
            Self { buf, filled: 0 }
        }
        pub fn remaining(&self) -> usize {
            self.buf.len() - self.filled
        }
        pub fn put_slice(&mut self, bytes: &[u8]) {
            self.buf[self.filled..self.filled + bytes.len()].copy_from_slice(bytes);
            self.filled += bytes.len();
        }
        pub fn filled(&self) -> &[u8] {
            &self.buf[..self.filled]
        }
    }

    pub trait AsyncRead {
        fn poll_read(self: Pin<&mut Self>, cx: &mut Context<'_>, buf: &mut ReadBuf<'_>) -> Poll<io::Result<()>>;
    }

    pub trait AsyncWrite {
        fn poll_write(self: Pin<&mut Self>, cx: &mut Context<'_>, buf: &[u8]) -> Poll<io::Result<usize>>;
        fn poll_flush(self: Pin<&mut Self>, cx: &mut Context<'_>) -> Poll<io::Result<()>>;
        fn poll_shutdown(self: Pin<&mut Self>, cx: &mut Context<'_>) -> Poll<io::Result<()>>;
    }
}

/// tokio::task: nothing runs by itself. Dropping a stream's driver would terminate the stream, so the one spawned last is kept
/// until its end fetches it and keeps it beside the stream.
pub mod task {
    use std::any::Any;
    use std::cell::RefCell;

    thread_local! {
        static SPAWNED: RefCell<Option<Box<dyn Any>>> = const { RefCell::new(None) };
    }

    pub fn spawn<F: 'static>(future: F) {
        SPAWNED.with(|s| *s.borrow_mut() = Some(Box::new(future)));
    }

    pub fn spawned() -> Option<Box<dyn Any>> {
        SPAWNED.with(|s| s.borrow_mut().take())
    }
}

pub use std::future::Future;

/// futures::FutureExt: `map` alone.
pub trait FutureExt: Future + Sized {
    fn map<U, F: FnOnce(Self::Output) -> U>(self, f: F) -> impl Future<Output = U> {
        async move { f(self.await) }
    }
}
impl<F: Future + Sized> FutureExt for F {}

/// parking_lot::Mutex: std's, without its poisoning.
#[derive(Debug)]
pub struct Mutex<T>(std::sync::Mutex<T>);
pub type MutexGuard<'a, T> = std::sync::MutexGuard<'a, T>;

impl<T> Mutex<T> {
    pub fn new(value: T) -> Self {
        Self(std::sync::Mutex::new(value))
    }
    pub fn lock(&self) -> MutexGuard<'_, T> {
        self.0.lock().unwrap_or_else(std::sync::PoisonError::into_inner)
    }
}

/// bytes: shared bytes, bytes that can be cut, and `put_slice` on a Vec.
#[derive(Debug, Clone)]
pub struct Bytes(std::sync::Arc<[u8]>);
#[derive(Debug)]
pub struct BytesMut(Vec<u8>);

pub trait BufMut {
    fn put_slice(&mut self, bytes: &[u8]);
}

impl BufMut for Vec<u8> {
    fn put_slice(&mut self, bytes: &[u8]) {
        self.extend_from_slice(bytes);
    }
}

impl BytesMut {
    pub fn split_to(&mut self, at: usize) -> BytesMut {
        let rest = self.0.split_off(at);
        BytesMut(std::mem::replace(&mut self.0, rest))
    }
}

impl From<&[u8]> for BytesMut {
    fn from(bytes: &[u8]) -> Self {
        Self(bytes.to_vec())
    }
}

impl From<BytesMut> for Bytes {
    fn from(bytes: BytesMut) -> Self {
        Self(bytes.0.into())
    }
}

impl std::ops::Deref for Bytes {
    type Target = [u8];
    fn deref(&self) -> &[u8] {
        &self.0
    }
}

impl std::ops::Deref for BytesMut {
    type Target = [u8];
    fn deref(&self) -> &[u8] {
        &self.0
    }
}

/// atomic_instant::AtomicInstant on the stepped clock.
pub struct AtomicInstant(std::sync::atomic::AtomicU64);

impl AtomicInstant {
    const EMPTY: u64 = u64::MAX;
    pub fn empty() -> Self {
        Self(Self::EMPTY.into())
    }
    pub fn is_empty(&self) -> bool {
        self.nanos() == Self::EMPTY
    }
    pub fn set_now(&self) {
        self.0.store(clock(), std::sync::atomic::Ordering::SeqCst);
    }
    pub fn elapsed(&self) -> std::time::Duration {
        std::time::Duration::from_nanos(clock() - self.nanos())
    }
    pub fn nanos(&self) -> u64 {
        self.0.load(std::sync::atomic::Ordering::SeqCst)
    }
    pub fn copy(&self) -> Self {
        Self(self.nanos().into())
    }
}

/// udx_udp: no socket is opened; only its segment ceiling is ever used.
pub mod udp {
    use std::io::{self, IoSliceMut};
    use std::net::{IpAddr, Ipv4Addr, SocketAddr};
    use std::task::{Context, Poll};

    pub const BATCH_SIZE: usize = 1;

    #[derive(Debug)]
    pub struct UdpState {
        segments: usize,
    }

    impl UdpState {
        pub fn new() -> Self {
            Self::with_segments(1)
        }
        pub fn with_segments(segments: usize) -> Self {
            Self { segments }
        }
        pub fn max_gso_segments(&self) -> usize {
            self.segments
        }
    }

    #[derive(Debug)]
    pub struct Transmit {
        pub destination: SocketAddr,
        pub ecn: Option<u8>,
        pub contents: Vec<u8>,
        pub segment_size: Option<usize>,
        pub src_ip: Option<IpAddr>,
    }

    impl Transmit {
        pub fn num_segments(&self) -> usize {
            self.segment_size.map_or(1, |size| self.contents.len().div_ceil(size))
        }
    }

    #[derive(Debug, Clone, Copy)]
    pub struct RecvMeta {
        pub addr: SocketAddr,
        pub len: usize,
    }

    impl Default for RecvMeta {
        fn default() -> Self {
            Self { addr: nowhere(), len: 0 }
        }
    }

    pub fn nowhere() -> SocketAddr {
        SocketAddr::new(IpAddr::V4(Ipv4Addr::LOCALHOST), 0)
    }

    #[derive(Debug)]
    pub struct UdpSocket;

    impl UdpSocket {
        pub fn from_std(_socket: std::net::UdpSocket) -> io::Result<Self> {
            Ok(Self)
        }
        pub fn local_addr(&self) -> io::Result<SocketAddr> {
            Ok(nowhere())
        }
        pub fn poll_send(&self, _: &UdpState, _: &mut Context<'_>, _: &[Transmit]) -> Poll<io::Result<usize>> {
            Poll::Pending
        }
        pub fn poll_recv(&self, _: &mut Context<'_>, _: &mut [IoSliceMut<'_>], _: &mut [RecvMeta]) -> Poll<io::Result<usize>> {
            Poll::Pending
        }
    }
}

/// tracing and log: arguments are borrowed, so that they count as used, and nothing is written.
#[macro_export]
macro_rules! nothing {
    ($($field:ident = $value:expr,)* $text:literal $(, $arg:expr)* $(,)?) => {{
        $(let _ = &$value;)*
        $(let _ = &$arg;)*
    }};
}
