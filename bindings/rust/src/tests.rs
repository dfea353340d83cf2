//! The boundary from Rust: layout, 01's example session, garbage in every field and length, and a transfer over a bad line.
use crate::*;
use std::mem::{offset_of, size_of, transmute};
use std::time::Duration;

// layout

// The step that the archive writes has 1, 2, 3 and so on in its fields: this crate must have its fields at the same places.
#[test]
fn a_step_lies_as_the_archive_writes_it() {
    assert_eq!(
        [size_of::<raw::Stream>(), size_of::<raw::Totals>(), size_of::<raw::Step>()],
        [120, 48, 192]
    );
    assert_eq!(
        [size_of::<raw::Part>(), size_of::<raw::Header>(), size_of::<raw::Decoded>()],
        [24, 20, 24]
    );
    let r = unsafe { raw::udx_layout_step() };
    let s = r.stream;
    let t = r.totals;
    let small = [
        s.ids.local,
        s.ids.remote,
        s.ids.segments.into(),
        s.sender.seq,
        s.sender.remote_acked,
        s.sender.largest_ack,
    ];
    let small = [
        &small[..],
        &[
            s.sender.inflight,
            s.sender.cwnd,
            s.receiver.ack,
            s.receiver.read_cursor,
            s.receiver.top,
        ],
    ]
    .concat();
    let small = [&small[..], &[s.queue.count, s.queue.left, s.queue.states, s.queue.gone]].concat();
    let large = [
        s.timing.srtt,
        s.timing.rttvar,
        s.timing.rto,
        s.timing.deadline,
        s.clocks.last,
        s.clocks.drive,
    ];
    let bytes = [s.ending.error, s.ending.state, s.ending.ended];
    let totals = [
        t.tx_packets,
        t.tx_bytes,
        t.rx_packets,
        t.rx_bytes,
        t.inflight_packets,
        t.inflight_bytes,
    ];
    let mut all: Vec<u64> = small.into_iter().map(u64::from).collect();
    all.extend(large);
    all.extend(bytes.map(u64::from));
    all.extend(totals);
    all.extend([r.count as u64, r.segment as u64, r.outcome.into(), r.refusal.into()]);
    assert_eq!(all, (1..=34).collect::<Vec<u64>>());
    assert_eq!(offset_of!(raw::Step, totals), 120);
    assert_eq!(offset_of!(raw::Step, refusal), 185);
}

fn filled() -> (raw::Stream, raw::Totals) {
    let (d, w) = (0x8000_0000_0000_0001_u64, 0x8000_0001_u32);
    let word = |i: u32| w + 0x0101_0100 * i;
    let long = |i: u64| d + 0x0101_0101_0101_0100 * i;
    let stream = raw::Stream {
        ids: raw::Ids {
            local: word(0),
            remote: word(1),
            segments: 250,
        },
        sender: raw::Sender {
            seq: word(2),
            remote_acked: word(3),
            largest_ack: word(4),
            inflight: word(5),
            cwnd: word(6),
        },
        receiver: raw::Receiver {
            ack: word(7),
            read_cursor: word(8),
            top: word(9),
        },
        queue: raw::Queue {
            count: word(10),
            left: word(11),
            states: word(12),
            gone: word(13),
        },
        timing: raw::Timing {
            srtt: long(0),
            rttvar: long(1),
            rto: long(2),
            deadline: long(3),
        },
        clocks: raw::Clocks {
            last: long(4),
            drive: long(5),
        },
        ending: raw::Ending {
            error: 251,
            state: 252,
            ended: 253,
        },
    };
    let totals = raw::Totals {
        tx_packets: long(6),
        tx_bytes: long(7),
        rx_packets: long(8),
        rx_bytes: long(9),
        inflight_packets: long(10),
        inflight_bytes: long(11),
    };
    (stream, totals)
}

#[test]
fn what_goes_in_arrives() {
    let (s, t) = filled();
    let word = |i: u64| 0x8000_0001 + 0x0101_0100 * i;
    let long = |i: u64| 0x8000_0000_0000_0001 + 0x0101_0101_0101_0100 * i;
    let mut due = vec![word(0), word(1), 250];
    due.extend((2..14).map(word));
    due.extend((0..6).map(long));
    due.extend([251, 252, 253]);
    assert_eq!(unsafe { raw::udx_layout_stream(s) }.n.to_vec(), due);
    assert_eq!(
        unsafe { raw::udx_layout_totals(s, t) }.n[..6].to_vec(),
        (6..12).map(long).collect::<Vec<_>>()
    );
}

#[test]
fn headers_of_every_length() {
    let h = Header {
        typ: 5,
        data_offset: 200,
        stream_id: 0x8102_0304,
        recv_win: 0x8506_0708,
        seq: 0x890A_0B0C,
        ack: 0x8D0E_0F10,
    };
    let due = [255, 1, 5, 200, 4, 3, 2, 129, 8, 7, 6, 133, 12, 11, 10, 137, 16, 15, 14, 141];
    for length in 0..30 {
        let mut buf = vec![7; length];
        if length < HEADER_SIZE {
            assert_eq!(h.encode(&mut buf), Err(Refusal::ShortBuffer));
            assert!(buf.iter().all(|b| *b == 7));
            assert_eq!(Header::decode(&due[..length]), Err(Refusal::BadHeader));
        } else {
            assert_eq!(h.encode(&mut buf), Ok(()));
            assert_eq!(buf[..20], due);
            assert!(buf[20..].iter().all(|b| *b == 7));
            assert_eq!(Header::decode(&buf), Ok(h));
        }
    }
}

// 01's example session

fn at(nanos: u64) -> Duration {
    Duration::from_nanos(nanos)
}

#[test]
fn the_example_of_01() -> Result<(), Refusal> {
    let mut ends = [Stream::open(1, 2, 10, at(0))?, Stream::open(2, 1, 10, at(0))?];
    let mut buf = vec![0; TAKE_ROOM];
    let mut bytes = [0; 8];
    assert_eq!(ends[0].write(&[0x41; 3])?, Written::Accepted(3));
    assert_eq!(ends[0].drive(at(0))?, Driven::Ready);
    let batch = ends[0].take(&mut buf)?.unwrap();
    assert_eq!((batch.bytes().len(), batch.segment()), (23, None));
    let datagram = batch.bytes().to_vec();
    assert_eq!(ends[0].take(&mut buf)?, None);
    ends[1].deliver(&datagram, at(5))?;
    assert_eq!(ends[1].read(&mut bytes), Read::Ready(3));
    assert_eq!(bytes[..3], [0x41; 3]);
    assert_eq!(ends[1].read(&mut bytes), Read::Wait(0));
    ends[1].close()?;
    assert_eq!(ends[1].error(), Some(StreamError::ConnectionReset));
    assert_eq!(ends[0].deadline(), Some(at(1_000_000_000)));
    Ok(())
}

// garbage: calls as C makes them, on records of any content

type Spoil = Box<dyn Fn(&mut Stream)>;
type Set = fn(&mut Stream, u8);

// Packets stored and queued, packets held, state packets queued.
fn busy() -> Stream {
    let mut a = Stream::open(1, 2, 10, at(0)).unwrap();
    let mut b = Stream::open(2, 1, 10, at(0)).unwrap();
    let mut buf = vec![0; TAKE_ROOM];
    assert_eq!(a.write(&[0x41; 3000]), Ok(Written::Accepted(2760)));
    assert_eq!(a.drive(at(1)), Ok(Driven::Ready));
    let batch = a.take(&mut buf).unwrap().unwrap();
    assert_eq!(b.write(&[0x42; 100]), Ok(Written::Accepted(100)));
    b.deliver(&batch.bytes()[1400..], at(2)).unwrap();
    b.deliver(&batch.bytes()[..1400], at(3)).unwrap();
    assert_eq!(b.read(&mut [0; 1000]), Read::Wait(1000));
    b
}

// The same, driven: all of the queue is left to take, and look shows the first of it.
fn driven() -> Stream {
    let mut b = busy();
    assert_eq!(b.drive(at(3)), Ok(Driven::Ready));
    assert_eq!(b.look().map(<[u8]>::len), Some(120));
    b
}

fn refusals(mut s: Stream) -> Vec<u8> {
    let (stream, totals) = (s.stream, s.totals);
    let words = (s.sent.clone(), s.held.clone(), s.queue.clone());
    let stores = (s.outgoing.clone(), s.incoming.clone(), s.headers.clone());
    let number = |r: Result<(), Refusal>| r.err().map_or(0, Refusal::number);
    let mut buf = vec![0; TAKE_ROOM];
    let mut found = vec![];
    for call in 0..6 {
        let r = match call {
            0 => s.write(&[1; 10]).map(|_| ()),
            1 => s.deliver(&[0; 30], at(10)),
            2 => s.drive(at(10)).map(|_| ()),
            3 => s.take(&mut buf).map(|_| ()),
            4 => match s.read(&mut buf) {
                Read::Ended(_, why) => Err(why),
                _ => Ok(()),
            },
            _ => s.close(),
        };
        found.push(number(r));
        if found[call] == 1 {
            assert_eq!((s.stream, s.totals), (stream, totals));
            assert!((&s.sent, &s.held, &s.queue) == (&words.0, &words.1, &words.2));
            assert!((&s.outgoing, &s.incoming, &s.headers) == (&stores.0, &stores.1, &stores.2));
        }
        s.stream = stream;
        s.totals = totals;
        (s.sent, s.held, s.queue) = words.clone();
        (s.outgoing, s.incoming, s.headers) = stores.clone();
    }
    if found.iter().all(|n| *n == 1) {
        assert_eq!(s.look(), None);
    }
    found
}

#[test]
fn a_field_that_breaks_a_rule_is_refusal_1() {
    let end = 1_u64 << 60;
    let breaks: Vec<(&str, Spoil)> = vec![
        ("segments 0", Box::new(|s| s.stream.ids.segments = 0)),
        ("segments 11", Box::new(|s| s.stream.ids.segments = 11)),
        ("seq", Box::new(|s| s.stream.sender.seq = 33)),
        ("remote_acked", Box::new(|s| s.stream.sender.remote_acked = u32::MAX)),
        ("largest_ack", Box::new(|s| s.stream.sender.largest_ack = s.stream.sender.seq + 1)),
        ("inflight", Box::new(|s| s.stream.sender.inflight += 1)),
        ("cwnd", Box::new(|s| s.stream.sender.cwnd = 1399)),
        ("ack", Box::new(|s| s.stream.receiver.ack = s.stream.receiver.read_cursor + 33)),
        (
            "read_cursor",
            Box::new(|s| s.stream.receiver.read_cursor = s.stream.receiver.ack + 1),
        ),
        ("top", Box::new(|s| s.stream.receiver.top = u32::MAX)),
        ("count", Box::new(|s| s.stream.queue.count = 129)),
        ("left", Box::new(|s| s.stream.queue.left = 1)),
        ("states", Box::new(|s| s.stream.queue.states = u32::MAX)),
        ("gone", Box::new(|s| s.stream.queue.gone = u32::MAX)),
        ("srtt", Box::new(move |s| s.stream.timing.srtt = end)),
        ("rttvar", Box::new(move |s| s.stream.timing.rttvar = end)),
        ("rto", Box::new(|s| s.stream.timing.rto = 999_999_999)),
        ("last", Box::new(move |s| s.stream.clocks.last = end)),
        ("drive", Box::new(|s| s.stream.clocks.drive = s.stream.clocks.last + 1)),
        ("inflight_packets", Box::new(|s| s.totals.inflight_packets += 1)),
        ("inflight_bytes", Box::new(|s| s.totals.inflight_bytes += 1)),
        ("outgoing", Box::new(|s| s.outgoing = vec![0; 44_799].into())),
        ("incoming", Box::new(|s| s.incoming = vec![0; 44_161].into())),
        ("headers", Box::new(|s| s.headers = vec![].into())),
    ];
    for base in [busy, driven] {
        assert!(!refusals(base()).contains(&1));
        for (name, spoil) in &breaks {
            let mut s = base();
            spoil(&mut s);
            assert_eq!(refusals(s), [1; 6], "{name}");
        }
    }
}

#[test]
fn a_byte_that_stands_for_nothing_is_refusal_1() {
    for v in 0..=255 {
        let spoil: [(u8, Set); 3] = [
            (3, |s, v| s.stream.ending.error = v),
            (3, |s, v| s.stream.ending.state = v),
            (1, |s, v| s.stream.ending.ended = v),
        ];
        for (most, set) in spoil {
            for base in [busy, driven] {
                let mut s = base();
                set(&mut s, v);
                let ones = refusals(s).iter().filter(|n| **n == 1).count();
                assert_eq!(ones, if v > most { 6 } else { 0 }, "{v}");
            }
        }
    }
}

#[test]
fn every_short_buffer_of_a_take() {
    let mut s = busy();
    let mut buf = vec![9; TAKE_ROOM];
    for length in 0..TAKE_ROOM {
        assert_eq!(s.take(&mut buf[..length]), Err(Refusal::ShortBuffer));
    }
    assert!(buf.iter().all(|b| *b == 9));
}

#[test]
fn open_refuses_other_ceilings_and_clocks() {
    for segments in 0..=255 {
        let due = if (1..=10).contains(&segments) {
            None
        } else {
            Some(Refusal::SegmentCeiling)
        };
        assert_eq!(Stream::open(1, 2, segments, at(0)).err(), due);
    }
    assert!(Stream::open(1, 2, 10, at((1 << 60) - 1)).is_ok());
    for clock in [at(1 << 60), at(u64::MAX), Duration::MAX] {
        assert_eq!(Stream::open(1, 2, 10, clock).err(), Some(Refusal::BadClock));
    }
}

// A struct of more than 16 bytes is returned through a pointer, the call's first argument (System V), so it can be caught as bytes.
#[test]
fn the_archive_writes_no_more_than_a_step() {
    let step: unsafe extern "C" fn() -> raw::Step = raw::udx_layout_step;
    // SAFETY: the same call at machine level, with room for more than a step.
    let step: unsafe extern "C" fn(*mut u8) -> *mut u8 = unsafe { transmute(step) };
    let mut room = [0x5A_u8; 4096];
    unsafe { step(room.as_mut_ptr()) };
    assert_eq!(room[offset_of!(raw::Step, refusal)], 34);
    assert!(room[size_of::<raw::Step>()..].iter().all(|b| *b == 0x5A));
}

#[test]
fn refusals_have_01s_numbers() {
    // 01's list, written out again: nothing else would notice two names swapped in the crate's own.
    let list = [
        Refusal::BrokenRecords,
        Refusal::ShortBuffer,
        Refusal::SegmentCeiling,
        Refusal::BadClock,
        Refusal::AfterDone,
        Refusal::BatchesLeft,
        Refusal::BadHeader,
        Refusal::OtherStream,
        Refusal::LongPayload,
        Refusal::AckPastSeq,
        Refusal::SeqEnd,
        Refusal::PastIncoming,
        Refusal::StateQueueFull,
        Refusal::ConnectionReset,
        Refusal::UnexpectedEof,
        Refusal::TimedOut,
        Refusal::SeqExhausted,
    ];
    for (number, why) in (1..).zip(list) {
        assert_eq!((why.number(), Refusal::from_number(number)), (number, Some(why)));
        assert!(!why.to_string().is_empty());
    }
    assert_eq!([Refusal::from_number(0), Refusal::from_number(18)], [None, None]);
    let _: Box<dyn std::error::Error + Send + Sync> = Box::new(Refusal::TimedOut);
}

// a transfer over a line that loses, repeats and reorders

struct Dice(u64);

impl Dice {
    fn roll(&mut self, sides: u64) -> u64 {
        self.0 ^= self.0 << 13;
        self.0 ^= self.0 >> 7;
        self.0 ^= self.0 << 17;
        self.0 % sides
    }
}

// Everything that the last drive left is put on the line, lost, or put on it twice.
fn send(from: &mut Stream, line: &mut Vec<Vec<u8>>, dice: &mut Dice) {
    let mut buf = vec![0; TAKE_ROOM];
    loop {
        let shown = from.look().map(<[u8]>::to_vec);
        let Some(batch) = from.take(&mut buf).unwrap() else { break };
        assert_eq!(shown.as_deref(), batch.datagrams().next());
        for datagram in batch.datagrams() {
            for _ in 0..[0, 1, 1, 1, 1, 1, 1, 2][dice.roll(8) as usize] {
                line.push(datagram.to_vec());
            }
        }
    }
}

fn carry(to: &mut Stream, line: &mut Vec<Vec<u8>>, clock: Duration, dice: &mut Dice) {
    while !line.is_empty() {
        let datagram = line.swap_remove(dice.roll(line.len() as u64) as usize);
        match to.deliver(&datagram, clock) {
            Ok(()) | Err(Refusal::PastIncoming | Refusal::AckPastSeq | Refusal::StateQueueFull) => {}
            Err(why) => panic!("{why}"),
        }
    }
}

#[test]
fn bytes_arrive_in_order_over_a_bad_line() {
    for seed in 1..20 {
        let mut dice = Dice(0x9E37_79B9_7F4A_7C15_u64.wrapping_mul(seed));
        let all: Vec<u8> = (0..60_000_u32).map(|i| (i ^ i >> 8) as u8).collect();
        let (mut a, mut b) = (Stream::open(1, 2, 10, at(0)).unwrap(), Stream::open(2, 1, 3, at(0)).unwrap());
        let (mut there, mut back) = (vec![], vec![]);
        let (mut written, mut read, mut clock) = (0, vec![], 0);
        let mut buf = vec![0; 2000];
        while read.len() < all.len() {
            clock += 10_000_000;
            while written < all.len() {
                let most = all.len().min(written + 1 + dice.roll(4000) as usize);
                match a.write(&all[written..most]).unwrap() {
                    Written::Accepted(count) => written += count,
                    Written::Wait => break,
                }
            }
            assert_eq!(a.drive(at(clock)), Ok(Driven::Ready));
            send(&mut a, &mut there, &mut dice);
            carry(&mut b, &mut there, at(clock), &mut dice);
            loop {
                let most = 1 + dice.roll(2000) as usize;
                let answer = b.read(&mut buf[..most]);
                read.extend_from_slice(&buf[..answer.count()]);
                match answer {
                    Read::Ready(_) => {}
                    Read::Wait(0) => break,
                    Read::Wait(_) => {}
                    Read::Ended(_, why) => panic!("{why}"),
                }
            }
            assert_eq!(b.drive(at(clock)), Ok(Driven::Ready));
            send(&mut b, &mut back, &mut dice);
            carry(&mut a, &mut back, at(clock), &mut dice);
            assert!(all.starts_with(&read));
            assert!(clock < 1_000_000_000_000, "no progress");
        }
        assert_eq!(read, all);
    }
}

#[test]
fn a_stream_may_move_between_threads() {
    fn is_send<T: Send + Sync>(_: &T) {}
    let s = Stream::open(1, 2, 10, at(0)).unwrap();
    is_send(&s);
    let s = std::thread::spawn(move || s).join().unwrap();
    assert_eq!(s.ids(), (1, 2));
}
