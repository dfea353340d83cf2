//! Session scripts.

use super::*;

pub(super) fn sessions(list: &mut List) {
    // 01's example, byte for byte.
    list.session(
        "example",
        vec![write(0, 3, 0x41), drive(0, 0), take(0), take(0), hand(1, 0, 5), read(1, 8), read(1, 8), close(1)],
    );
    list.session("no command", vec![]);
    // Edge: a packet taken after every drive and never acked. Due drives find transmits 1, 3, 5, 7; the fourth fails. The drive at
    // clock 0 sends it; the deadlines are 1 s, then 2 s after each due drive.
    list.session(
        "transmits 1, 3, 5, 7: the fourth due drive fails",
        vec![
            write(0, 10, 0x41),
            driven(0, 0, 2),
            driven(0, SECOND, 2),
            driven(0, 3 * SECOND, 2),
            driven(0, 5 * SECOND, 2),
            write(0, 1, 0x42),
            driven(0, 7 * SECOND, 2),
            write(0, 1, 0x43),
            read(0, 4),
            driven(0, 9 * SECOND, 2),
        ],
    );
    list.session(
        "a deadline is due to the nanosecond",
        vec![
            write(0, 10, 0x41),
            driven(0, 0, 2),
            driven(0, SECOND - 1, 1),
            driven(0, SECOND, 2),
            driven(0, 3 * SECOND - 1, 1),
            driven(0, 3 * SECOND, 2),
        ],
    );
    // R7: the deadline passed long ago, the packet is lost before it went, and goes out twice.
    list.session("idle past the deadline, then a write goes twice", vec![write(0, 5, 0x41), driven(0, 60 * SECOND, 2)]);
    list.session(
        "pieces of 1,380 bytes up to the window, then waiting",
        vec![write(0, 1_380, 1), write(0, 1_381, 2), write(0, 20, 3), write(0, 0, 4), driven(0, 0, 3)],
    );
    // Edge: at inflight 2,799, window 2,800, one byte goes.
    list.session(
        "the last byte of the window",
        vec![write(0, 1_380, 1), write(0, 1_379, 2), write(0, 2, 3), write(0, 1, 4), write(0, 1, 5), driven(0, 0, 4)],
    );
    list.session(
        "a packet as long as the least window is queued again",
        vec![write(0, 1_380, 1), driven(0, 0, 2), driven(0, SECOND, 2)],
    );
    // Half the window holds the first; the second is too long for what is left, and the third does not overtake it.
    list.session(
        "waiting packets are queued up to the first that does not fit",
        vec![
            write(0, 700, 1),
            write(0, 1_000, 2),
            write(0, 10, 3),
            driven(0, 0, 4),
            driven(0, SECOND, 4),
            driven(0, 3 * SECOND, 4),
        ],
    );
    list.session("32 stored packets, then waiting", [times(33, write(0, 1, 7)), vec![driven(0, 0, 5), write(0, 1, 8)]].concat());
    list.session(
        "samples of 100 ms and 900 ms, rto 1,150 ms",
        vec![
            write(0, 1, 1),
            driven(0, 0, 1),
            hand(1, 0, 0),
            driven(1, 0, 1),
            hand(0, 0, 100 * MS),
            driven(0, 100 * MS, 1),
            write(0, 1, 2),
            driven(0, 100 * MS, 1),
            hand(1, 1, 0),
            driven(1, 0, 1),
            hand(0, 1, 1_000 * MS),
            driven(0, 1_000 * MS, 1),
            // The deadline is 1,000 ms + 1,150 ms now.
            write(0, 1, 3),
            driven(0, 2_150 * MS - 1, 2),
            driven(0, 2_150 * MS, 2),
        ],
    );
    list.session(
        "a resent packet gives no sample",
        vec![
            write(0, 1, 1),
            driven(0, 0, 2),
            driven(0, SECOND, 2),
            hand(1, 1, 0),
            driven(1, 0, 1),
            hand(0, 0, 2 * SECOND),
            driven(0, 2 * SECOND, 1),
            write(0, 1, 2),
            driven(0, 3 * SECOND - 1, 2),
            driven(0, 3 * SECOND, 2),
        ],
    );
    list.session(
        "remote acked moves at the drive, not at the delivery",
        [
            times(32, write(0, 1, 1)),
            vec![driven(0, 0, 4), hand(1, 0, 0), driven(1, 0, 1), hand(0, 0, 0), write(0, 1, 2), drive(0, 0), write(0, 1, 3)],
        ]
        .concat(),
    );
    list.session(
        "bytes of a read that waits are not dropped",
        vec![
            write(0, 5, 0x61),
            write(0, 3, 0x62),
            driven(0, 0, 2),
            hand(1, 0, 0),
            hand(1, 1, 0),
            read(1, 0),
            read(1, 2),
            read(1, 2),
            read(1, 2),
            read(1, 8),
            read(1, 1),
        ],
    );
    list.session(
        "a read that meets the error keeps the bytes it put",
        vec![write(0, 5, 0x61), driven(0, 0, 2), hand(1, 0, 0), close(1), read(1, 2), read(1, 2), read(1, 2), read(1, 2)],
    );
    list.session("a write after close: refusal 14", vec![close(0), write(0, 1, 1), write(0, 0, 1), read(0, 1)]);
    list.session(
        "END from the other end: refusal 15",
        vec![
            close(0),
            driven(0, 0, 2),
            hand(1, 0, 0),
            write(1, 1, 1),
            read(1, 1),
            driven(1, 0, 2),
            hand(0, 0, 0),
            read(0, 1),
            close(0),
            read(0, 1),
        ],
    );
    list.session(
        "done once all is drained, then refusal 5",
        vec![
            write(0, 1, 1),
            driven(0, 0, 1),
            close(0),
            driven(0, 0, 1),
            hand(1, 0, 0),
            driven(1, 0, 1),
            hand(0, 0, 0),
            // The drive that settles the last packet is ok, the next one is done.
            driven(0, 0, 1),
            driven(0, 0, 1),
            drive(0, 0),
            hand(0, 0, 0),
            close(0),
            write(0, 1, 1),
            take(0),
            read(0, 1),
        ],
    );
    list.session(
        "refusal 4 at its boundaries, and before 5 and 6",
        vec![
            drive(0, CLOCK_END),
            drive(0, u64::MAX),
            drive(0, 5),
            drive(0, 4),
            drive(0, 5),
            write(0, 1, 1),
            drive(0, 5),
            drive(0, 4),
            drive(0, 5),
            take(0),
            hand(1, 0, CLOCK_END),
            hand(1, 0, CLOCK_END - 1),
            hand(1, 0, CLOCK_END - 2),
            drive(1, CLOCK_END - 2),
            drive(1, CLOCK_END - 1),
        ],
    );
    list.session(
        "refusal 6 for all four, before the error and for an empty write",
        vec![
            write(1, 1, 1),
            driven(1, 0, 1),
            write(0, 1, 1),
            write(0, 2, 1),
            close(0),
            drive(0, 0),
            write(0, 1, 1),
            write(0, 0, 1),
            hand(0, 0, 0),
            drive(0, 0),
            close(0),
            take(0),
            close(0),
            take(0),
            take(0),
            take(0),
            write(0, 0, 1),
        ],
    );
    list.session(
        "refusal 12: data at read cursor + 32",
        [
            times(32, write(0, 1, 1)),
            vec![driven(0, 0, 5)],
            (1..32).map(|number| hand(1, number, 0)).collect(),
            vec![
                hand(1, 0, 0),
                driven(1, 0, 5),
                hand(0, 31, 0),
                driven(0, 0, 1),
                write(0, 1, 2),
                driven(0, 0, 1),
                hand(1, 31, 0),
                read(1, 1),
                hand(1, 31, 0),
            ],
        ]
        .concat(),
    );
    // 62 state packets: a delivery is refused, a close is not; 63: neither.
    list.session(
        "refusal 13 at 62 and 63",
        [
            vec![write(0, 1, 1), driven(0, 0, 1)],
            times(63, hand(1, 0, 0)),
            vec![close(1), close(1), hand(1, 0, 0), driven(1, 0, 8)],
        ]
        .concat(),
    );
    list.session(
        "a drive that fails queues the 64th state packet",
        [
            vec![write(0, 1, 1), driven(0, 0, 2), driven(0, SECOND, 2), driven(0, 3 * SECOND, 2), driven(0, 5 * SECOND, 2)],
            vec![write(1, 1, 1), driven(1, 0, 1)],
            times(63, hand(0, 0, 5 * SECOND)),
            vec![close(0), close(0), driven(0, 7 * SECOND, 9), read(0, 1)],
        ]
        .concat(),
    );
    list.session("a delivery grows the window each time", {
        let mut parts = vec![write(0, 1, 1), driven(0, 0, 1), hand(1, 0, 0), driven(1, 0, 1)];
        parts.extend(times(50, hand(0, 0, 0)));
        parts.push(write(0, 65_535, 2));
        parts.push(driven(0, 0, 5));
        parts
    });
    list.session("batches of ten equal lengths", {
        let mut parts = times(12, write(0, 5, 1));
        parts.extend(times(2, write(0, 6, 2)));
        parts.extend([close(0), driven(0, 0, 5), hand(1, 13, 0), hand(1, 14, 0)]);
        parts
    });
    // Short operands and operands out of range, each as a script of its own.
    let bad: Vec<(&str, Vec<u8>)> = vec![
        ("command 00", vec![0x00]),
        ("command 07", vec![0x07, 0]),
        ("command 10", raw(0, 0, &[])),
        ("command ff", vec![0xff]),
        ("write without its fill byte", vec![0x01, 0, 1, 0]),
        ("write at end 2", write(2, 1, 1)),
        ("drive without its last byte", vec![0x02, 0, 0, 0, 0, 0, 0, 0, 0]),
        ("drive at end 255", drive(255, 0)),
        ("take without end", vec![0x03]),
        ("take at end 2", take(2)),
        ("hand of a datagram not kept", hand(0, 0, 0)),
        ("hand without its last byte", vec![0x04, 0, 0, 0, 0, 0, 0, 0, 0, 0, 0]),
        ("read of 4,097 bytes", read(0, 4_097)),
        ("read without its length", vec![0x05, 0, 1]),
        ("close without end", vec![0x06]),
        ("close at end 2", close(2)),
    ];
    for (name, command) in bad {
        list.session(&format!("the run ends: {name}"), vec![write(0, 1, 1), drive(0, 0), command, write(0, 1, 1)]);
    }
    list.session("the last 32 datagrams are kept", {
        let mut parts = times(32, write(0, 1, 1));
        parts.extend([driven(0, 0, 4), hand(1, 31, 0), close(0), driven(0, 0, 1)]);
        // The close's state packet pushed datagram 0 out: number 0 is now packet 1, number 31 the state packet.
        parts.extend([hand(1, 0, 0), hand(1, 31, 0), hand(1, 32, 0)]);
        parts
    });
    list.session(
        "a read of 4,096 bytes",
        vec![write(0, 2_760, 0xee), driven(0, 0, 1), hand(1, 0, 0), hand(1, 1, 0), read(1, 4_096)],
    );
    // 65,536 bytes are read: the last command of these is cut off at its first byte.
    list.session("65,536 bytes and more", vec![times(32_767, take(0)).concat(), vec![0x03, 0, 0x03, 0]]);
    list.session("a command that crosses byte 65,536", vec![times(32_766, take(0)).concat(), vec![0x05, 0, 1, 0, 0x03, 0]]);
}
