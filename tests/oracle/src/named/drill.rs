//! Drill scripts: each, except those that stop early, ends with the numbers of both ends.

use super::*;

pub(super) fn drills(list: &mut List) {
    list.drill("a fresh stream", vec![look(0), look(1), room(0, 14_000)]);
    list.drill("a deadline that passes with nothing sent", vec![driven(0, 5 * SECOND, 1)]);
    list.drill(
        "a read of 4,096 bytes: the longest line",
        vec![
            base(0, 0, 0, 50_000),
            write(0, 4_140, 0xc3),
            driven(0, 0, 1),
            hand(1, 0, 0),
            hand(1, 1, 0),
            hand(1, 2, 0),
            read(1, 4_096),
            read(1, 4_096),
        ],
    );
    list.drill("a script of 65,536 bytes", vec![raw(0, 0, &vec![255; 65_536 - 12 - 4])]);
    list.stop("a raw delivery that crosses byte 65,536", vec![look(0), raw(0, 0, &vec![255; 65_536 - 12 - 1])]);
    // Edge: SACK payloads of 8, 9, 16, 17 bytes hold 0, 1, 1, 2 blocks.
    for (length, count) in [(8, 0), (9, 1), (16, 1), (17, 2)] {
        let mut payload = blocks(&[(0, 1), (2, 3), (0, 0)], 0);
        payload.truncate(length);
        list.drill(
            &format!("a SACK payload of {length} bytes: blocks {count}"),
            vec![times(4, write(0, 1, 1)).concat(), driven(0, 0, 1), raw(0, 7, &to_zero(4, 0, 0, &payload))],
        );
    }
    list.drill(
        "a SACK block that goes down, one of nothing, one past seq",
        vec![
            times(3, write(0, 1, 1)).concat(),
            driven(0, 0, 1),
            raw(0, 7, &to_zero(4, 0, 0, &blocks(&[(2, 1), (1, 1), (2, 9)], 1))),
        ],
    );
    list.drill(
        "a SACK empties a batch: ok with 0 bytes and no datagram",
        vec![
            write(0, 4, 1),
            write(0, 9, 2),
            raw(0, 0, &to_zero(4, 0, 0, &blocks(&[(0, 1)], 1))),
            drive(0, 0),
            look(0),
            room(0, 14_000),
            look(0),
            take(0),
            hand(1, 0, 0),
        ],
    );
    list.drill(
        "a SACK leaves a hole in a batch",
        vec![
            times(3, write(0, 4, 1)).concat(),
            raw(0, 0, &to_zero(4, 0, 0, &blocks(&[(1, 2)], 1))),
            drive(0, 0),
            look(0),
            room(0, 14_000),
            hand(1, 0, 0),
            hand(1, 1, 0),
        ],
    );
    list.drill(
        "SACK and END and DATA in one datagram",
        vec![
            times(3, write(0, 4, 1)).concat(),
            driven(0, 0, 1),
            raw(0, 3, &to_zero(7, 0, 3, &blocks(&[(1, 2)], 1))),
            drive(0, 3),
            look(0),
            take(0),
            read(0, 20),
        ],
    );
    // Half the window holds packets 0 and 1, which go on being sent; 2 and 3 wait. Before the drive that fails, a SACK takes some of
    // them away: without 1 there is room, and that drive queues 2 and 3, or what is left of them; without 0 and 1 none fails.
    for sacked in 0..16u32 {
        let named: Vec<u32> = (0..4).filter(|number| sacked >> number & 1 == 1).collect();
        let list_of: Vec<(u32, u32)> = named.iter().map(|number| (*number, number + 1)).collect();
        let mut parts = vec![write(0, 80, 1), write(0, 1_180, 2), write(0, 680, 3), write(0, 40, 4), driven(0, 0, 5)];
        for clock in [1, 3, 5] {
            parts.extend([driven(0, clock * SECOND, 3), numbers(0)]);
        }
        parts.push(raw(0, 6 * SECOND, &to_zero(4, 0, 0, &blocks(&list_of, 1))));
        for clock in [7, 9] {
            parts.extend([drive(0, clock * SECOND), look(0), numbers(0), times(4, room(0, 14_000)).concat()]);
        }
        // The rest goes, and the stream with it.
        parts.push(raw(0, 10 * SECOND, &to_zero(4, 0, 0, &blocks(&[(0, 4)], 1))));
        parts.extend([close(0), driven(0, 11 * SECOND, 2), drive(0, 12 * SECOND)]);
        list.drill(&format!("SACK of {named:?} before a TimedOut drive"), parts);
    }
    list.drill(
        "a data packet with END queues two state packets",
        vec![
            raw(0, 0, &to_zero(3, 0, 0, b"ab")),
            drive(0, 0),
            look(0),
            take(0),
            hand(1, 0, 0),
            hand(1, 1, 0),
            read(0, 4),
            read(0, 4),
        ],
    );
    list.drill(
        "data of no bytes",
        vec![
            raw(0, 0, &to_zero(1, 0, 0, &[])),
            read(0, 0),
            raw(0, 0, &to_zero(1, 2, 0, b"c")),
            read(0, 0),
            raw(0, 0, &to_zero(1, 1, 0, &[])),
            read(0, 0),
            read(0, 1),
        ],
    );
    list.drill(
        "a repeat replaces what is held, not what is acked",
        vec![
            raw(0, 0, &to_zero(1, 1, 0, b"first")),
            raw(0, 0, &to_zero(1, 1, 0, b"2nd")),
            raw(0, 0, &to_zero(1, 0, 0, b"zero")),
            raw(0, 0, &to_zero(1, 0, 0, b"again")),
            raw(0, 0, &to_zero(1, 1, 0, b"late")),
            read(0, 64),
        ],
    );
    list.drill(
        "data offset and window of a header do not matter",
        vec![raw(0, 0, &datagram(Fields { typ: 1, offset: 200, id: 1, window: 0, seq: 0, ack: 0 }, b"xyz")), read(0, 9)],
    );
    // Refusals of a delivery at their boundaries, in their order.
    list.drill(
        "refusal 7: 19 bytes, 20 bytes, other first bytes",
        vec![
            raw(0, 0, &[]),
            raw(0, 0, &to_zero(0, 0, 0, &[])[..19]),
            raw(0, 0, &to_zero(0, 0, 0, &[])),
            raw(0, 0, &[254, 1, 0, 0, 1, 0, 0, 0, 0, 0, 0, 0, 0, 0, 0, 0, 0, 0, 0, 0]),
            raw(0, 0, &[255, 2, 0, 0, 1, 0, 0, 0, 0, 0, 0, 0, 0, 0, 0, 0, 0, 0, 0, 0]),
        ],
    );
    list.drill(
        "refusals 8 to 12 in their order",
        vec![
            raw(0, 0, &datagram(Fields { typ: 1, offset: 0, id: 2, window: 0, seq: LAST, ack: 9 }, &[0; 1_381])),
            raw(0, 0, &to_zero(1, LAST, 9, &[0; 1_381])),
            raw(0, 0, &to_zero(1, LAST, 9, &[0; 1_380])),
            raw(0, 0, &to_zero(1, LAST, 0, &[0; 1_380])),
            raw(0, 0, &to_zero(1, LAST - 1, 0, &[0; 1_380])),
            raw(0, 0, &to_zero(1, 32, 0, &[0; 1_380])),
            raw(0, 0, &to_zero(1, 31, 0, &[0; 1_380])),
            raw(0, 0, &to_zero(0, LAST, 0, &[0; 1_380])),
            raw(0, 0, &to_zero(2, LAST, 0, &[])),
        ],
    );
    list.drill(
        "refusal 9: a payload of 1,381 bytes, 1,380 pass",
        vec![raw(0, 0, &to_zero(1, 0, 0, &[3; 1_381])), raw(0, 0, &to_zero(1, 0, 0, &[3; 1_380])), read(0, 2_000)],
    );
    list.drill(
        "refusal 10: an ack past seq",
        vec![
            write(0, 1, 1),
            driven(0, 0, 1),
            raw(0, 0, &to_zero(0, 0, 2, &[])),
            raw(0, 0, &to_zero(0, 0, 1, &[])),
            driven(0, 0, 1),
        ],
    );
    list.drill(
        "refusal 11: data numbered 4,294,967,295",
        vec![
            base(0, 0, LAST - 1, 2_800),
            raw(0, 0, &to_zero(1, LAST, 0, b"no")),
            raw(0, 0, &to_zero(1, LAST - 1, 0, b"yes")),
            raw(0, 0, &to_zero(1, LAST - 1, 0, b"old")),
            raw(0, 0, &to_zero(1, LAST, 0, b"no")),
            raw(0, 0, &to_zero(1, 0, 0, b"old")),
            read(0, 9),
            read(0, 9),
        ],
    );
    list.drill(
        "refusal 13 holds for a delivery that would queue nothing, and for END with DATA at 61",
        [
            times(61, raw(0, 0, &to_zero(1, 0, 0, b"x"))),
            vec![
                raw(0, 0, &to_zero(3, 1, 0, b"y")),
                raw(0, 0, &to_zero(0, 0, 0, &[])),
                close(0),
                numbers(0),
                drive(0, 0),
                look(0),
            ],
            times(8, room(0, 14_000)),
        ]
        .concat(),
    );
    list.drill(
        "refusal 17: seq 4,294,967,295, an empty write passes, an error comes first",
        vec![
            base(0, LAST - 1, 0, 5_000),
            write(0, 2_760, 1),
            write(0, 1, 2),
            write(0, 0, 2),
            drive(0, 0),
            write(0, 1, 2),
            take(0),
            write(0, 1, 2),
            close(0),
            write(0, 1, 2),
        ],
    );
    list.drill(
        "seq stops at 4,294,967,295 in the middle of a write",
        vec![
            base(0, LAST - 2, 0, 10_000),
            write(0, 5_000, 1),
            driven(0, 0, 2),
            raw(0, 5, &to_zero(0, 0, LAST, &[])),
            driven(0, 5, 1),
            write(0, 1, 1),
        ],
    );
    // Edges of the window.
    for window in [65_534, 65_535, 1_960_000, 1_960_001, LAST - 1, LAST] {
        list.drill(
            &format!("a window of {window} grows"),
            vec![
                base(0, 0, 0, window),
                write(0, 1, 1),
                driven(0, 0, 1),
                raw(0, 0, &to_zero(0, 0, 1, &[])),
                numbers(0),
                raw(0, 0, &to_zero(0, 0, 1, &[])),
                numbers(0),
                raw(0, 0, &to_zero(0, 0, 0, &[])),
            ],
        );
    }
    for window in [1_400, 1_401, 2_800, 2_801, 2_802, LAST] {
        list.drill(
            &format!("a window of {window} at a due timeout"),
            vec![base(0, 0, 0, window), write(0, 1, 1), driven(0, 0, 1), driven(0, SECOND, 1)],
        );
    }
    list.drill(
        "base: a window of 1,399, and one of 1,400",
        vec![base(0, 5, 6, 1_399), base(0, 5, 6, 1_400), write(0, 1_381, 1), write(0, 1, 1)],
    );
    list.drill(
        "base only where nothing is queued, stored, held, acked or closed",
        vec![
            write(0, 1, 1),
            base(0, 5, 5, 2_800),
            driven(0, 0, 1),
            base(0, 5, 5, 2_800),
            raw(0, 0, &to_zero(0, 0, 1, &[])),
            base(0, 5, 5, 2_800),
            driven(0, 0, 1),
            base(0, 5, 5, 2_800),
            raw(0, 0, &to_zero(1, 5, 5, b"a")),
            base(0, 6, 6, 2_800),
            driven(0, 0, 1),
            base(0, 6, 6, 2_800),
            read(0, 1),
            base(0, 6, 6, 2_800),
            close(0),
            base(0, 7, 7, 2_800),
        ],
    );
    // Refusal 2 and 3, and ceilings other than 10.
    list.drill(
        "refusal 2: room for 13,999 bytes, also with nothing to take",
        vec![room(0, 13_999), room(0, 0), write(0, 1, 1), drive(0, 0), room(0, 13_999), room(0, 14_000), room(0, 13_999)],
    );
    for ceiling in [0, 1, 2, 9, 10, 11, 255] {
        list.drill(
            &format!("a ceiling of {ceiling}"),
            vec![
                base(0, 0, 0, 40_000),
                write(0, 1, 9),
                open(0, 1, 2, ceiling, 0),
                times(12, write(0, 60, 1)).concat(),
                drive(0, 0),
                times(13, room(0, 14_000)).concat(),
            ],
        );
    }
    list.drill(
        "a batch of 14,000 bytes",
        vec![base(0, 0, 0, 50_000), write(0, 13_800, 1), drive(0, 0), look(0), room(0, 14_000), room(0, 14_000)],
    );
    list.drill(
        "open: refusal 3 before 4, clocks, and an end opened anew",
        vec![
            open(0, 1, 2, 0, CLOCK_END),
            open(0, 1, 2, 10, CLOCK_END),
            write(0, 5, 1),
            driven(0, 9, 1),
            hand(1, 0, 0),
            open(0, 1, 2, 10, CLOCK_END - 1),
            drive(0, CLOCK_END - 2),
            open(0, 7, 8, 3, 1),
            drive(0, 0),
            drive(0, 1),
            raw(0, 1, &to_zero(0, 0, 0, &[])),
            write(0, 5, 2),
            driven(0, 1, 1),
            hand(1, 0, 0),
            hand(1, 1, 0),
            close(0),
            driven(0, 1, 1),
            hand(1, 2, 0),
        ],
    );
    list.drill(
        "open over stores with packets in them",
        vec![
            times(5, write(0, 9, 1)).concat(),
            raw(0, 0, &to_zero(1, 0, 0, b"old")),
            raw(0, 0, &to_zero(1, 3, 0, b"gap")),
            open(0, 1, 2, 10, 0),
            numbers(0),
            raw(0, 0, &to_zero(1, 2, 0, b"two")),
            raw(0, 0, &to_zero(1, 1, 0, b"one")),
            raw(0, 0, &to_zero(1, 0, 0, b"nil")),
            read(0, 64),
            write(0, 2, 2),
            drive(0, SECOND),
            look(0),
            times(4, room(0, 14_000)).concat(),
        ],
    );
    // Spans near 2^60: srtt, rttvar and rto at their largest.
    list.drill(
        "a sample near 2^60, then one of 0",
        vec![
            write(0, 1, 1),
            driven(0, 0, 1),
            raw(0, CLOCK_END - 1, &to_zero(4, 0, 0, &blocks(&[(0, 1)], 1))),
            numbers(0),
            write(0, 1, 1),
            driven(0, CLOCK_END - 1, 2),
            raw(0, CLOCK_END - 1, &to_zero(0, 0, 2, &[])),
            driven(0, CLOCK_END - 1, 1),
            write(0, 1, 1),
            driven(0, CLOCK_END - 1, 2),
            raw(0, CLOCK_END - 1, &to_zero(0, 0, 3, &[])),
            driven(0, CLOCK_END - 1, 1),
        ],
    );
    list.drill("samples that round down", {
        let mut parts = Vec::new();
        let mut clock = 0;
        for (number, span) in [3u64, 8, 1, 1_000_000_007, 5, 21].into_iter().enumerate() {
            parts.extend([write(0, 1, 1), driven(0, clock, 2)]);
            clock += span;
            parts.push(raw(0, clock, &to_zero(4, 0, 0, &blocks(&[(number as u32, number as u32 + 1)], 1))));
            parts.push(numbers(0));
        }
        parts
    });
    list.drill(
        "a sample of 0 leaves srtt 0",
        vec![write(0, 1, 1), driven(0, 0, 1), raw(0, 0, &to_zero(4, 0, 0, &blocks(&[(0, 1)], 1))), numbers(0)],
    );
    list.drill(
        "a packet queued twice and taken once more gives no sample",
        vec![write(0, 1, 1), driven(0, SECOND, 1), raw(0, 2 * SECOND, &to_zero(0, 0, 1, &[])), driven(0, 2 * SECOND, 1)],
    );
    let fields = Fields { typ: 0x81, offset: 0x7f, id: 0x0403_0201, window: 0x0807_0605, seq: 0x0c0b_0a09, ack: 0x100f_0e0d };
    for length in [0, 1, 19, 20, 21, 64] {
        list.stop(&format!("encode into {length} bytes"), vec![encode(length, fields)]);
        let mut bytes = datagram(fields, &[0x11; 44]);
        bytes.truncate(length);
        list.stop(&format!("decode of {length} bytes"), vec![decode(&bytes)]);
    }
    list.stop("header fields at 0 and at their largest", {
        let high = Fields { typ: 255, offset: 255, id: LAST, window: LAST, seq: LAST, ack: LAST };
        let low = Fields { typ: 0, offset: 0, id: 0, window: 0, seq: 0, ack: 0 };
        vec![
            encode(20, high),
            encode(20, low),
            decode(&datagram(high, &[])),
            decode(&datagram(low, &[])),
            decode(&[255; 20]),
            decode(&[1; 20]),
        ]
    });
    // Each thing broken, with each call; then nothing broken, in states where each call answers differently.
    for which in 0..=24 {
        let calls = (0..=7).map(|call| spoil(0, which, call, 5));
        let mut parts = vec![write(0, 5, 1), driven(0, 5, 1), write(0, 7, 1)];
        parts.extend(calls);
        list.drill(&format!("thing {which} broken, every call"), parts);
    }
    list.drill("nothing broken: what each call answers", {
        let all = |clock| (0..=7).map(|call| spoil(0, 0, call, clock)).collect::<Vec<_>>().concat();
        vec![
            all(0),
            all(CLOCK_END),
            raw(0, 9, &to_zero(1, 0, 0, b"abc")),
            all(9),
            all(8),
            drive(0, 9),
            all(9),
            take(0),
            write(0, 2_800, 1),
            write(0, 1, 1),
            all(9),
            close(0),
            all(9),
            open(0, 5, 6, 4, 0),
            close(0),
            driven(0, 0, 1),
            all(0),
            drive(0, 0),
            all(0),
        ]
    });
    list.drill("thing broken near 4,294,967,295 and near 0", {
        let mut parts = vec![base(0, LAST, LAST, 2_800)];
        parts.extend([9, 10, 11, 12, 13].map(|which| spoil(0, which, 5, 0)));
        parts.push(base(0, LAST - 32, LAST - 32, 2_800));
        parts.extend([9, 10, 11, 12, 13].map(|which| spoil(0, which, 5, 0)));
        parts.push(base(0, 0, 0, 2_800));
        parts.extend([9, 10, 11, 12, 13].map(|which| spoil(0, which, 5, 0)));
        parts
    });
    let bad: Vec<(&str, Vec<u8>)> = vec![
        ("command 0f", vec![0x0f, 0]),
        ("command 19", vec![0x19, 0]),
        ("raw without its last byte", vec![0x10, 0, 0, 0, 0, 0, 0, 0, 0, 0, 2, 0, 1]),
        ("base without its last byte", base(0, 0, 0, 2_800)[..13].to_vec()),
        ("open without its last byte", open(0, 1, 2, 10, 0)[..18].to_vec()),
        ("room of 14,001 bytes", room(0, 14_001)),
        ("look at end 2", look(2)),
        ("numbers at end 2", numbers(2)),
        ("encode into 65 bytes", encode(65, fields)),
        ("encode without its last byte", encode(20, fields)[..19].to_vec()),
        ("decode of 65 bytes", [vec![0x17, 65], vec![0; 65]].concat()),
        ("decode without its last byte", vec![0x17, 2, 255]),
        ("thing 25", spoil(0, 25, 0, 0)),
        ("call 8", spoil(0, 0, 8, 0)),
        ("spoil without its last byte", spoil(0, 0, 0, 0)[..11].to_vec()),
    ];
    for (name, command) in bad {
        list.stop(&format!("the run ends: {name}"), vec![write(0, 1, 1), command]);
    }
    for width in [1_000, 1 << 24] {
        list.drill(
            &format!("a SACK block of {width} numbers"),
            vec![times(4, write(0, 1, 1)).concat(), driven(0, 0, 1), raw(0, 7, &to_zero(4, 0, 0, &blocks(&[(1, width)], 1)))],
        );
    }
    list.drill(
        "a SACK block of all numbers",
        vec![times(4, write(0, 1, 1)).concat(), driven(0, 0, 1), raw(0, 7, &to_zero(4, 0, 0, &blocks(&[(0, LAST)], 1)))],
    );
    list.0.last_mut().unwrap().slow = true;
}
