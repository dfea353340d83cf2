/*
 * Tests the boundary from C and C++: layout, 01's example session, and garbage in every field and every length. Prints what failed, and at
 * the end a count of checks.
 */
#ifndef _GNU_SOURCE
#define _GNU_SOURCE /* MAP_ANONYMOUS */
#endif
#include "raw.h"
#include "udx.h"
#include <stdio.h>
#include <stdlib.h>
#include <string.h>
#include <sys/mman.h>

static unsigned long checks, failures;

static void expect(int holds, const char *what, int line) {
    checks++;
    if (holds)
        return;
    if (++failures <= 20)
        printf("line %d: %s\n", line, what);
}
#define EXPECT(holds) expect(!!(holds), #holds, __LINE__)

/* layout */

/* n is the field's number in the order of udx_step. */
#define PLACE(n, field) EXPECT(raw_step_place(n) == (int)offsetof(udx_step, field))

static void layout(void) {
    PLACE(1, stream.ids.local);
    PLACE(2, stream.ids.remote);
    PLACE(3, stream.ids.segments);
    PLACE(4, stream.sender.seq);
    PLACE(5, stream.sender.remote_acked);
    PLACE(6, stream.sender.largest_ack);
    PLACE(7, stream.sender.inflight);
    PLACE(8, stream.sender.cwnd);
    PLACE(9, stream.receiver.ack);
    PLACE(10, stream.receiver.read_cursor);
    PLACE(11, stream.receiver.top);
    PLACE(12, stream.queue.count);
    PLACE(13, stream.queue.left);
    PLACE(14, stream.queue.states);
    PLACE(15, stream.queue.gone);
    PLACE(16, stream.timing.srtt);
    PLACE(17, stream.timing.rttvar);
    PLACE(18, stream.timing.rto);
    PLACE(19, stream.timing.deadline);
    PLACE(20, stream.clocks.last);
    PLACE(21, stream.clocks.drive);
    PLACE(22, stream.ending.error);
    PLACE(23, stream.ending.state);
    PLACE(24, stream.ending.ended);
    PLACE(25, totals.tx_packets);
    PLACE(26, totals.tx_bytes);
    PLACE(27, totals.rx_packets);
    PLACE(28, totals.rx_bytes);
    PLACE(29, totals.inflight_packets);
    PLACE(30, totals.inflight_bytes);
    PLACE(31, count);
    PLACE(32, segment);
    PLACE(33, outcome);
    PLACE(34, refusal);
    EXPECT(raw_step_end() > (int)offsetof(udx_step, refusal) && raw_step_end() <= (int)sizeof(udx_step));
    EXPECT(raw_decoded_end() > (int)offsetof(udx_decoded, refusal) && raw_decoded_end() <= (int)sizeof(udx_decoded));
    EXPECT(sizeof(udx_stream) == 120 && sizeof(udx_totals) == 48 && sizeof(udx_step) == 192);
    EXPECT(sizeof(udx_part) == 24 && sizeof(udx_header) == 20 && sizeof(udx_decoded) == 24 && sizeof(udx_numbers) == 192);
}

/* What goes in arrives: every field has its own value that fills it. */
static void arrives(void) {
    udx_stream s;
    udx_totals t;
    uint32_t w = 0x80000001u;
    uint64_t d = 0x8000000000000001u;
    memset(&s, 0, sizeof s);
    memset(&t, 0, sizeof t);
    uint32_t *words[14] = {&s.ids.local, &s.ids.remote, &s.sender.seq, &s.sender.remote_acked, &s.sender.largest_ack, &s.sender.inflight, &s.sender.cwnd,
                           &s.receiver.ack, &s.receiver.read_cursor, &s.receiver.top, &s.queue.count, &s.queue.left, &s.queue.states, &s.queue.gone};
    uint64_t *doubles[6] = {&s.timing.srtt, &s.timing.rttvar, &s.timing.rto, &s.timing.deadline, &s.clocks.last, &s.clocks.drive};
    uint8_t *bytes[4] = {&s.ids.segments, &s.ending.error, &s.ending.state, &s.ending.ended};
    uint64_t *totals[6] = {&t.tx_packets, &t.tx_bytes, &t.rx_packets, &t.rx_bytes, &t.inflight_packets, &t.inflight_bytes};
    for (int i = 0; i < 14; i++)
        *words[i] = w + 0x01010100u * (unsigned)i;
    for (int i = 0; i < 6; i++)
        *doubles[i] = d + 0x0101010101010100u * (unsigned)i;
    for (int i = 0; i < 4; i++)
        *bytes[i] = (uint8_t)(250 + i);
    for (int i = 0; i < 6; i++)
        *totals[i] = d + 0x1111111111111100u * (unsigned)i;
    udx_numbers n = udx_layout_stream(s);
    static const int word_at[14] = {0, 1, 3, 4, 5, 6, 7, 8, 9, 10, 11, 12, 13, 14};
    static const int byte_at[4] = {2, 21, 22, 23};
    for (int i = 0; i < 14; i++)
        EXPECT(n.n[word_at[i]] == *words[i]);
    for (int i = 0; i < 6; i++)
        EXPECT(n.n[15 + i] == *doubles[i]);
    for (int i = 0; i < 4; i++)
        EXPECT(n.n[byte_at[i]] == *bytes[i]);
    n = udx_layout_totals(s, t);
    for (int i = 0; i < 6; i++)
        EXPECT(n.n[i] == *totals[i]);
}

static int same_stream(udx_stream a, udx_stream b) {
    udx_numbers x = udx_layout_stream(a), y = udx_layout_stream(b);
    return memcmp(&x, &y, sizeof x) == 0;
}

static int same_totals(udx_totals a, udx_totals b) { return memcmp(&a, &b, sizeof a) == 0; }

static void headers(void) {
    udx_header h;
    uint8_t buf[24];
    static const uint8_t due[20] = {255, 1, 5, 200, 4, 3, 2, 129, 8, 7, 6, 133, 12, 11, 10, 137, 16, 15, 14, 141};
    h.typ = 5;
    h.data_offset = 200;
    h.stream_id = 0x81020304u;
    h.recv_win = 0x85060708u;
    h.seq = 0x890A0B0Cu;
    h.ack = 0x8D0E0F10u;
    for (size_t length = 0; length < 20; length++) {
        memset(buf, 7, sizeof buf);
        EXPECT(udx_encode(h, buf, length) == UDX_REFUSED_SHORT_BUFFER);
        EXPECT(buf[0] == 7 && buf[19] == 7);
        udx_decoded r = udx_decode(due, length);
        EXPECT(r.outcome == UDX_REFUSED && r.refusal == UDX_REFUSED_BAD_HEADER && r.header.seq == 0 && r.header.typ == 0);
    }
    for (size_t length = 20; length <= 24; length++) {
        memset(buf, 7, sizeof buf);
        EXPECT(udx_encode(h, buf, length) == 0);
        EXPECT(memcmp(buf, due, 20) == 0 && buf[20] == 7 && buf[23] == 7);
        udx_decoded r = udx_decode(buf, length);
        EXPECT(r.outcome == UDX_OK && r.refusal == 0 && r.header.typ == 5 && r.header.data_offset == 200);
        EXPECT(r.header.stream_id == h.stream_id && r.header.recv_win == h.recv_win && r.header.seq == h.seq && r.header.ack == h.ack);
    }
    for (int first = 0; first < 256; first++)
        for (int second = 0; second < 256; second++) {
            memcpy(buf, due, 20);
            buf[0] = (uint8_t)first;
            buf[1] = (uint8_t)second;
            EXPECT((udx_decode(buf, 20).refusal == 0) == (first == 255 && second == 1));
        }
}

#include "session.h"

static void example(void) {
    static const uint8_t script[] = {1, 0, 3, 0, 0x41, 2, 0, 0, 0, 0, 0, 0, 0, 0, 0, 3, 0, 3, 0, 4, 1, 0, 0, 5, 0, 0, 0, 0, 0, 0, 0, 5, 1, 8, 0, 5, 1, 8, 0, 6, 1};
    static char out[4096];
    session(script, sizeof script, out, sizeof out);
    EXPECT(strcmp(out, "write 0 ok 3\ndrive 0 ok 0\ntake 0 ok 23\ntake 0 none 0\nhand 1 ok 0\nread 1 ok 3 414141\nread 1 wait 0 -\nclose 1 ok 0\n") == 0);
    /* the same numbers as the C++ and the Rust side see them */
    EXPECT(ends[1].stream.ending.error == UDX_CONNECTION_RESET && ends[1].totals.rx_packets == 1 && ends[1].totals.rx_bytes == 3);
    EXPECT(ends[0].stream.timing.deadline == 1000000000u && ends[0].stream.sender.seq == 1 && ends[0].stream.sender.remote_acked == 0);
}

/* A stream that has something everywhere: packets stored and queued, packets held, state packets queued; driven, all of the queue is left
 * to take. */
static void busy(udx_end *e, int driven) {
    static uint8_t bytes[3000];
    udx_end_open(&ends[0], 1, 2, 10, 0);
    udx_end_open(&ends[1], 2, 1, 10, 0);
    memset(bytes, 0x41, sizeof bytes);
    EXPECT(udx_end_write(&ends[0], bytes, sizeof bytes).count == 2760);
    EXPECT(udx_end_drive(&ends[0], 1).outcome == UDX_OK);
    udx_answer a = udx_end_take(&ends[0], batch, sizeof batch);
    EXPECT(a.count == 2800 && a.segment == 1400);
    EXPECT(udx_end_write(&ends[1], bytes, 100).count == 100);
    EXPECT(udx_end_deliver(&ends[1], batch + 1400, 1400, 2).outcome == UDX_OK);
    EXPECT(udx_end_deliver(&ends[1], batch, 1400, 3).outcome == UDX_OK);
    EXPECT(udx_end_read(&ends[1], bytes, 1000).count == 1000);
    if (driven) {
        EXPECT(udx_end_drive(&ends[1], 3).outcome == UDX_OK);
        EXPECT(ends[1].stream.queue.left == 3);
    }
    memcpy(e, &ends[1], sizeof *e);
}

/* garbage: an end whose arrays are blocks of their own, each in front of a page that nothing may touch, so that a step past one crashes */

typedef struct lent_end {
    udx_stream stream;
    udx_totals totals;
    uint64_t *sent, *held, *queue;
    uint8_t *outgoing, *incoming, *headers;
    size_t outgoing_length, incoming_length, headers_length;
} lent_end;

enum { PAGE = 4096 };

static size_t before_guard(size_t bytes) { return (bytes + PAGE - 1) / PAGE * PAGE; }

static void *copy(const void *from, size_t bytes) {
    size_t used = before_guard(bytes);
    char *base = (char *)mmap(NULL, used + PAGE, PROT_READ | PROT_WRITE, MAP_PRIVATE | MAP_ANONYMOUS, -1, 0);
    if (base == MAP_FAILED || mprotect(base + used, PAGE, PROT_NONE))
        exit(2);
    memcpy(base + used - bytes, from, bytes);
    return base + used - bytes;
}

static void drop(void *block, size_t bytes) {
    size_t used = before_guard(bytes);
    munmap((char *)block + bytes - used, used + PAGE);
}

static lent_end lend(const udx_end *e, size_t outgoing, size_t incoming, size_t headers) {
    lent_end l;
    uint8_t *room = (uint8_t *)calloc(1, 50000);
    if (!room)
        exit(2);
    l.stream = e->stream;
    l.totals = e->totals;
    l.sent = (uint64_t *)copy(e->sent, sizeof e->sent);
    l.held = (uint64_t *)copy(e->held, sizeof e->held);
    l.queue = (uint64_t *)copy(e->queue, sizeof e->queue);
    memcpy(room, e->outgoing, sizeof e->outgoing);
    l.outgoing = (uint8_t *)copy(room, outgoing);
    memcpy(room, e->incoming, sizeof e->incoming);
    l.incoming = (uint8_t *)copy(room, incoming);
    memcpy(room, e->headers, sizeof e->headers);
    l.headers = (uint8_t *)copy(room, headers);
    l.outgoing_length = outgoing;
    l.incoming_length = incoming;
    l.headers_length = headers;
    free(room);
    return l;
}

static void give_back(lent_end *l) {
    drop(l->sent, 64 * sizeof *l->sent);
    drop(l->held, 32 * sizeof *l->held);
    drop(l->queue, 128 * sizeof *l->queue);
    drop(l->outgoing, l->outgoing_length);
    drop(l->incoming, l->incoming_length);
    drop(l->headers, l->headers_length);
}

static size_t least(size_t a, size_t b) { return a < b ? a : b; }

static int untouched(const lent_end *l, const udx_end *e) {
    return !memcmp(l->sent, e->sent, sizeof e->sent) && !memcmp(l->held, e->held, sizeof e->held) && !memcmp(l->queue, e->queue, sizeof e->queue) &&
           !memcmp(l->outgoing, e->outgoing, least(l->outgoing_length, sizeof e->outgoing)) &&
           !memcmp(l->incoming, e->incoming, least(l->incoming_length, sizeof e->incoming)) &&
           !memcmp(l->headers, e->headers, least(l->headers_length, sizeof e->headers));
}

enum { WRITE, DELIVER, DRIVE, TAKE, READ, CLOSE, CALLS };

#define STORES l->outgoing, l->outgoing_length, l->incoming, l->incoming_length, l->headers, l->headers_length

static udx_step call(int which, lent_end *l, uint8_t *buf, size_t length, uint64_t clock) {
    switch (which) {
    case WRITE:
        return udx_write(l->stream, l->totals, l->sent, l->held, l->queue, STORES, buf, length);
    case DELIVER:
        return udx_deliver(l->stream, l->totals, l->sent, l->held, l->queue, STORES, buf, length, clock);
    case DRIVE:
        return udx_drive(l->stream, l->totals, l->sent, l->held, l->queue, STORES, clock);
    case TAKE:
        return udx_take(l->stream, l->totals, l->sent, l->held, l->queue, STORES, buf, length);
    case READ:
        return udx_read(l->stream, l->totals, l->sent, l->held, l->queue, STORES, buf, length);
    default:
        return udx_close(l->stream, l->totals, l->sent, l->held, l->queue, STORES);
    }
}

static size_t shown;        /* by the last look */
static unsigned long taken; /* takes that put bytes */

/* Makes every call on this end: each returns by 01's numbers, and a refused one has changed nothing. Returns how many met refusal 1. */
static int every_call(const udx_end *e, size_t outgoing, size_t incoming, size_t headers, uint8_t *buf, size_t length, uint64_t clock) {
    int broken = 0;
    uint8_t *before = (uint8_t *)copy(buf, length);
    for (int which = 0; which < CALLS; which++) {
        lent_end l = lend(e, outgoing, incoming, headers);
        uint8_t *lent = (uint8_t *)copy(buf, length);
        udx_step r = call(which, &l, lent, length, clock);
        EXPECT(r.outcome <= UDX_REFUSED && (r.outcome == UDX_REFUSED) == (r.refusal != 0) && r.refusal <= 17);
        EXPECT(r.count <= length || which == DELIVER || which == DRIVE || which == CLOSE);
        if (r.outcome == UDX_REFUSED && !(which == READ && r.refusal >= 14)) {
            EXPECT(same_stream(r.stream, e->stream) && same_totals(r.totals, e->totals) && r.count == 0 && untouched(&l, e));
            EXPECT(memcmp(lent, before, length) == 0);
        }
        if ((which == TAKE || which == READ) && r.count <= length)
            EXPECT(memcmp(lent + r.count, before + r.count, length - r.count) == 0);
        taken += which == TAKE && r.outcome == UDX_OK && r.count > 0;
        broken += r.refusal == UDX_REFUSED_BROKEN_RECORDS;
        drop(lent, length);
        give_back(&l);
    }
    lent_end own = lend(e, outgoing, incoming, headers), *l = &own;
    udx_part p = udx_look(l->stream, l->totals, l->sent, l->held, l->queue, STORES);
    EXPECT(p.header <= 1 && p.start <= (p.header ? headers : outgoing) && p.length <= (p.header ? headers : outgoing) - p.start);
    shown = p.length;
    give_back(l);
    drop(before, length);
    return broken;
}

static int broken_for(const udx_end *e) {
    return every_call(e, UDX_OUTGOING_STORE, UDX_INCOMING_STORE, UDX_HEADER_STORE, batch, sizeof batch, 10);
}

/* Refusal 1 from every call, and look shows nothing. */
static int refused_by_all(const udx_end *e) { return broken_for(e) == CALLS && shown == 0; }

/* Refusal 1 from none, and look shows what is left to take. */
static int refused_by_none(const udx_end *e) { return broken_for(e) == 0 && (shown > 0) == (e->stream.queue.left > 0); }

/* A field with another value breaks the records. */
#define BREAKS(field, value) \
    do { \
        memcpy(&f, &good, sizeof f); \
        f.field = (value); \
        EXPECT(refused_by_all(&f)); \
    } while (0)

#define KEEPS(field, value) \
    do { \
        memcpy(&f, &good, sizeof f); \
        f.field = (value); \
        EXPECT(refused_by_none(&f)); \
    } while (0)

static udx_end good, f;

static void fields(int driven) {
    uint64_t end = (uint64_t)1 << 60;
    busy(&good, driven);
    EXPECT(refused_by_none(&good));
    for (int v = 0; v < 256; v++) {
        if (v < 1 || v > 10)
            BREAKS(stream.ids.segments, (uint8_t)v);
        if (v > 3) {
            BREAKS(stream.ending.error, (uint8_t)v);
            BREAKS(stream.ending.state, (uint8_t)v);
        } else {
            KEEPS(stream.ending.error, (uint8_t)v);
            KEEPS(stream.ending.state, (uint8_t)v);
        }
        if (v > 1)
            BREAKS(stream.ending.ended, (uint8_t)v);
        else
            KEEPS(stream.ending.ended, (uint8_t)v);
    }
    KEEPS(stream.ids.local, 0xFFFFFFFFu);
    KEEPS(stream.ids.remote, 0xFFFFFFFFu);
    BREAKS(stream.sender.seq, 0u);
    BREAKS(stream.sender.seq, 33u);
    BREAKS(stream.sender.remote_acked, 0xFFFFFFFFu);
    BREAKS(stream.sender.largest_ack, good.stream.sender.seq + 1);
    BREAKS(stream.sender.inflight, good.stream.sender.inflight + 1);
    BREAKS(stream.sender.inflight, 0xFFFFFFFFu);
    BREAKS(stream.sender.cwnd, 1399u);
    KEEPS(stream.sender.cwnd, 0xFFFFFFFFu);
    BREAKS(stream.receiver.ack, good.stream.receiver.read_cursor + 33);
    BREAKS(stream.receiver.read_cursor, good.stream.receiver.ack + 1);
    BREAKS(stream.receiver.top, good.stream.receiver.read_cursor + 33);
    BREAKS(stream.queue.count, 129u);
    BREAKS(stream.queue.count, 0xFFFFFFFFu);
    BREAKS(stream.queue.left, 1u);
    BREAKS(stream.queue.left, 0xFFFFFFFFu);
    BREAKS(stream.queue.states, 0xFFFFFFFFu);
    BREAKS(stream.queue.gone, 0xFFFFFFFFu);
    BREAKS(stream.timing.srtt, end);
    BREAKS(stream.timing.rttvar, end);
    BREAKS(stream.timing.rto, 999999999u);
    BREAKS(stream.timing.rto, 5 * end + 1);
    KEEPS(stream.timing.deadline, UINT64_MAX);
    BREAKS(stream.clocks.last, end);
    BREAKS(stream.clocks.drive, good.stream.clocks.last + 1);
    BREAKS(totals.inflight_packets, good.totals.inflight_packets + 1);
    BREAKS(totals.inflight_bytes, good.totals.inflight_bytes + 1);
    KEEPS(totals.tx_packets, UINT64_MAX);
    KEEPS(totals.tx_bytes, UINT64_MAX);
    KEEPS(totals.rx_packets, UINT64_MAX);
    KEEPS(totals.rx_bytes, UINT64_MAX);
}

static void lengths(void) {
    static const size_t outgoing[] = {0, 1, 1400, 44799, 44801, 44160}, incoming[] = {0, 1, 1380, 44159, 44161, 44800}, headers[] = {0, 1, 20, 1279, 1281, 1300};
    static uint8_t room[44801];
    for (int driven = 0; driven < 2; driven++) {
        busy(&good, driven);
        for (int i = 0; i < 6; i++) {
            EXPECT(every_call(&good, outgoing[i], UDX_INCOMING_STORE, UDX_HEADER_STORE, batch, sizeof batch, 10) == CALLS && shown == 0);
            EXPECT(every_call(&good, UDX_OUTGOING_STORE, incoming[i], UDX_HEADER_STORE, batch, sizeof batch, 10) == CALLS && shown == 0);
            EXPECT(every_call(&good, UDX_OUTGOING_STORE, UDX_INCOMING_STORE, headers[i], batch, sizeof batch, 10) == CALLS && shown == 0);
        }
        for (size_t length = 0; length < UDX_TAKE_ROOM; length += 7) {
            udx_answer a = udx_end_take(&good, batch, length);
            EXPECT(a.outcome == UDX_REFUSED && a.refusal == UDX_REFUSED_SHORT_BUFFER);
        }
        EXPECT(udx_end_take(&good, NULL, 5).refusal == UDX_REFUSED_SHORT_BUFFER);
    }
    EXPECT(udx_open(1, 2, 10, 0, room, 44800, room, 44160, room, 1280).refusal == 0);
    for (int i = 0; i < 6; i++) {
        EXPECT(udx_open(1, 2, 10, 0, room, outgoing[i], room, 44160, room, 1280).refusal == 1);
        EXPECT(udx_open(1, 2, 10, 0, room, 44800, room, incoming[i], room, 1280).refusal == 1);
        EXPECT(udx_open(1, 2, 10, 0, room, 44800, room, 44160, room, headers[i]).refusal == 1);
    }
    busy(&good, 0);
    EXPECT(udx_end_write(&good, NULL, 5).outcome == UDX_OK);
    EXPECT(udx_end_deliver(&good, NULL, 5, 10).refusal == UDX_REFUSED_BAD_HEADER);
    EXPECT(udx_end_read(&good, NULL, 5).outcome == UDX_WAIT);
}

static void numbers(void) {
    uint64_t end = (uint64_t)1 << 60;
    for (int v = 0; v < 256; v++)
        EXPECT(udx_end_open(&f, 1, 2, (uint8_t)v, 0).refusal == (v >= 1 && v <= 10 ? 0 : UDX_REFUSED_SEGMENT_CEILING));
    EXPECT(refused_by_all(&f));
    EXPECT(udx_end_open(&f, 1, 2, 10, end).refusal == UDX_REFUSED_BAD_CLOCK);
    EXPECT(udx_end_open(&f, 1, 2, 10, UINT64_MAX).refusal == UDX_REFUSED_BAD_CLOCK);
    EXPECT(udx_end_open(&f, 1, 2, 10, end - 1).refusal == 0);
    busy(&good, 0);
    EXPECT(udx_end_drive(&good, 2).refusal == UDX_REFUSED_BAD_CLOCK);
    EXPECT(udx_end_drive(&good, end).refusal == UDX_REFUSED_BAD_CLOCK);
    EXPECT(udx_end_deliver(&good, batch, 1400, 2).refusal == UDX_REFUSED_BAD_CLOCK);
    EXPECT(udx_end_drive(&good, 3).outcome == UDX_OK);
    EXPECT(udx_end_write(&good, batch, 1).refusal == UDX_REFUSED_BATCHES_LEFT);
    EXPECT(udx_end_drive(&good, 3).refusal == UDX_REFUSED_BATCHES_LEFT);
    EXPECT(udx_end_close(&good).refusal == UDX_REFUSED_BATCHES_LEFT);
    while (udx_end_take(&good, batch, sizeof batch).outcome != UDX_NONE)
        ;
    /* each refusal of a datagram */
    udx_header h;
    uint8_t d[1500];
    memset(d, 0, sizeof d);
    memset(&h, 0, sizeof h);
    h.typ = 1;
    h.stream_id = 2;
    h.seq = 2;
#define DELIVERS(due, length) \
    EXPECT(udx_encode(h, d, sizeof d) == 0); \
    EXPECT(udx_end_deliver(&good, d, length, 4).refusal == (due))
    h.stream_id = 3;
    DELIVERS(UDX_REFUSED_OTHER_STREAM, 30);
    h.stream_id = 2;
    DELIVERS(UDX_REFUSED_LONG_PAYLOAD, 1401);
    h.ack = good.stream.sender.seq + 1;
    DELIVERS(UDX_REFUSED_ACK_PAST_SEQ, 30);
    h.ack = 0;
    h.seq = 0xFFFFFFFFu;
    DELIVERS(UDX_REFUSED_SEQ_END, 30);
    h.seq = good.stream.receiver.read_cursor + 32;
    DELIVERS(UDX_REFUSED_PAST_INCOMING, 30);
    h.seq = good.stream.receiver.read_cursor + 31;
    DELIVERS(0, 30);
    while (good.stream.queue.states < 62) {
        DELIVERS(0, 30);
    }
    DELIVERS(UDX_REFUSED_STATE_QUEUE_FULL, 30);
    EXPECT(udx_end_close(&good).refusal == 0);
    EXPECT(udx_end_close(&good).refusal == UDX_REFUSED_STATE_QUEUE_FULL);
    EXPECT(udx_end_write(&good, d, 1).refusal == UDX_REFUSED_RESET);
}

/* To the end of a stream: what a close does at both ends, and the refusals after it. */
static void ended(void) {
    udx_answer a;
    uint8_t buf[64];
    udx_end_open(&ends[0], 1, 2, 1, 0);
    udx_end_open(&ends[1], 2, 1, 1, 0);
    EXPECT(udx_end_close(&ends[0]).outcome == UDX_OK);
    EXPECT(udx_end_drive(&ends[0], 1).outcome == UDX_OK);
    a = udx_end_take(&ends[0], batch, sizeof batch);
    EXPECT(a.count == 20 && a.segment == 0);
    EXPECT(udx_end_deliver(&ends[1], batch, 20, 1).outcome == UDX_OK);
    EXPECT(udx_end_take(&ends[0], batch, sizeof batch).outcome == UDX_NONE);
    EXPECT(udx_end_drive(&ends[0], 2).outcome == UDX_DONE);
    EXPECT(ends[0].stream.ending.ended == 1 && ends[0].stream.ending.error == UDX_CONNECTION_RESET);
    EXPECT(udx_end_drive(&ends[0], 3).refusal == UDX_REFUSED_AFTER_DONE);
    EXPECT(udx_end_read(&ends[0], buf, sizeof buf).refusal == UDX_REFUSED_RESET);
    EXPECT(udx_end_read(&ends[1], buf, sizeof buf).refusal == UDX_REFUSED_EOF);
    EXPECT(ends[1].stream.ending.state == UDX_BOTH_CLOSED && ends[1].stream.ending.error == UDX_UNEXPECTED_EOF);
    /* a packet that is never acknowledged */
    udx_end_open(&ends[0], 1, 2, 1, 0);
    EXPECT(udx_end_write(&ends[0], buf, 10).count == 10);
    uint64_t clock = 0;
    for (int turn = 0; turn < 6 && ends[0].stream.ending.error == 0; turn++) {
        EXPECT(udx_end_drive(&ends[0], clock).outcome == UDX_OK);
        while (udx_end_take(&ends[0], batch, sizeof batch).outcome != UDX_NONE)
            ;
        clock = ends[0].stream.timing.deadline;
    }
    EXPECT(ends[0].stream.ending.error == UDX_TIMED_OUT);
    EXPECT(udx_end_write(&ends[0], buf, 10).refusal == UDX_REFUSED_TIMED_OUT);
}

/* Random garbage: a few fields, words and bytes of a good end, driven or not, with random lengths and clocks. */

static uint64_t seed = 0x9E3779B97F4A7C15u;

static uint64_t any(void) {
    seed ^= seed << 13;
    seed ^= seed >> 7;
    seed ^= seed << 17;
    return seed;
}

static uint64_t some(void) {
    static const uint64_t edges[] = {0, 1, 2, 31, 32, 33, 63, 64, 127, 128, 129, 1379, 1380, 1400, 1401, 0xFFFFFFFFu, 0x100000000u};
    switch (any() % 4) {
    case 0:
        return any();
    case 1:
        return any() % 256;
    default:
        return edges[any() % (sizeof edges / sizeof *edges)];
    }
}

static void garbage(int rounds) {
    static uint8_t buf[15000];
    taken = 0;
    for (int round = 0; round < rounds; round++) {
        int driven = round / 32 % 2;
        if (round % 32 == 0)
            busy(&good, driven);
        memcpy(&f, &good, sizeof f);
        for (uint64_t n = any() % 3; n > 0; n--) {
            uint64_t v = some();
            switch (any() % 6) {
            case 0:
                memcpy((char *)&f.stream + 4 * (any() % 15), &v, 4);
                break;
            case 1:
                memcpy((char *)&f.stream + offsetof(udx_stream, timing) + 8 * (any() % 6), &v, 8);
                break;
            case 2:
                memcpy((char *)&f.stream + offsetof(udx_stream, ending) + any() % 3, &v, 1);
                break;
            case 3:
                memcpy((char *)&f.totals + 8 * (any() % 6), &v, 8);
                break;
            case 4:
                f.sent[any() % 64] = v;
                f.held[any() % 32] ^= (uint64_t)1 << any() % 64;
                break;
            default:
                f.queue[any() % 128] ^= (uint64_t)1 << any() % 64;
            }
        }
        size_t length = (size_t)(any() % 4 ? any() % 64 : any() % sizeof buf);
        if (driven && any() % 2)
            length = UDX_TAKE_ROOM + any() % (sizeof buf - UDX_TAKE_ROOM);
        for (size_t i = 0; i < 32; i++)
            buf[i] = (uint8_t)any();
        if (any() % 4) {
            udx_header h;
            h.typ = (uint8_t)(any() % 8);
            h.data_offset = (uint8_t)any();
            h.stream_id = 2;
            h.recv_win = (uint32_t)any();
            h.seq = (uint32_t)(any() % 40);
            h.ack = (uint32_t)(any() % 3);
            udx_encode(h, buf, sizeof buf);
        }
        every_call(&f, UDX_OUTGOING_STORE, UDX_INCOMING_STORE, UDX_HEADER_STORE, buf, length, any() % 8 ? 3 + any() % 3 : some() << any() % 40);
    }
    /* so that the checks of takes met some that put bytes */
    EXPECT(taken >= (unsigned long)rounds / 32);
}

int main(int argc, char **argv) {
    layout();
    arrives();
    headers();
    example();
    fields(0);
    fields(1);
    lengths();
    numbers();
    ended();
    garbage(argc > 1 ? atoi(argv[1]) : 2000);
    printf("%lu checks, %lu failed\n", checks, failures);
    return failures ? 1 : 0;
}
