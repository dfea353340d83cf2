/*
 * Times the calls through the boundary, as C and Rust make them: stream and totals by value in and out. The cases are those of calls.c,
 * incoming.c and drives.c, which time the same calls from inside. Build with -Iinclude and target/staticlib/libudx_c.a.
 */
#include "timing.h"
#include "udx.h"

static udx_end e;
static udx_stream stream;
static udx_totals totals;
static uint64_t fresh[UDX_SENT_WORDS];
static uint8_t buf[UDX_TAKE_ROOM], bytes[UDX_MAX_PAYLOAD], datagram[UDX_MAX_DATAGRAM];

/* A stream with `stored` packets of this payload, all waiting or none, sent `transmits` times, and `left` of them left to take. */
static void fill(unsigned stored, unsigned payload, unsigned left, unsigned waiting, unsigned transmits) {
    uint64_t length = payload + 20;
    memset(&e, 0, sizeof e);
    udx_end_open(&e, 1, 1, 10, 0);
    stream = e.stream;
    totals = e.totals;
    memset(fresh, 0, sizeof fresh);
    for (unsigned n = 0; n < stored; n++) {
        fresh[n] = (uint64_t)n << 32 | length << 6 | transmits << 1 | waiting;
        fresh[32 + n] = transmits ? 6 : 0;
        e.queue[n] = (uint64_t)n << 32 | length << 6;
    }
    memcpy(e.sent, fresh, sizeof fresh);
    stream.sender.seq = stored;
    stream.sender.inflight = waiting ? 0 : (uint32_t)(stored * length);
    stream.sender.cwnd = 100000;
    stream.queue.count = stream.queue.left = left;
    stream.clocks.last = stream.clocks.drive = 9;
    totals.inflight_packets = stored;
    totals.inflight_bytes = (uint64_t)stored * payload;
}

static void hold(unsigned payload) {
    fill(0, 0, 0, 0, 0);
    stream.receiver.ack = stream.receiver.top = 1;
    e.held[0] = (uint64_t)(payload + 1) << 16;
    fresh[0] = e.held[0];
}

static void head(uint8_t type, uint8_t ack) {
    udx_header h = {1, 0xFFFFFFFFu, 0, ack, type, 0};
    udx_encode(h, datagram, sizeof datagram);
}

#define LENT e.sent, e.held, e.queue, e.outgoing, sizeof e.outgoing, e.incoming, sizeof e.incoming, e.headers, sizeof e.headers

static uint64_t one_write(unsigned payload) { return udx_write(stream, totals, LENT, bytes, payload).count; }

static uint64_t one_take(unsigned unused) {
    (void)unused;
    memcpy(e.sent, fresh, sizeof fresh);
    return udx_take(stream, totals, LENT, buf, sizeof buf).count;
}

static uint64_t one_look(unsigned unused) {
    (void)unused;
    return udx_look(stream, totals, LENT).length;
}

static uint64_t one_delivery(unsigned payload) { return udx_deliver(stream, totals, LENT, datagram, 20 + payload, 9).outcome == UDX_OK; }

static uint64_t one_read(unsigned unused) {
    (void)unused;
    e.held[0] = fresh[0];
    return udx_read(stream, totals, LENT, buf, sizeof buf).count;
}

static uint64_t one_drive(unsigned unused) {
    (void)unused;
    memcpy(e.sent, fresh, sizeof fresh);
    udx_step r = udx_drive(stream, totals, LENT, 9);
    return r.stream.queue.left + r.stream.sender.remote_acked;
}

int main(void) {
    fill(0, 0, 0, 0, 0);
    report("write of 1,380 bytes", one_write, 1380, 1380);
    report("write of 30 bytes", one_write, 30, 30);
    fill(10, 1380, 10, 0, 0);
    report("look at the first of ten", one_look, 0, 1400);
    report("take of ten, 1,380 bytes each", one_take, 0, 14000);
    fill(10, 30, 10, 0, 0);
    report("take of ten, 30 bytes each", one_take, 0, 500);
    fill(0, 0, 0, 0, 0);
    head(1, 0);
    report("deliver of 1,380 bytes", one_delivery, 1380, 1);
    report("deliver of 30 bytes", one_delivery, 30, 1);
    hold(1380);
    report("read of 1,380 bytes", one_read, 0, 1380);
    hold(30);
    report("read of 30 bytes", one_read, 0, 30);
    fill(32, 1380, 0, 1, 1);
    report("drive that queues 32 packets", one_drive, 0, 32);
    fill(32, 1380, 0, 0, 1);
    stream.sender.largest_ack = 32;
    report("drive that settles 32 packets", one_drive, 0, 32);
    fill(0, 0, 0, 0, 0);
    report("drive with nothing to do", one_drive, 0, 0);
    return 0;
}
