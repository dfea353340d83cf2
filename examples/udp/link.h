/*
 * One end of a stream over a UDP socket: the round of a caller (include/udx.h), written once for hub and gateway.
 *
 *     link_receive    1. deliver each datagram that waits
 *     link_drive      2. drive with the clock, 3. take until none is left, and send
 *     link_wait       4. wait for a datagram or for the engine's deadline
 *
 * The program itself writes, reads and closes, between link_receive and link_drive, with the udx_end_ functions on link.end.
 */
#ifndef UDP_LINK_H
#define UDP_LINK_H

#include "common.h"
#include "udx.h"

/* The two ids of the stream: a datagram with another one is refused with 8. */
enum { HUB_ID = 1, GATEWAY_ID = 2 };

enum {
    MOST_SEGMENTS = 10, /* datagrams in a batch */
    MOST_RECEIVED = 31, /* before a drive: a datagram queues two state packets at most, and refusal 13 comes at 62 */
    LAST_REFUSAL = UDX_REFUSED_SEQ_EXHAUSTED,
    TYPE_DATA = 1 /* bit of a header's type */
};

/* A stream starts with 8 bytes, little-endian: how many bytes follow. END alone does not say whether the hub had sent all of them. */
enum { ANNOUNCEMENT = 8 };

struct link {
    udx_end end;
    int socket;
    bool is_connected;       /* the hub's socket; the gateway's sends to peer */
    bool has_peer;           /* a datagram was accepted */
    struct sockaddr_in peer; /* where the last accepted datagram came from */
    uint64_t opened;         /* instants: of the open, */
    uint64_t first, heard;   /* of the first accepted datagram, and of the last accepted one */
    uint64_t received, refused[LAST_REFUSAL + 1];
    uint64_t first_sent, resent, states; /* datagrams: data for the first time, data again, state packets */
    uint64_t unsent;                     /* of these, not taken by the kernel */
    uint64_t timeouts;                   /* drives that found the timer due */
};

/* A call that is refused only if this program has a bug. */
static inline udx_answer expect(const char *call, udx_answer a) {
    if (a.outcome == UDX_REFUSED)
        die(STATUS_FAILED, "%s: refusal %d", call, a.refusal);
    return a;
}

static inline void link_open(struct link *l, int socket, bool is_connected, uint32_t local, uint32_t remote) {
    l->socket = socket;
    l->is_connected = is_connected;
    l->opened = now();
    expect("open", udx_end_open(&l->end, local, remote, MOST_SEGMENTS, l->opened));
}

/* Whether a packet is not acknowledged yet, so that the deadline counts. */
static inline bool link_waits(const struct link *l) { return l->end.stream.sender.remote_acked != l->end.stream.sender.seq; }

static inline bool link_heard_end(const struct link *l) {
    return l->end.stream.ending.state == UDX_REMOTE_CLOSED || l->end.stream.ending.state == UDX_BOTH_CLOSED;
}

/* Notes an accepted datagram: answers go to where it came from. */
static inline void link_note(struct link *l, const struct sockaddr_in *from, uint64_t clock) {
    if (!l->has_peer)
        l->first = clock;
    l->has_peer = true;
    l->peer = *from;
    l->heard = clock;
}

/* Delivers the pending datagrams. A refused one is dropped: if it was the stream's, it will be resent. */
static inline void link_receive(struct link *l) {
    uint8_t datagram[2048];
    struct sockaddr_in from;
    for (int i = 0; i < MOST_RECEIVED; i++) {
        ssize_t length = receive_datagram(l->socket, &from, datagram, sizeof datagram);
        if (length < 0)
            return;
        uint64_t clock = now();
        udx_answer a = udx_end_deliver(&l->end, datagram, (size_t)length, clock);
        l->received++;
        if (a.outcome == UDX_REFUSED)
            l->refused[a.refusal]++;
        else
            link_note(l, &from, clock);
    }
}

static inline void link_count_sent(struct link *l, const uint8_t *datagram, size_t length) {
    udx_header header = udx_decode(datagram, length).header;
    if (!(header.typ & TYPE_DATA))
        l->states++;
    else if (header.seq == l->first_sent) /* packets are numbered from 0, and first sent in that order */
        l->first_sent++;
    else
        l->resent++;
}

/*
 * Sends the datagrams of a batch: pieces of segment bytes, or one if segment is 0. Linux could take the whole batch in one sendmsg with
 * UDP_SEGMENT (UDP GSO), segment being its size; not used here, so that the loop is the same on every system.
 */
static inline void link_send(struct link *l, const uint8_t *batch, udx_answer a) {
    size_t step = a.segment ? a.segment : a.count;
    for (size_t i = 0; i < a.count; i += step) {
        link_count_sent(l, batch + i, step);
        if (!send_datagram(l->socket, l->is_connected ? NULL : &l->peer, batch + i, step))
            l->unsent++;
    }
}

/* Drives and sends what is to be sent now. UDX_DONE: the stream has ended; the reason is in end.stream.ending.error. */
static inline uint8_t link_drive(struct link *l) {
    static uint8_t batch[UDX_TAKE_ROOM];
    uint64_t clock = now(), deadline = l->end.stream.timing.deadline;
    udx_answer driven = expect("drive", udx_end_drive(&l->end, clock));
    const udx_timing *timing = &l->end.stream.timing;
    /* only a due timer puts the deadline two rto ahead; a settled ack puts it one ahead */
    if (timing->deadline != deadline && timing->deadline == clock + 2 * timing->rto)
        l->timeouts++;
    for (;;) {
        udx_answer taken = expect("take", udx_end_take(&l->end, batch, sizeof batch));
        if (taken.outcome != UDX_OK)
            return driven.outcome;
        link_send(l, batch, taken);
    }
}

/* Waits for a datagram, for the engine's deadline or until the instant at which the program itself has something to do. */
static inline void link_wait(struct link *l, uint64_t until) {
    struct pollfd socket = {.fd = l->socket, .events = POLLIN};
    if (link_waits(l) && l->end.stream.timing.deadline < until)
        until = l->end.stream.timing.deadline;
    wait_for_datagram(&socket, 1, until);
}

/* Ends the stream early: the other side gets an END, if that one datagram arrives. */
static inline void link_abort(struct link *l) {
    if (l->end.stream.ending.ended || (!l->is_connected && !l->has_peer))
        return;
    expect("close", udx_end_close(&l->end));
    link_drive(l);
}

static inline void link_summary(const struct link *l) {
    const udx_stream *s = &l->end.stream;
    uint64_t refused = 0;
    for (int i = 1; i <= LAST_REFUSAL; i++)
        refused += l->refused[i];
    printf("%s: %" PRIu64 " packets first sent, %" PRIu64 " resent, %" PRIu64 " state packets, %" PRIu64 " due timeouts\n", program_name,
           l->first_sent, l->resent, l->states, l->timeouts);
    printf("%s: %" PRIu64 " datagrams received, %" PRIu64 " refused", program_name, l->received, refused);
    for (int i = 1; i <= LAST_REFUSAL; i++)
        if (l->refused[i])
            printf(", %" PRIu64 " with %d", l->refused[i], i);
    printf("; %" PRIu64 " not taken by the kernel\n", l->unsent);
    printf("%s: window %" PRIu32 " bytes, srtt %.1f ms, rto %.1f ms\n", program_name, s->sender.cwnd, (double)s->timing.srtt / 1e6,
           (double)s->timing.rto / 1e6);
    flush_output();
}

#endif
