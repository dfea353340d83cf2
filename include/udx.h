/*
 * udx.h: one stream of ordered bytes over datagrams, with retransmission, a congestion window and a round-trip estimate.
 *
 * The engine owns no memory, socket, clock or thread: bytes and instants go in, bytes and a deadline come out. Every function is proved to
 * return for every number and every length, with the results described below. Link target/staticlib/libudx_c.a (x86-64, System V calls).
 *
 * THE SHORT WAY. A udx_end has everything that one end of a stream needs, about 92 KB; keep it in static or heap memory. The udx_end_
 * functions at the end of this file work on it:
 *
 *     #include "udx.h"
 *
 *     static udx_end e;                       // one end of the stream
 *     static uint8_t batch[UDX_TAKE_ROOM];    // what a take fills
 *
 *     int main(void) {
 *         udx_end_open(&e, 1, 2, 10, 0);                         // our id, theirs, 10 datagrams a batch, the clock
 *         udx_end_write(&e, (const uint8_t *)"AAA", 3);          // .outcome == UDX_OK, .count == 3
 *         udx_end_drive(&e, 5);                                  // decides what goes out now
 *         udx_answer a = udx_end_take(&e, batch, sizeof batch);  // .count == 23: a header and three bytes, ready to be sent
 *         return a.count == 23 && udx_end_take(&e, batch, sizeof batch).outcome == UDX_NONE ? 0 : 1;
 *     }
 *
 * THE ROUND OF A CALLER. Repeat:
 *   1. deliver each datagram that has arrived; read until a read puts nothing; write what is to be sent; close if it is time to (below).
 *   2. drive with the clock. UDX_DONE: the stream has ended and needs no further call.
 *   3. take until UDX_NONE, and send each batch. Until then write, deliver, drive and close are refused with 6. When stream.queue.left is
 *      0 the next take returns UDX_NONE, so that call can be skipped.
 *   4. write again what is still pending, and close if it is time to; if any bytes were accepted or the stream was closed, go back to 2.
 *      Acknowledgements are settled in the drive, so that is where room comes from: a caller that waits without another try may wait
 *      forever.
 *   5. wait for a datagram, for bytes to write, or, while stream.sender.remote_acked differs from stream.sender.seq, until the clock
 *      reaches stream.timing.deadline: a drive at or past it resends unacknowledged packets, and eventually ends the stream with
 *      UDX_TIMED_OUT.
 *
 * THE END OF A STREAM. A close ends both directions: what is not acknowledged by then, at either end, may be lost. So close once everything
 * is written, remote_acked equals seq, and nothing more is wanted from the other end. The other end learns of it from an END, which the
 * line may lose and no timer resends.
 *   - Once stream.ending.error is set, by a close or by the other end's END, remote_acked equals seq and stream.queue.count is 0, the next
 *     drive is the last: it returns UDX_DONE, and what arrives later is refused. An end that need not be sure of the other makes that
 *     drive at once. An end that has closed and wants to be sure holds it back until the other end's END arrives (stream.ending.state is
 *     then UDX_BOTH_CLOSED), closes again after a while without one, and eventually gives up. An end that has received an END holds it
 *     back until no datagram has arrived for a while: a repeated END needs another answer. bindings/rust/tests/round.rs does exactly this.
 *   - After UDX_TIMED_OUT: take and send what is left, then stop. The packets stay stored, so UDX_DONE comes only if the other end still
 *     acknowledges them.
 *   - What has arrived in order can still be read after the end, even after UDX_DONE.
 *
 * CLOCKS are nanoseconds from any start, below 2^60, and never run backwards from call to call.
 *
 * MEMORY. All of it is the caller's. Between calls leave the words and the stores untouched (but a fresh stream may be opened over them,
 * whatever they hold). Pointers must not be NULL, even where a length is 0, and no two of a call's arrays, stores and buffers may overlap.
 * No call keeps a pointer. Calls on different streams may run in different threads; calls on one stream may not run at the same time.
 */
#ifndef UDX_H
#define UDX_H

#include <stddef.h>
#include <stdint.h>

#ifdef __cplusplus
extern "C" {
#endif

/* Sizes: the lent words (uint64_t) and stores (bytes), and the room that a take needs. */
enum {
    UDX_SENT_WORDS = 64,
    UDX_HELD_WORDS = 32,
    UDX_QUEUE_WORDS = 128,
    UDX_OUTGOING_STORE = 44800, /* 32 packets of 1,400 bytes */
    UDX_INCOMING_STORE = 44160, /* 32 payloads of 1,380 bytes */
    UDX_HEADER_STORE = 1280,    /* 64 headers of 20 bytes */
    UDX_TAKE_ROOM = 14000,      /* 10 datagrams of 1,400 bytes */
    UDX_HEADER_SIZE = 20,
    UDX_MAX_PAYLOAD = 1380,
    UDX_MAX_DATAGRAM = 1400
};

/* How a call ended: .outcome. */
enum {
    UDX_OK = 0,     /* done, with .count bytes accepted, taken or put */
    UDX_WAIT = 1,   /* write: no room now. read: no packet was finished, and there is no error (.count bytes were put even so) */
    UDX_DONE = 2,   /* drive: the stream has ended: it has an error, and nothing is queued or stored */
    UDX_NONE = 3,   /* take: no batch of the last drive is left */
    UDX_REFUSED = 4 /* .refusal says why; nothing has changed, except that a read with 14 to 16 keeps the .count bytes it put */
};

/* Why a call is refused: .refusal, 0 if it is not. Checked in this order. Each comment names the calls that it can refuse. */
enum {
    UDX_REFUSED_BROKEN_RECORDS = 1,    /* all but look, encode and decode: a store of the wrong length, or a broken rule of the records */
    UDX_REFUSED_SHORT_BUFFER = 2,      /* encode with under 20 bytes, take with under 14,000 */
    UDX_REFUSED_SEGMENT_CEILING = 3,   /* open: outside 1 to 10 */
    UDX_REFUSED_BAD_CLOCK = 4,         /* open, deliver, drive: 2^60 or more, or below that of the last accepted call with one */
    UDX_REFUSED_AFTER_DONE = 5,        /* deliver, drive, close: a drive has answered UDX_DONE */
    UDX_REFUSED_BATCHES_LEFT = 6,      /* write, deliver, drive, close: take until UDX_NONE first */
    UDX_REFUSED_BAD_HEADER = 7,        /* deliver, decode: under 20 bytes, or the first two are not 255, 1 */
    UDX_REFUSED_OTHER_STREAM = 8,      /* deliver: the stream id is not the local one */
    UDX_REFUSED_LONG_PAYLOAD = 9,      /* deliver: over 1,380 bytes */
    UDX_REFUSED_ACK_PAST_SEQ = 10,     /* deliver: acknowledges what was never sent */
    UDX_REFUSED_SEQ_END = 11,          /* deliver: DATA numbered 4,294,967,295, which no packet has */
    UDX_REFUSED_PAST_INCOMING = 12,    /* deliver: DATA 32 or more past what was read; the sender's timer resends it, 3 times at most */
    UDX_REFUSED_STATE_QUEUE_FULL = 13, /* deliver, close: drive and take first */
    /* 14 to 16 say only that the stream has that error: the read may have put bytes, and more may be left in order (udx_read) */
    UDX_REFUSED_RESET = 14,            /* write, read: this side was closed */
    UDX_REFUSED_EOF = 15,              /* write, read: the other side was closed */
    UDX_REFUSED_TIMED_OUT = 16,        /* write, read: a packet was sent too often without an acknowledgement */
    UDX_REFUSED_SEQ_EXHAUSTED = 17     /* write: no packet number is left */
};

/* Why a stream ended: stream.ending.error. */
enum { UDX_NO_ERROR = 0, UDX_CONNECTION_RESET = 1, UDX_UNEXPECTED_EOF = 2, UDX_TIMED_OUT = 3 };

/* Which sides are closed: stream.ending.state. */
enum { UDX_BOTH_OPEN = 0, UDX_LOCAL_CLOSED = 1, UDX_REMOTE_CLOSED = 2, UDX_BOTH_CLOSED = 3 };

/*
 * A stream's numbers. Pass each call those that the last one returned; read them freely. If they were changed, the next call is refused
 * with 1 wherever the change breaks a rule of the records or leaves an invalid byte in ending; it never does anything undefined.
 */
typedef struct udx_ids {
    uint32_t local, remote;
    uint8_t segments; /* most datagrams in a batch, 1 to 10 */
} udx_ids;

typedef struct udx_sender {
    uint32_t seq;          /* number of the next packet */
    uint32_t remote_acked; /* all packets below it are acknowledged; equal to seq when all are */
    uint32_t largest_ack;  /* largest ack delivered since the last drive */
    uint32_t inflight;     /* bytes in flight */
    uint32_t cwnd;         /* congestion window in bytes */
} udx_sender;

typedef struct udx_receiver {
    uint32_t ack;         /* every number below it has been delivered */
    uint32_t read_cursor; /* number of the packet that the next read starts with */
    uint32_t top;         /* held numbers are below it */
} udx_receiver;

typedef struct udx_queue {
    uint32_t count, left;  /* entries queued; of these, left to take */
    uint32_t states, gone; /* state packets queued, and taken, since the queue was empty */
} udx_queue;

typedef struct udx_timing {
    uint64_t srtt, rttvar, rto; /* RFC 6298, nanoseconds; srtt is 0 until the first sample */
    uint64_t deadline;          /* when the retransmission timer is due */
} udx_timing;

typedef struct udx_clocks {
    uint64_t last, drive; /* of the last accepted call with a clock; of the last drive */
} udx_clocks;

typedef struct udx_ending {
    uint8_t error; /* UDX_NO_ERROR .. UDX_TIMED_OUT */
    uint8_t state; /* UDX_BOTH_OPEN .. UDX_BOTH_CLOSED */
    uint8_t ended; /* 1 once a drive has answered UDX_DONE */
} udx_ending;

typedef struct udx_stream {
    udx_ids ids;
    udx_sender sender;
    udx_receiver receiver;
    udx_queue queue;
    udx_timing timing;
    udx_clocks clocks;
    udx_ending ending;
} udx_stream;

/* Totals since open; the first four wrap at 2^64, the last two count what is stored now. */
typedef struct udx_totals {
    uint64_t tx_packets, tx_bytes;
    uint64_t rx_packets, rx_bytes;
    uint64_t inflight_packets, inflight_bytes;
} udx_totals;

/* What a call returns. Stream and totals replace those it was given, even if it is refused: they are then the same. */
typedef struct udx_step {
    udx_stream stream;
    udx_totals totals;
    size_t count;    /* bytes accepted, taken or put */
    size_t segment;  /* take: the length of each datagram in the batch, or 0: the batch is one datagram */
    uint8_t outcome; /* UDX_OK .. UDX_REFUSED */
    uint8_t refusal; /* 0, or the refusal's number */
} udx_step;

/* A part of a lent store: of the header store if header is 1, else of the outgoing store. */
typedef struct udx_part {
    size_t start, length;
    uint8_t header;
} udx_part;

/* The 20 bytes in front of every payload. Type bits: 1 DATA, 2 END, 4 SACK. */
typedef struct udx_header {
    uint32_t stream_id, recv_win, seq, ack;
    uint8_t typ, data_offset;
} udx_header;

typedef struct udx_decoded {
    udx_header header; /* all 0 if refused */
    uint8_t outcome, refusal;
} udx_decoded;

/*
 * THE CALLS. sent, held and queue are arrays of 64, 32 and 128 words; outgoing, incoming and headers are the stores with their lengths,
 * which must be UDX_OUTGOING_STORE, UDX_INCOMING_STORE and UDX_HEADER_STORE. Every buffer is a pointer and a length in bytes.
 */

/* Opens a stream. A refused open returns a stream that every call refuses with 1. Refusals 1, 3, 4. */
udx_step udx_open(uint32_t local, uint32_t remote, uint8_t segments, uint64_t clock, const uint8_t *outgoing, size_t outgoing_length,
                  const uint8_t *incoming, size_t incoming_length, const uint8_t *headers, size_t headers_length);

/* Accepts the first count of the bytes: as many as the window and 32 packets allow. Refusals 1, 6, 14 to 17. */
udx_step udx_write(udx_stream stream, udx_totals totals, uint64_t *sent, const uint64_t *held, uint64_t *queue, uint8_t *outgoing,
                   size_t outgoing_length, const uint8_t *incoming, size_t incoming_length, const uint8_t *headers, size_t headers_length,
                   const uint8_t *bytes, size_t length);

/* Handles one incoming datagram. Refusals 1, 4 to 13; a refused datagram may be dropped. */
udx_step udx_deliver(udx_stream stream, udx_totals totals, uint64_t *sent, uint64_t *held, uint64_t *queue, const uint8_t *outgoing,
                     size_t outgoing_length, uint8_t *incoming, size_t incoming_length, uint8_t *headers, size_t headers_length,
                     const uint8_t *datagram, size_t length, uint64_t clock);

/* Settles what was acknowledged, checks the timer, and makes ready to take what is to be sent now. Refusals 1, 4, 5, 6. */
udx_step udx_drive(udx_stream stream, udx_totals totals, uint64_t *sent, const uint64_t *held, uint64_t *queue, const uint8_t *outgoing,
                   size_t outgoing_length, const uint8_t *incoming, size_t incoming_length, uint8_t *headers, size_t headers_length,
                   uint64_t clock);

/*
 * Puts the next batch at the front of buf: count bytes, datagrams of segment bytes each, or one if segment is 0. A batch may be empty
 * (UDX_OK, count 0): take again. buf is unchanged past count. Refusals 1, 2.
 */
udx_step udx_take(udx_stream stream, udx_totals totals, uint64_t *sent, const uint64_t *held, const uint64_t *queue, const uint8_t *outgoing,
                  size_t outgoing_length, const uint8_t *incoming, size_t incoming_length, const uint8_t *headers, size_t headers_length,
                  uint8_t *buf, size_t length);

/*
 * Where the next datagram to be taken is, without taking it: length 0 if none is left, and in place of refusal 1. Empty batches may still
 * be left then: take until UDX_NONE regardless.
 */
udx_part udx_look(udx_stream stream, udx_totals totals, const uint64_t *sent, const uint64_t *held, const uint64_t *queue,
                  const uint8_t *outgoing, size_t outgoing_length, const uint8_t *incoming, size_t incoming_length, const uint8_t *headers,
                  size_t headers_length);

/*
 * Puts count bytes, in order, at the front of buf. A packet longer than what remains of buf gives its front part and ends the read. UDX_OK
 * if a packet was finished, else the stream's error (14 to 16), else UDX_WAIT: in each case count bytes were put, and more may be left in
 * order. So read again while count is not 0: 5 bytes read 2 at a time give UDX_WAIT 2, UDX_WAIT 2, UDX_OK 1, and after an END 15 2, 15 2,
 * UDX_OK 1. A read that puts nothing into a buf that is not empty has found nothing more. buf is unchanged past count. Refusals 1, 14
 * to 16.
 */
udx_step udx_read(udx_stream stream, udx_totals totals, const uint64_t *sent, uint64_t *held, const uint64_t *queue, const uint8_t *outgoing,
                  size_t outgoing_length, const uint8_t *incoming, size_t incoming_length, const uint8_t *headers, size_t headers_length,
                  uint8_t *buf, size_t length);

/*
 * Ends the stream in both directions at once; the next drive has a state packet for the other end. That packet is not resent if the line
 * loses it: another close queues another one. What is not acknowledged yet may be lost (THE END OF A STREAM, above). Refusals 1, 5, 6, 13.
 */
udx_step udx_close(udx_stream stream, udx_totals totals, const uint64_t *sent, const uint64_t *held, uint64_t *queue,
                   const uint8_t *outgoing, size_t outgoing_length, const uint8_t *incoming, size_t incoming_length, uint8_t *headers,
                   size_t headers_length);

/* Puts a header's 20 bytes at the front of buf. Returns 0, or 2, the refusal, with buf unchanged. */
uint8_t udx_encode(udx_header header, uint8_t *buf, size_t length);

/* The header at the front of a datagram, or refusal 7. */
udx_decoded udx_decode(const uint8_t *datagram, size_t length);

/*
 * THE LAYOUT, as the archive reads and writes it, for testing bindings in other languages: the fields of a stream, or of the totals behind
 * it, in order, as the archive received them; and a step whose fields are 1, 2, 3 and so on to 34.
 */
typedef struct udx_numbers {
    uint64_t n[24];
} udx_numbers;

udx_numbers udx_layout_stream(udx_stream stream);
udx_numbers udx_layout_totals(udx_stream stream, udx_totals totals);
udx_step udx_layout_step(void);

/* THE SHORT WAY: one end with all that it lends, and the calls on it. A pointer to bytes may be NULL here, and then means no bytes. */
typedef struct udx_end {
    udx_stream stream;
    udx_totals totals;
    uint64_t sent[UDX_SENT_WORDS], held[UDX_HELD_WORDS], queue[UDX_QUEUE_WORDS];
    uint8_t outgoing[UDX_OUTGOING_STORE], incoming[UDX_INCOMING_STORE], headers[UDX_HEADER_STORE];
} udx_end;

typedef struct udx_answer {
    size_t count, segment;
    uint8_t outcome, refusal;
} udx_answer;

static inline udx_answer udx_end_after(udx_end *e, udx_step r) {
    udx_answer a;
    e->stream = r.stream;
    e->totals = r.totals;
    a.count = r.count;
    a.segment = r.segment;
    a.outcome = r.outcome;
    a.refusal = r.refusal;
    return a;
}

static inline udx_answer udx_end_open(udx_end *e, uint32_t local, uint32_t remote, uint8_t segments, uint64_t clock) {
    return udx_end_after(e, udx_open(local, remote, segments, clock, e->outgoing, sizeof e->outgoing, e->incoming, sizeof e->incoming,
                                     e->headers, sizeof e->headers));
}

static inline udx_answer udx_end_write(udx_end *e, const uint8_t *bytes, size_t length) {
    static const uint8_t none[1] = {0};
    return udx_end_after(e, udx_write(e->stream, e->totals, e->sent, e->held, e->queue, e->outgoing, sizeof e->outgoing, e->incoming,
                                      sizeof e->incoming, e->headers, sizeof e->headers, bytes ? bytes : none, bytes ? length : 0));
}

static inline udx_answer udx_end_deliver(udx_end *e, const uint8_t *datagram, size_t length, uint64_t clock) {
    static const uint8_t none[1] = {0};
    return udx_end_after(e, udx_deliver(e->stream, e->totals, e->sent, e->held, e->queue, e->outgoing, sizeof e->outgoing, e->incoming,
                                        sizeof e->incoming, e->headers, sizeof e->headers, datagram ? datagram : none, datagram ? length : 0,
                                        clock));
}

static inline udx_answer udx_end_drive(udx_end *e, uint64_t clock) {
    return udx_end_after(e, udx_drive(e->stream, e->totals, e->sent, e->held, e->queue, e->outgoing, sizeof e->outgoing, e->incoming,
                                      sizeof e->incoming, e->headers, sizeof e->headers, clock));
}

static inline udx_answer udx_end_take(udx_end *e, uint8_t *buf, size_t length) {
    uint8_t none[1];
    return udx_end_after(e, udx_take(e->stream, e->totals, e->sent, e->held, e->queue, e->outgoing, sizeof e->outgoing, e->incoming,
                                     sizeof e->incoming, e->headers, sizeof e->headers, buf ? buf : none, buf ? length : 0));
}

/* The next datagram's bytes, in the end's own memory: unchanged until its next call. The length is 0 if no datagram is left to take. */
static inline const uint8_t *udx_end_look(const udx_end *e, size_t *length) {
    udx_part p = udx_look(e->stream, e->totals, e->sent, e->held, e->queue, e->outgoing, sizeof e->outgoing, e->incoming, sizeof e->incoming,
                          e->headers, sizeof e->headers);
    *length = p.length;
    return (p.header ? e->headers : e->outgoing) + p.start;
}

static inline udx_answer udx_end_read(udx_end *e, uint8_t *buf, size_t length) {
    uint8_t none[1];
    return udx_end_after(e, udx_read(e->stream, e->totals, e->sent, e->held, e->queue, e->outgoing, sizeof e->outgoing, e->incoming,
                                     sizeof e->incoming, e->headers, sizeof e->headers, buf ? buf : none, buf ? length : 0));
}

static inline udx_answer udx_end_close(udx_end *e) {
    return udx_end_after(e, udx_close(e->stream, e->totals, e->sent, e->held, e->queue, e->outgoing, sizeof e->outgoing, e->incoming,
                                      sizeof e->incoming, e->headers, sizeof e->headers));
}

#ifdef __cplusplus
}
#endif

#endif
