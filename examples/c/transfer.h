/* What a run knows: two sides, the line between them, and the simulated clock. */
#ifndef TRANSFER_H
#define TRANSFER_H

#include "line.h"
#include "log.h"
#include "options.h"
#include "source.h"
#include "udx.h"

enum {
    HUB = 0,
    GATEWAY = 1,
    FULL_STREAM = 32 * UDX_MAX_PAYLOAD, /* most that a stream accepts before something is acknowledged, and most that a read puts */
    OUTBOX_ROOM = 6 * FULL_STREAM
};

static const char *const side_names[2] = {"hub", "gateway"};

/* Bytes that are ready to be written: a write accepts their front, the others wait here. */
struct outbox {
    uint8_t bytes[OUTBOX_ROOM];
    size_t start, end; /* those that wait */
    uint64_t next;     /* offset in the source of the byte after the last one here */
};

struct counts {
    uint64_t bytes_again;          /* written again, on a fresh stream */
    uint64_t data, resent, states; /* packets taken */
    uint64_t lost, repeated, held; /* by the line, of what this side sent */
    uint64_t delivered;            /* to this side */
    uint64_t refused[18];          /* of them, by the refusal's number */
    uint64_t timeouts;             /* drives that found the timer due */
};

struct side {
    udx_end end;
    int woken; /* something has happened since its last drive */
    struct source source;
    struct outbox outbox;
    uint32_t next_data;  /* number of the next data packet that is sent for the first time */
    uint64_t sent, read; /* bytes of its own source accepted at least once; of the other side's source read */
    struct checksum of_sent, of_read;
    int wrong;         /* a byte read was not the byte sent: */
    uint64_t wrong_at; /* the first such offset */
    struct counts counts;
};

struct transfer {
    struct side side[2];
    struct line line;
    struct event_log log;
    uint64_t clock;        /* simulated, nanoseconds */
    uint64_t datagrams;    /* taken so far: the next one's number in the log */
    uint64_t streams;      /* opened so far */
    uint64_t read_at_open; /* bytes read when the stream was opened */
    uint64_t idle_streams; /* consecutive streams that brought none */
    int done;              /* both ends were closed and driven until they were done */
    uint8_t batch[UDX_TAKE_ROOM], got[FULL_STREAM], expected[FULL_STREAM];
};

static uint64_t bytes_in_all(const struct transfer *t) {
    return t->side[HUB].source.length + t->side[GATEWAY].source.length;
}

static uint64_t bytes_read(const struct transfer *t) {
    return t->side[HUB].read + t->side[GATEWAY].read;
}

#endif
