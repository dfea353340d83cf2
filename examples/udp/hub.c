/*
 * The hub: sends samples, or a file, over UDP to the gateway.
 *
 * How a transfer ends. The hub closes only when everything it wrote is acknowledged, so the close can lose nothing. The END that a close
 * sends is not a packet: the engine does not resend it. So the hub closes again, which queues another END, until the gateway's own END
 * arrives, or gives up after END_TRIES: the bytes have arrived in any case, and the gateway ends by itself once the line is quiet.
 */
#include "common.h"

#include "../c/samples.h"
#include "link.h"
#include <sys/stat.h>

enum { END_TRIES = 10 };
#define END_PAUSE (300 * MILLISECOND)

enum { PENDING_ROOM = 32 * UDX_MAX_PAYLOAD }; /* as much as the engine stores: a write fills it in one call */

static const char about[] =
    "hub: sends samples of 30 bytes, or a file, to the gateway over UDP on 127.0.0.1.\n"
    "\n"
    "  hub --to PORT [--samples N | --file PATH] [--rate PER_SECOND]\n"
    "\n"
    "Ends with status 0 when every byte is acknowledged, with 1 when the stream failed. A packet that is sent four\n"
    "times without an answer ends the stream (TimedOut): what was acknowledged has arrived, and a program that wants\n"
    "to go on opens a new stream, with new ids on both sides, at the first byte that the gateway has not read.\n"
    "\n";

/* What is sent: the bytes of a file, or of samples, which are generated when they are due. */
struct source {
    FILE *file; /* NULL: samples */
    const char *path;
    uint64_t size, loaded;         /* bytes in all, and of them put into pending so far */
    uint64_t rate, started;        /* samples a second, or 0: all at once */
    uint8_t pending[PENDING_ROOM]; /* loaded and not accepted yet */
    size_t count;                  /* bytes of pending */
};

static void open_file(struct source *s, const char *path) {
    struct stat status;
    s->path = path;
    s->file = fopen(path, "rb");
    if (!s->file || fstat(fileno(s->file), &status) < 0)
        die(STATUS_FAILED, "%s: %s", path, strerror(errno));
    if (!S_ISREG(status.st_mode))
        die(STATUS_FAILED, "%s: not a regular file", path);
    s->size = (uint64_t)status.st_size;
}

static void load_file(struct source *s) {
    size_t room = sizeof s->pending - s->count;
    if (room > s->size - s->loaded)
        room = (size_t)(s->size - s->loaded);
    if (fread(s->pending + s->count, 1, room, s->file) != room)
        die(STATUS_FAILED, "%s: %s", s->path, ferror(s->file) ? strerror(errno) : "became shorter while it was sent");
    s->count += room;
    s->loaded += room;
}

/* The instant at which the next sample is to be sent. */
static uint64_t next_sample(const struct source *s) {
    return s->rate ? s->started + s->loaded / SAMPLE_SIZE * SECOND / s->rate : 0;
}

static void load_samples(struct source *s) {
    uint64_t clock = now();
    while (s->loaded < s->size && sizeof s->pending - s->count >= SAMPLE_SIZE && next_sample(s) <= clock) {
        sample_make(s->loaded / SAMPLE_SIZE, s->pending + s->count);
        s->count += SAMPLE_SIZE;
        s->loaded += SAMPLE_SIZE;
    }
}

/* When there is more to write without an event: only paced samples, and only while there is room for them. */
static uint64_t next_load(const struct source *s) {
    bool is_paced = s->rate && s->loaded < s->size && sizeof s->pending - s->count >= SAMPLE_SIZE;
    return is_paced ? next_sample(s) : NEVER;
}

/* Writes as much as the window takes; the rest stays pending for the next round. */
static udx_answer write_pending(struct link *l, struct source *s) {
    if (s->file)
        load_file(s);
    else
        load_samples(s);
    udx_answer a = udx_end_write(&l->end, s->pending, s->count);
    s->count -= a.count;
    memmove(s->pending, s->pending + a.count, s->count);
    return a;
}

/* The first write of a fresh stream always fits the window. */
static void announce(struct link *l, uint64_t size) {
    uint8_t bytes[ANNOUNCEMENT];
    sample_put(bytes, size, sizeof bytes);
    expect("write", udx_end_write(&l->end, bytes, sizeof bytes));
}

/* Bytes of the source that the gateway has acknowledged: all written ones but those still stored. */
static uint64_t acked_bytes(const struct link *l, const struct source *s) {
    uint64_t written = ANNOUNCEMENT + s->loaded - s->count, acked = written - l->end.totals.inflight_bytes;
    return acked > ANNOUNCEMENT ? acked - ANNOUNCEMENT : 0;
}

static void report_progress(const struct link *l, const struct source *s) {
    char text[200];
    uint64_t acked = acked_bytes(l, s);
    if (!progress_is_due())
        return;
    unsigned percent = s->size ? (unsigned)(100.0 * (double)acked / (double)s->size) : 100;
    snprintf(text, sizeof text, "%" PRIu64 " of %" PRIu64 " bytes acknowledged (%u %%), window %" PRIu32 ", %" PRIu64 " resent, %.1f s",
             acked, s->size, percent, l->end.stream.sender.cwnd, l->resent, seconds_since(l->opened));
    show_progress(text);
}

/*
 * The round of a sender, until every byte is acknowledged. False: the stream ended before that.
 * A delivered ack makes room for a write only once a drive has settled it. So there is a drive before the write as well: without it the hub
 * would write nothing, settle the last ack, and then wait with bytes pending for a datagram that never comes.
 */
static bool send_all(struct link *l, struct source *s) {
    announce(l, s->size);
    s->started = now();
    while (!stop_asked) {
        link_drive(l);
        if (write_pending(l, s).outcome == UDX_REFUSED)
            return false;
        link_drive(l);
        if (s->loaded == s->size && s->count == 0 && !link_waits(l))
            return true;
        report_progress(l, s);
        link_wait(l, next_load(s));
        link_receive(l);
    }
    return false;
}

/* Sends END until the gateway has answered it, then drives until done: the top of this file says why. */
static void close_stream(struct link *l) {
    for (int i = 0; i < END_TRIES && !link_heard_end(l) && !stop_asked; i++) {
        uint64_t until = now() + END_PAUSE;
        expect("close", udx_end_close(&l->end));
        link_drive(l);
        while (now() < until && !link_heard_end(l) && !stop_asked) {
            link_wait(l, until);
            link_receive(l);
        }
    }
    while (l->end.stream.ending.error != UDX_NO_ERROR && link_drive(l) != UDX_DONE)
        ; /* at most once: the answer to the gateway's END. Interrupted before a close, nothing ends here */
}

static const char *failure(const struct link *l) {
    switch (l->end.stream.ending.error) {
    case UDX_TIMED_OUT:
        return "the stream has timed out, the rest needs a new one";
    case UDX_UNEXPECTED_EOF:
        return "the gateway has closed the stream";
    default:
        return stop_asked ? "interrupted" : "no packet number is left";
    }
}

int main(int argc, char **argv) {
    static struct link l;
    static struct source s;
    uint64_t port = 0, samples = 0;
    const char *path = NULL;
    const struct option options[] = {
        {"to", "PORT", "the gateway's port, or that of the relay before it", WHOLE, &port, 1, 65535},
        {"samples", "N", "how many samples to send (18000)", WHOLE, &samples, 1, 10000000},
        {"file", "PATH", "send this file in place of samples", TEXT, &path, 0, 0},
        {"rate", "PER_SECOND", "pace the samples (as fast as the window lets)", WHOLE, &s.rate, 1, 1000000},
    };
    start_program("hub");
    parse_options(argc, argv, about, options, sizeof options / sizeof options[0]);
    if (port == 0)
        die(STATUS_USAGE, "--to PORT is missing");
    if (path && (samples || s.rate))
        die(STATUS_USAGE, "--samples and --rate are for samples, not for a file");
    if (path)
        open_file(&s, path);
    else
        s.size = (samples ? samples : 18000) * SAMPLE_SIZE;

    link_open(&l, connect_to(port), true, HUB_ID, GATEWAY_ID);
    bool is_sent = send_all(&l, &s);
    double seconds = seconds_since(l.opened);
    end_progress();
    if (is_sent) {
        close_stream(&l);
    } else {
        complain("%s: %" PRIu64 " of %" PRIu64 " bytes acknowledged", failure(&l), acked_bytes(&l, &s), s.size);
        link_abort(&l);
    }
    printf("hub: %" PRIu64 " of %" PRIu64 " bytes acknowledged in %.1f s\n", acked_bytes(&l, &s), s.size, seconds);
    link_summary(&l);
    return is_sent ? 0 : STATUS_FAILED;
}
