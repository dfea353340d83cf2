/*
 * The log of a run: one event per line, times in nanoseconds on the simulated clock.
 *
 *     TIME sent END ID KIND NUMBER BYTES     datagram ID was taken from END; KIND data with its seq, or state with its ack
 *     TIME lost END ID                       the line lost it
 *     TIME came END ID                       it is delivered to END
 *     TIME refused END ID REFUSAL            it arrived and was refused with this number
 *     TIME numbers END WINDOW INFLIGHT RTO   after a drive that changed one of them
 *     TIME timeout END                       a drive found the timer due
 *     TIME failed END                        the stream ended with TimedOut; the next one starts fresh at both ends
 */
#ifndef LOG_H
#define LOG_H

#include "fail.h"
#include "udx.h"
#include <inttypes.h>
#include <sys/stat.h>

struct numbers {
    uint32_t window, inflight;
    uint64_t rto;
};

struct event_log {
    FILE *file; /* NULL: no log is kept */
    const char *path;
    struct numbers last[2]; /* of each end, as last written */
};

/* Ends the program if the previous line was not written. */
static void log_written(const struct event_log *l, int holds) {
    if (!holds)
        die(FAILED, "%s: %s", l->path, strerror(errno));
}

/* A log written over the file being sent would destroy it. */
static int same_file(const char *path, const char *other) {
    struct stat a, b;
    return stat(path, &a) == 0 && stat(other, &b) == 0 && a.st_dev == b.st_dev && a.st_ino == b.st_ino;
}

/* With a NULL path no log is kept. */
static void log_open(struct event_log *l, const char *path, const char *source) {
    l->path = path;
    if (!path)
        return;
    if (source && same_file(path, source))
        die(FAILED, "%s: is the file that is sent", path);
    l->file = fopen(path, "w");
    log_written(l, l->file && fputs("udx-log 1\n", l->file) >= 0);
}

static void log_close(struct event_log *l) {
    if (l->file)
        log_written(l, fclose(l->file) == 0);
    l->file = NULL;
}

static void log_sent(const struct event_log *l, uint64_t time, int end, uint64_t id, int is_data, uint32_t number, size_t bytes) {
    if (l->file)
        log_written(l, fprintf(l->file, "%" PRIu64 " sent %d %" PRIu64 " %s %" PRIu32 " %zu\n", time, end, id, is_data ? "data" : "state",
                               number, bytes) > 0);
}

/* lost and came. */
static void log_datagram(const struct event_log *l, uint64_t time, const char *what, int end, uint64_t id) {
    if (l->file)
        log_written(l, fprintf(l->file, "%" PRIu64 " %s %d %" PRIu64 "\n", time, what, end, id) > 0);
}

static void log_refused(const struct event_log *l, uint64_t time, int end, uint64_t id, int refusal) {
    if (l->file)
        log_written(l, fprintf(l->file, "%" PRIu64 " refused %d %" PRIu64 " %d\n", time, end, id, refusal) > 0);
}

/* timeout and failed. */
static void log_end(const struct event_log *l, uint64_t time, const char *what, int end) {
    if (l->file)
        log_written(l, fprintf(l->file, "%" PRIu64 " %s %d\n", time, what, end) > 0);
}

static void log_numbers(struct event_log *l, uint64_t time, int end, const udx_stream *s) {
    struct numbers now = {s->sender.cwnd, s->sender.inflight, s->timing.rto}, *last = &l->last[end];
    if (!l->file || (now.window == last->window && now.inflight == last->inflight && now.rto == last->rto))
        return;
    *last = now;
    log_written(l, fprintf(l->file, "%" PRIu64 " numbers %d %" PRIu32 " %" PRIu32 " %" PRIu64 "\n", time, end, now.window, now.inflight,
                           now.rto) > 0);
}

#endif
