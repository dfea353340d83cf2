/* What a run prints: its progress, on standard error, and its summary, on standard output. */
#ifndef REPORT_H
#define REPORT_H

#include "transfer.h"
#include <inttypes.h>
#include <time.h>
#include <unistd.h>

/* Room for a number as text, with separators. */
struct text {
    char of[40];
};

static struct text grouped(uint64_t n) {
    struct text t;
    char digits[24];
    int length = snprintf(digits, sizeof digits, "%" PRIu64, n), at = 0;
    for (int i = 0; i < length; i++) {
        if (i > 0 && (length - i) % 3 == 0)
            t.of[at++] = ',';
        t.of[at++] = digits[i];
    }
    t.of[at] = 0;
    return t;
}

/* A number with all its decimals, such as nanoseconds as seconds. */
static struct text with_decimals(uint64_t n, uint64_t unit, int decimals) {
    struct text t = grouped(n / unit);
    size_t at = strlen(t.of);
    snprintf(t.of + at, sizeof t.of - at, ".%0*" PRIu64, decimals, n % unit);
    return t;
}

/* Millionths, without trailing zeros: an option as it was given. */
static struct text trimmed(uint64_t millionths) {
    struct text t = with_decimals(millionths, MILLIONTHS, 6);
    size_t at = strlen(t.of);
    while (t.of[at - 1] == '0')
        at--;
    t.of[t.of[at - 1] == '.' ? at - 1 : at] = 0;
    return t;
}

/* progress */

/* Seconds of wall clock. */
static double wall_seconds(void) {
    struct timespec t;
    clock_gettime(CLOCK_MONOTONIC, &t);
    return (double)t.tv_sec + (double)t.tv_nsec * 1e-9;
}

struct watch {
    double start, next; /* when the run began; when the next progress line is due */
    double limit;       /* seconds that the run may take */
    int terminal;       /* standard error is one: the line is rewritten in place */
};

static struct watch watch_start(uint64_t limit) {
    struct watch w = {wall_seconds(), 0, (double)limit / MILLIONTHS, isatty(STDERR_FILENO)};
    w.next = w.start + (w.terminal ? 1 : 10);
    return w;
}

static double megabytes_per_second(uint64_t bytes, double seconds) {
    return seconds > 0 ? (double)bytes / 1e6 / seconds : 0;
}

static void show_progress(struct watch *w, const struct transfer *t, double now) {
    uint64_t read = bytes_read(t), all = bytes_in_all(t);
    fprintf(stderr, "%s%s of %s bytes read, %.1f %%, %.1f MB/s%s", w->terminal ? "\r" : "", grouped(read).of, grouped(all).of,
            all ? 100.0 * (double)read / (double)all : 100.0, megabytes_per_second(read, now - w->start), w->terminal ? "  " : "\n");
    progress_line_open = w->terminal;
    w->next = now + (w->terminal ? 0.2 : 10);
}

/* Called often: prints the run's progress, and ends it at its limit. */
static void watch_run(struct watch *w, const struct transfer *t) {
    double now = wall_seconds();
    if (now - w->start >= w->limit)
        die(FAILED, "stopped after %.1f s, its limit: %s of %s bytes read", now - w->start, grouped(bytes_read(t)).of,
            grouped(bytes_in_all(t)).of);
    if (now >= w->next)
        show_progress(w, t, now);
}

static void watch_end(void) {
    if (progress_line_open)
        fputc('\n', stderr);
    progress_line_open = 0;
}

/* summary */

static void print_head(const struct transfer *t, const struct options *o) {
    printf("%s bytes of %s %s\n", grouped(t->side[HUB].source.length).of, o->file ? "a file" : "samples",
           o->both ? "each way between hub and gateway" : "from the hub to the gateway");
    printf("the line: %s %% lost, %s %% repeated, %s %% held back, %s ms delay, seed %" PRIu64 "\n\n", trimmed(o->loss).of,
           trimmed(o->repeat).of, trimmed(o->reorder).of, trimmed(o->delay).of, o->seed);
}

static void print_row(const char *what, const char *hub, const char *gateway) {
    printf("%-28s%20s%20s\n", what, hub, gateway);
}

static void print_counts(const char *what, uint64_t hub, uint64_t gateway) {
    print_row(what, grouped(hub).of, grouped(gateway).of);
}

static void print_traffic(const struct side *hub, const struct side *gateway) {
    const struct counts *h = &hub->counts, *g = &gateway->counts;
    print_row("", side_names[HUB], side_names[GATEWAY]);
    print_counts("bytes to send", hub->source.length, gateway->source.length);
    print_counts("bytes sent", hub->sent, gateway->sent);
    print_counts("bytes sent again, afresh", h->bytes_again, g->bytes_again);
    print_counts("bytes read", hub->read, gateway->read);
    print_counts("data packets, first", h->data, g->data);
    print_counts("data packets, resent", h->resent, g->resent);
    print_counts("state packets", h->states, g->states);
    print_counts("sent and lost", h->lost, g->lost);
    print_counts("sent and repeated", h->repeated, g->repeated);
    print_counts("sent and held back", h->held, g->held);
    print_counts("delivered", h->delivered, g->delivered);
    for (int i = 1; i < 18; i++) {
        char what[32];
        snprintf(what, sizeof what, "refused with %d", i);
        if (h->refused[i] || g->refused[i])
            print_counts(what, h->refused[i], g->refused[i]);
    }
    print_counts("timeouts", h->timeouts, g->timeouts);
}

/* Nanoseconds as milliseconds; srtt is 0 until there is a sample. */
static struct text milliseconds(uint64_t nanoseconds) {
    struct text none = {"none"};
    return nanoseconds ? with_decimals(nanoseconds, MILLIONTHS, 6) : none;
}

static void print_numbers(const struct side *hub, const struct side *gateway) {
    const udx_stream *h = &hub->end.stream, *g = &gateway->end.stream;
    print_counts("window at the end, bytes", h->sender.cwnd, g->sender.cwnd);
    print_row("rto at the end, ms", milliseconds(h->timing.rto).of, milliseconds(g->timing.rto).of);
    print_row("srtt at the end, ms", milliseconds(h->timing.srtt).of, milliseconds(g->timing.srtt).of);
}

static struct text checksum_text(const struct checksum *c) {
    struct text t;
    snprintf(t.of, sizeof t.of, "%016" PRIx64, checksum_value(c));
    return t;
}

static void print_checksums(const struct side *hub, const struct side *gateway) {
    print_row("checksum of what it sent", checksum_text(&hub->of_sent).of, checksum_text(&gateway->of_sent).of);
    print_row("checksum of what it read", checksum_text(&hub->of_read).of, checksum_text(&gateway->of_read).of);
}

/* Whether what one side sent is what the other read; prints where not. */
static int print_verdict(const struct side *from, const char *name, const struct side *to) {
    if (to->wrong)
        printf("byte %s of what the %s sent was read as another byte\n", grouped(to->wrong_at).of, name);
    else if (to->read != from->source.length || checksum_value(&from->of_sent) != checksum_value(&to->of_read))
        printf("what the %s sent and what was read differ\n", name);
    else
        return 1;
    return 0;
}

/* Returns whether all is as it should be. */
static int print_summary(const struct transfer *t, const struct options *o) {
    const struct side *hub = &t->side[HUB], *gateway = &t->side[GATEWAY];
    print_head(t, o);
    print_traffic(hub, gateway);
    print_numbers(hub, gateway);
    print_checksums(hub, gateway);
    printf("\nstreams opened: %s\n", grouped(t->streams).of);
    printf("datagrams under way at the end: %s\n", grouped(t->line.count).of);
    printf("simulated time: %s s\n", with_decimals(t->clock, 1000000000, 9).of);
    printf("%s\n", t->done ? "both ends are closed and done" : "the ends are closed and not done");
    int there = print_verdict(hub, side_names[HUB], gateway), back = print_verdict(gateway, side_names[GATEWAY], hub);
    if (there && back)
        printf("every byte is the byte that was sent\n");
    return there && back && t->done;
}

static void print_wall_clock(const struct watch *w, const struct transfer *t) {
    double seconds = wall_seconds() - w->start;
    printf("wall clock: %.3f s, %.1f MB/s\n", seconds, megabytes_per_second(bytes_read(t), seconds));
}

#endif
