/*
 * bad_line: a hub and a gateway in one process, over a simulated line that loses, repeats and reorders datagrams. The hub sends samples or
 * a file, the gateway reads and checks every byte; with --both also in the other direction.
 *
 * The loop to copy is carry_all with the functions it calls: the round of a caller in udx.h, for two ends at once. In a program with a
 * socket line_send becomes a send, wait_for_event a poll with a timeout, and the simulated clock a monotonic one. --help lists the options.
 */
#define _POSIX_C_SOURCE 200809L
#include "report.h"
#include "transfer.h"
#include "udx.h"
#include <signal.h>

enum {
    SEGMENTS = 10,             /* most datagrams in a batch */
    CLOSING_ROUNDS = 8,        /* two are enough: one sends the END, the next finds nothing left */
    IDLE_STREAMS = 1000,       /* consecutive streams without a byte read: the line carries too little */
    WATCH_EVERY = 256,         /* rounds between two looks at the wall clock */
    GATEWAY_SAMPLE = 500000000 /* the two sides send different samples, so that no mix-up goes unseen */
};

static struct transfer run;

/* If the engine refuses what it never should, this program has a bug. */
static udx_answer must(const char *call, udx_answer a) {
    if (a.outcome == UDX_REFUSED)
        die(FAILED, "%s was refused with %d", call, a.refusal);
    return a;
}

/* 1. Deliver and read what came in. */

/* Compares with the source, generated again at this offset, and finds the first wrong byte. */
static void check_bytes(struct transfer *t, struct side *s, const struct source *from, size_t count) {
    if (count > from->length - s->read)
        die(FAILED, "more bytes were read than were sent");
    source_bytes(from, s->read, t->expected, count);
    if (s->wrong || memcmp(t->got, t->expected, count) == 0)
        return;
    size_t at = 0;
    while (t->got[at] == t->expected[at])
        at++;
    s->wrong = 1;
    s->wrong_at = s->read + at;
}

/* Reads until a read puts nothing. A read can put bytes whatever it returns, so the count is checked in each case, and the error last. */
static void read_all(struct transfer *t, int i) {
    struct side *s = &t->side[i];
    udx_answer a;
    do {
        a = udx_end_read(&s->end, t->got, sizeof t->got);
        check_bytes(t, s, &t->side[1 - i].source, a.count);
        checksum_add(&s->of_read, t->got, a.count);
        s->read += a.count;
    } while (a.count > 0);
    must("read", a);
}

/* A refused datagram is dropped: it belongs to an earlier stream, or will be resent. Any other refusal would be a bug in this program. */
static void deliver(struct transfer *t, const struct arrival *a) {
    struct side *s = &t->side[a->to];
    udx_answer answer = udx_end_deliver(&s->end, a->bytes, a->length, t->clock);
    s->woken = 1;
    s->counts.delivered++;
    log_datagram(&t->log, t->clock, "came", a->to, a->id);
    if (answer.outcome != UDX_REFUSED)
        return;
    s->counts.refused[answer.refusal]++;
    log_refused(&t->log, t->clock, a->to, a->id, answer.refusal);
    if (answer.refusal != UDX_REFUSED_OTHER_STREAM && answer.refusal != UDX_REFUSED_PAST_INCOMING &&
        answer.refusal != UDX_REFUSED_STATE_QUEUE_FULL)
        must("deliver", answer);
}

/* Delivers everything that has arrived by now, then reads: bytes are read before the stream can fail. */
static void deliver_arrived(struct transfer *t) {
    const struct arrival *next;
    while ((next = line_next(&t->line)) && next->time <= t->clock) {
        struct arrival *a = line_take(&t->line);
        deliver(t, a);
        line_release(&t->line, a);
    }
    for (int i = 0; i < 2; i++)
        if (t->side[i].woken)
            read_all(t, i);
}

/* 2. and 3. Drive, which decides what goes out; take and send all of it. */

/* Whether the timer is running and due. */
static int is_due(const udx_stream *s, uint64_t clock) {
    return s->sender.remote_acked != s->sender.seq && s->timing.deadline <= clock;
}

/* A drive settles first, and settling restarts the timer: the timer was due only if nothing left the store. */
static void drive(struct transfer *t, int i) {
    struct side *s = &t->side[i];
    int due = is_due(&s->end.stream, t->clock);
    uint64_t stored = s->end.totals.inflight_packets;
    must("drive", udx_end_drive(&s->end, t->clock));
    if (due && s->end.totals.inflight_packets == stored) {
        s->counts.timeouts++;
        log_end(&t->log, t->clock, "timeout", i);
    }
    log_numbers(&t->log, t->clock, i, &s->end.stream);
}

/* Counts a packet by its header; new ones come in the order of their numbers. Returns whether it has data. */
static int count_packet(struct side *s, const udx_header *h) {
    int is_data = h->typ & 1;
    if (!is_data) {
        s->counts.states++;
    } else if (h->seq < s->next_data) {
        s->counts.resent++;
    } else {
        s->counts.data++;
        s->next_data = h->seq + 1;
    }
    return is_data;
}

/* A program with a socket sends here. */
static void send_datagram(struct transfer *t, int from, const uint8_t *bytes, size_t length) {
    struct side *s = &t->side[from];
    udx_header h = udx_decode(bytes, length).header;
    uint64_t id = t->datagrams++;
    int is_data = count_packet(s, &h);
    log_sent(&t->log, t->clock, from, id, is_data, is_data ? h.seq : h.ack, length);
    struct fate fate = line_send(&t->line, t->clock, 1 - from, id, bytes, length);
    s->counts.lost += (uint64_t)fate.lost;
    s->counts.repeated += (uint64_t)fate.repeated;
    s->counts.held += (uint64_t)fate.held;
    if (fate.lost)
        log_datagram(&t->log, t->clock, "lost", from, id);
}

/* Until a take returns UDX_NONE, write, deliver, drive and close are refused. */
static void send_all(struct transfer *t, int from) {
    for (;;) {
        udx_answer a = must("take", udx_end_take(&t->side[from].end, t->batch, sizeof t->batch));
        if (a.outcome == UDX_NONE)
            return;
        size_t step = a.segment ? a.segment : a.count;
        for (size_t at = 0; at < a.count; at += step)
            send_datagram(t, from, t->batch + at, step);
    }
}

/* Keeps enough ready for a whole window, so that no packet is cut short by the end of the buffer. */
static void fill_outbox(struct outbox *o, const struct source *source) {
    size_t waiting = o->end - o->start;
    if (waiting >= FULL_STREAM || o->next == source->length)
        return;
    memmove(o->bytes, o->bytes + o->start, waiting);
    size_t room = sizeof o->bytes - waiting;
    uint64_t left = source->length - o->next;
    size_t more = left < room ? (size_t)left : room;
    source_bytes(source, o->next, o->bytes + waiting, more);
    o->start = 0;
    o->end = waiting + more;
    o->next += more;
}

/* The checksum counts each byte once, even if a fresh stream sends it again. */
static void note_written(struct side *s, const uint8_t *bytes, size_t count) {
    uint64_t offset = s->outbox.next - (s->outbox.end - s->outbox.start);
    uint64_t known = s->sent - offset < count ? s->sent - offset : count;
    checksum_add(&s->of_sent, bytes + known, count - (size_t)known);
    s->sent += count - known;
    s->counts.bytes_again += known;
}

/* Returns whether anything was accepted: then there is something new to drive. */
static int write_more(struct side *s) {
    struct outbox *o = &s->outbox;
    fill_outbox(o, &s->source);
    if (o->start == o->end || s->end.stream.ending.error != UDX_NO_ERROR)
        return 0;
    udx_answer a = must("write", udx_end_write(&s->end, o->bytes + o->start, o->end - o->start));
    if (a.outcome == UDX_WAIT)
        return 0;
    note_written(s, o->bytes + o->start, a.count);
    o->start += a.count;
    return 1;
}

/* A drive that settles makes room in the window. So what is pending is written after it, and then needs another drive. */
static void drive_and_send(struct transfer *t, int i) {
    t->side[i].woken = 0;
    do {
        drive(t, i);
        send_all(t, i);
    } while (write_more(&t->side[i]));
}

static void drive_woken(struct transfer *t) {
    for (int i = 0; i < 2; i++)
        if (t->side[i].woken || is_due(&t->side[i].end.stream, t->clock))
            drive_and_send(t, i);
}

/* 4. Nothing is left to do at this clock: wait. */

static uint64_t earlier(uint64_t a, uint64_t b) {
    return a < b ? a : b;
}

/* The next arrival or the next deadline. A deadline counts only while something is unacknowledged. */
static void wait_for_event(struct transfer *t) {
    const struct arrival *arrival = line_next(&t->line);
    uint64_t next = arrival ? arrival->time : UINT64_MAX;
    for (int i = 0; i < 2; i++) {
        const udx_stream *s = &t->side[i].end.stream;
        if (s->sender.remote_acked != s->sender.seq)
            next = earlier(next, s->timing.deadline);
    }
    if (next == UINT64_MAX)
        die(FAILED, "nothing is under way and no timer runs");
    t->clock = next > t->clock ? next : t->clock;
}

/* What a stream needs besides its rounds: opening, failing, ending. */

/* On a line that lets nothing through the run would never end. */
static void stop_if_idle(struct transfer *t) {
    t->idle_streams = t->streams > 0 && bytes_read(t) == t->read_at_open ? t->idle_streams + 1 : 0;
    t->read_at_open = bytes_read(t);
    if (t->idle_streams == IDLE_STREAMS)
        die(FAILED, "%s streams one after another failed before a byte was read: the line carries too little", grouped(IDLE_STREAMS).of);
}

/*
 * Opens both ends, with ids that no earlier stream had, so that datagrams still on the line are refused. Each direction continues at the
 * first byte that its receiver has not read; on a real line the receiver tells the sender that offset.
 */
static void open_streams(struct transfer *t) {
    uint32_t first = (uint32_t)(2 * t->streams + 1);
    stop_if_idle(t);
    for (int i = 0; i < 2; i++) {
        struct side *s = &t->side[i];
        must("open", udx_end_open(&s->end, first + (uint32_t)i, first + 1 - (uint32_t)i, SEGMENTS, t->clock));
        s->woken = 1;
        s->next_data = 0;
        s->outbox.start = s->outbox.end = 0;
        s->outbox.next = t->side[1 - i].read;
    }
    t->streams++;
}

/* The first side whose stream has ended with TimedOut, or -1. */
static int timed_out(const struct transfer *t) {
    for (int i = 0; i < 2; i++)
        if (t->side[i].end.stream.ending.error == UDX_TIMED_OUT)
            return i;
    return -1;
}

/* Only then may a side close: what is not acknowledged could be lost. */
static int all_acknowledged(const struct transfer *t) {
    for (int i = 0; i < 2; i++) {
        const struct side *s = &t->side[i];
        if (t->side[1 - i].read != s->source.length || s->end.stream.sender.remote_acked != s->end.stream.sender.seq)
            return 0;
    }
    return 1;
}

/* The whole transfer. On a bad line it is normal for a stream to fail: what was read is right, and a fresh one carries the rest. */
static void carry_all(struct transfer *t, struct watch *w) {
    open_streams(t);
    for (unsigned round = 1;; round++) {
        deliver_arrived(t);
        drive_woken(t);
        int failed = timed_out(t);
        if (failed >= 0) {
            log_end(&t->log, t->clock, "failed", failed);
            open_streams(t);
        } else if (all_acknowledged(t)) {
            return;
        } else {
            wait_for_event(t);
        }
        if (round % WATCH_EVERY == 0)
            watch_run(w, t);
    }
}

/* A drive returns UDX_DONE once the END has been taken and nothing is left to resend. */
static int drive_until_done(struct transfer *t, int i) {
    for (int round = 0; round < CLOSING_ROUNDS; round++) {
        if (must("drive", udx_end_drive(&t->side[i].end, t->clock)).outcome == UDX_DONE)
            return 1;
        send_all(t, i);
    }
    return 0;
}

/* Both sides close: an END that the line loses is not resent, so neither waits for the other's. */
static void close_both(struct transfer *t) {
    for (int i = 0; i < 2; i++)
        must("close", udx_end_close(&t->side[i].end));
    int hub = drive_until_done(t, HUB), gateway = drive_until_done(t, GATEWAY);
    t->done = hub && gateway;
}

/* A file that is opened must not become standard output or standard error: messages would go into it. */
static void check_standard_files(void) {
    for (int fd = 0; fd < 3; fd++) {
        if (fcntl(fd, F_GETFD) >= 0)
            continue;
        if (fd == STDOUT_FILENO)
            die(FAILED, "standard output is closed");
        if (open("/dev/null", O_RDWR) != fd)
            exit(FAILED);
    }
}

static void set_up(struct transfer *t, const struct options *o) {
    struct source nothing = source_of_samples(0, 0);
    t->side[HUB].source = o->file ? source_of_file(o->file) : source_of_samples(0, o->bytes);
    t->side[GATEWAY].source = !o->both ? nothing : o->file ? t->side[HUB].source : source_of_samples(GATEWAY_SAMPLE, o->bytes);
    for (int i = 0; i < 2; i++)
        t->side[i].of_sent = t->side[i].of_read = checksum_of_nothing;
    t->line.loss = o->loss;
    t->line.repeat = o->repeat;
    t->line.reorder = o->reorder;
    t->line.delay = o->delay;
    t->line.random = o->seed;
    log_open(&t->log, o->log, o->file);
}

int main(int count, char **words) {
    check_standard_files();
    signal(SIGPIPE, SIG_IGN); /* a reader that has gone away is an output error, not a silent end */
    struct options o = parse_options(count, words);
    struct watch w = watch_start(o.limit);
    set_up(&run, &o);
    carry_all(&run, &w);
    close_both(&run);
    log_close(&run.log);
    watch_end();
    int right = print_summary(&run, &o);
    print_wall_clock(&w, &run);
    finish_output();
    line_close(&run.line);
    return right ? 0 : FAILED;
}
