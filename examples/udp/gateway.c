/*
 * The gateway: receives a stream over UDP, reads it, and checks every byte of its samples or writes the bytes to a file.
 *
 * How a transfer ends. The hub sends END when everything is acknowledged, and again until the gateway's END arrives. Each END delivered
 * queues such an answer, so the gateway stays for LINGER after the last datagram: three of the hub's repeats. If every END is lost, the
 * gateway ends after --idle seconds without a datagram. A hub that waits for an acknowledgement is never silent for longer than 2 rto, and
 * its stream fails after 1 + 2 + 2 + 2 of them, 7 s with the least rto: after 10 s nobody is there. Whether the transfer is complete does
 * not depend on how it ended: the hub announces the number of bytes in front of them.
 */
#include "common.h"

#include "../c/samples.h"
#include "link.h"

#define LINGER SECOND

static const char about[] =
    "gateway: receives samples, or a file, from the hub over UDP on 127.0.0.1.\n"
    "\n"
    "  gateway [--port PORT] [--out FILE] [--idle SECONDS]\n"
    "\n"
    "Waits for a hub, takes in one stream and ends with it: status 0 when every byte that the hub announced was read\n"
    "and is right, else 1. When a stream fails (TimedOut at the hub) a caller opens a new one, with new ids on both\n"
    "sides; what was read before is right.\n"
    "\n";

/* Where the bytes go: first the announcement, then each byte is written to the file or compared with its sample's. */
struct sink {
    FILE *file; /* NULL: samples, to be checked */
    const char *path;
    uint64_t size;            /* as the hub announced it */
    uint64_t announced, read; /* bytes of the announcement, and bytes after it, so far */
    bool has_failed;          /* a byte was wrong or could not be written; a message has said which */
};

static size_t take_announcement(struct sink *s, const uint8_t *bytes, size_t count) {
    size_t used = 0;
    for (; used < count && s->announced < ANNOUNCEMENT; used++)
        s->size |= (uint64_t)bytes[used] << 8 * s->announced++;
    return used;
}

/* Compares the bytes with those of the samples at this place. */
static bool check_samples(struct sink *s, const uint8_t *bytes, size_t count) {
    static uint8_t expected[UDX_INCOMING_STORE];
    size_t same = 0;
    samples_bytes(0, s->read, expected, count);
    while (same < count && bytes[same] == expected[same])
        same++;
    s->read += same;
    if (same < count)
        complain("byte %" PRIu64 " is not that of its sample: %d in place of %d", s->read, bytes[same], expected[same]);
    return same == count;
}

static bool write_file(struct sink *s, const uint8_t *bytes, size_t count) {
    if (fwrite(bytes, 1, count, s->file) != count || fflush(s->file) != 0) {
        complain("%s: %s", s->path, strerror(errno));
        return false;
    }
    s->read += count;
    return true;
}

/* Reads until a read puts nothing. A read can put bytes whatever it returns: they count in each case. */
static void read_all(struct link *l, struct sink *s) {
    static uint8_t buf[UDX_INCOMING_STORE];
    udx_answer a;
    do {
        a = udx_end_read(&l->end, buf, sizeof buf);
        size_t used = take_announcement(s, buf, a.count);
        bool is_right = s->file ? write_file(s, buf + used, a.count - used) : check_samples(s, buf + used, a.count - used);
        s->has_failed = !is_right;
    } while (a.count > 0 && !s->has_failed);
}

/* Until when the gateway waits for the next datagram: for the first one, forever. */
static uint64_t patience(const struct link *l, uint64_t idle) {
    if (!l->has_peer)
        return NEVER;
    return l->heard + (link_heard_end(l) ? LINGER : idle);
}

/* The round of a receiver, until the stream has ended and the line is quiet. */
static void receive_all(struct link *l, struct sink *s, uint64_t idle) {
    while (!stop_asked && !s->has_failed && now() < patience(l, idle)) {
        link_wait(l, patience(l, idle));
        link_receive(l);
        read_all(l, s);
        /* with nothing queued a drive would end a closed stream, and the hub's repeated ENDs would get no answer */
        if (l->end.stream.queue.count > 0)
            link_drive(l);
    }
}

static bool is_whole(const struct sink *s) { return !s->has_failed && s->announced == ANNOUNCEMENT && s->read == s->size; }

static const char *ending(const struct link *l) {
    if (stop_asked)
        return "interrupted";
    return link_heard_end(l) ? "the hub has ended the stream" : "no datagram came any more";
}

static void summary(const struct link *l, const struct sink *s) {
    printf("gateway: %" PRIu64 " of %" PRIu64 " bytes read in %.1f s%s%s\n", s->read, s->size, (double)(l->heard - l->first) / 1e9,
           is_whole(s) && !s->file ? ", every one right" : "", is_whole(s) && !link_heard_end(l) ? "; no END came" : "");
    link_summary(l);
}

int main(int argc, char **argv) {
    static struct link l;
    static struct sink s;
    uint64_t port = 0, idle = 10;
    const struct option options[] = {
        {"port", "PORT", "where to listen (any free port, which the first line names)", WHOLE, &port, 1, 65535},
        {"out", "FILE", "write the bytes to this file, in place of checking them as samples", TEXT, &s.path, 0, 0},
        {"idle", "SECONDS", "end so long after the last datagram, END or not (10)", WHOLE, &idle, 1, 3600},
    };
    start_program("gateway");
    parse_options(argc, argv, about, options, sizeof options / sizeof options[0]);
    int socket = bind_to(port);
    if (s.path && !(s.file = fopen(s.path, "wb"))) /* after the bind: a refused port leaves the file as it was */
        die(STATUS_FAILED, "%s: %s", s.path, strerror(errno));
    print_port(socket);

    link_open(&l, socket, false, GATEWAY_ID, HUB_ID);
    receive_all(&l, &s, idle * SECOND);
    if (!is_whole(&s)) {
        if (!s.has_failed)
            complain("%s: %" PRIu64 " of %" PRIu64 " bytes read", ending(&l), s.read, s.size);
        link_abort(&l);
    }
    summary(&l, &s);
    return is_whole(&s) ? 0 : STATUS_FAILED;
}
