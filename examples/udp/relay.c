/*
 * The relay: sits between hub and gateway, forwards datagrams both ways, and acts as a bad line: it drops, repeats and holds back.
 * The fate of the k-th datagram of a direction depends on the seed alone.
 */
#include "common.h"

enum { MOST_HELD = 1024, MOST_BYTES = 2048 };

static const char about[] =
    "relay: a bad line between hub and gateway, over UDP on 127.0.0.1.\n"
    "\n"
    "  relay [--port PORT] --to PORT [--loss P] [--repeat P] [--reorder P] [--delay MS] [--seed N] [--idle SECONDS]\n"
    "\n"
    "Forwards both ways until SIGTERM or SIGINT, or --idle seconds without a datagram.\n"
    "\n";

struct line {
    double loss, repeat, reorder; /* percent */
    uint64_t delay;               /* milliseconds */
    uint64_t seed;
};

/* One direction: from a socket to another, with what happened to its datagrams. */
struct way {
    int from, to;
    const char *name;
    const struct sockaddr_in *address; /* where to send, or NULL: the socket is connected */
    uint64_t random;                   /* state of its generator */
    uint64_t came, dropped, repeated, delayed, overflowed, forwarded, unsent;
};

/* A datagram in transit. At equal instants they keep the order in which they came. */
struct held {
    struct way *way;
    uint64_t due, order;
    size_t length;
    uint8_t bytes[MOST_BYTES];
};

static struct held held[MOST_HELD];
static size_t held_count;
static struct sockaddr_in hub; /* the last sender at --port */
static uint64_t last_heard;

/* splitmix64: a number from 0 to below 1. */
static double draw(struct way *w) {
    uint64_t z = w->random += UINT64_C(0x9e3779b97f4a7c15);
    z = (z ^ z >> 30) * UINT64_C(0xbf58476d1ce4e5b9);
    z = (z ^ z >> 27) * UINT64_C(0x94d049bb133111eb);
    return (double)((z ^ z >> 31) >> 11) / 9007199254740992.0;
}

static void hold(struct way *w, uint64_t due, const uint8_t *bytes, size_t length) {
    static uint64_t order;
    if (held_count == MOST_HELD) {
        w->overflowed++;
        return;
    }
    struct held *h = &held[held_count++];
    h->way = w;
    h->due = due;
    h->order = order++;
    h->length = length;
    memcpy(h->bytes, bytes, length);
}

/* Decides a datagram's fate. The number of draws is always the same, so that each datagram has its own. */
static void meet_fate(struct way *w, const struct line *line, const uint8_t *bytes, size_t length) {
    bool is_lost = draw(w) * 100 < line->loss, is_repeated = draw(w) * 100 < line->repeat, is_delayed = draw(w) * 100 < line->reorder;
    uint64_t span = (uint64_t)(1 + draw(w) * 29) * MILLISECOND; /* long enough to be overtaken */
    uint64_t due = now() + line->delay * MILLISECOND;
    w->came++;
    w->dropped += is_lost;
    if (is_lost)
        return;
    w->delayed += is_delayed;
    w->repeated += is_repeated;
    hold(w, due + (is_delayed ? span : 0), bytes, length);
    if (is_repeated)
        hold(w, due + span, bytes, length);
}

/* Receives what is pending at a direction's socket. */
static void receive_way(struct way *w, const struct line *line, struct sockaddr_in *sender) {
    uint8_t bytes[MOST_BYTES];
    for (int i = 0; i < MOST_HELD; i++) {
        ssize_t length = receive_datagram(w->from, sender, bytes, sizeof bytes);
        if (length < 0)
            return;
        last_heard = now();
        if (!w->address || w->address->sin_port != 0) /* before the hub's first datagram nobody is there to send to */
            meet_fate(w, line, bytes, (size_t)length);
    }
}

/* The held datagram that goes next, or NULL. */
static struct held *next_held(void) {
    struct held *next = NULL;
    for (size_t i = 0; i < held_count; i++)
        if (!next || held[i].due < next->due || (held[i].due == next->due && held[i].order < next->order))
            next = &held[i];
    return next;
}

static void forward_due(void) {
    for (struct held *h = next_held(); h && h->due <= now(); h = next_held()) {
        if (send_datagram(h->way->to, h->way->address, h->bytes, h->length))
            h->way->forwarded++;
        else
            h->way->unsent++;
        *h = held[--held_count];
    }
}

/* When the relay has been idle for long enough; an idle span of 0 is no limit. */
static uint64_t idle_end(uint64_t idle) { return idle ? last_heard + idle : NEVER; }

static void relay(struct way *to_gateway, struct way *to_hub, const struct line *line, uint64_t idle) {
    struct pollfd sockets[2] = {{.fd = to_gateway->from, .events = POLLIN}, {.fd = to_hub->from, .events = POLLIN}};
    struct sockaddr_in gateway;
    last_heard = now();
    while (!stop_asked && now() < idle_end(idle)) {
        const struct held *next = next_held();
        wait_for_datagram(sockets, 2, next && next->due < idle_end(idle) ? next->due : idle_end(idle));
        receive_way(to_gateway, line, &hub);
        receive_way(to_hub, line, &gateway);
        forward_due();
    }
}

static void summary(const struct way *w) {
    printf("relay: %s: %" PRIu64 " datagrams came, %" PRIu64 " dropped, %" PRIu64 " repeated, %" PRIu64 " held back, %" PRIu64 " forwarded",
           w->name, w->came, w->dropped, w->repeated, w->delayed, w->forwarded);
    if (w->overflowed || w->unsent)
        printf("; %" PRIu64 " found no room, %" PRIu64 " not taken by the kernel", w->overflowed, w->unsent);
    putchar('\n');
}

int main(int argc, char **argv) {
    struct line line = {.loss = 5, .repeat = 2, .reorder = 10, .delay = 10, .seed = 1};
    uint64_t port = 0, to = 0, idle = 0;
    const struct option options[] = {
        {"port", "PORT", "where the hub sends to (any free port, which the first line names)", WHOLE, &port, 1, 65535},
        {"to", "PORT", "the gateway's port", WHOLE, &to, 1, 65535},
        {"loss", "P", "percent of datagrams that are dropped (5)", PERCENT, &line.loss, 0, 0},
        {"repeat", "P", "percent that go a second time, up to 30 ms later (2)", PERCENT, &line.repeat, 0, 0},
        {"reorder", "P", "percent that are held back for up to 30 ms more (10)", PERCENT, &line.reorder, 0, 0},
        {"delay", "MS", "milliseconds from one side to the other (10)", WHOLE, &line.delay, 0, 10000},
        {"seed", "N", "of the random numbers (1)", WHOLE, &line.seed, 0, UINT64_MAX},
        {"idle", "SECONDS", "end so long after the last datagram (no limit)", WHOLE, &idle, 1, 3600},
    };
    start_program("relay");
    parse_options(argc, argv, about, options, sizeof options / sizeof options[0]);
    if (to == 0)
        die(STATUS_USAGE, "--to PORT is missing");
    if (port == to)
        die(STATUS_USAGE, "--port and --to are the same: datagrams would go round without end");
    int front = bind_to(port), back = connect_to(to);
    struct way to_gateway = {.from = front, .to = back, .name = "to the gateway", .random = line.seed * 2};
    struct way to_hub = {.from = back, .to = front, .name = "to the hub", .address = &hub, .random = line.seed * 2 + 1};
    print_port(front);

    relay(&to_gateway, &to_hub, &line, idle * SECOND);
    summary(&to_gateway);
    summary(&to_hub);
    flush_output();
    return 0;
}
