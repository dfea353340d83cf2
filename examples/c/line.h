/*
 * A simulated line: by seeded chance it loses datagrams, repeats them and holds them back. It takes the place of a socket.
 */
#ifndef LINE_H
#define LINE_H

#include "fail.h"
#include "udx.h"
#include <string.h>

enum {
    LINE_ALWAYS = 100000000,   /* a chance of 100 percent: chances are in millionths of a percent */
    LINE_MOST_HELD = 100000000 /* nanoseconds that a datagram is held back at most */
};

/* A copy of a datagram in transit. */
struct arrival {
    uint64_t time, order; /* it arrives at time; of two at the same time, the one sent first */
    uint64_t id;          /* the datagram's number over the whole run */
    int to;               /* the end that it goes to */
    size_t length;
    uint8_t bytes[UDX_MAX_DATAGRAM];
    struct arrival *next_spare;
};

struct line {
    uint64_t loss, repeat, reorder; /* chances */
    uint64_t delay;                 /* nanoseconds */
    uint64_t random;                /* state of the generator */
    uint64_t sent;                  /* copies put on the line so far */
    struct arrival **heap;          /* the earliest arrival first, each before its two children */
    size_t count, room;
    struct arrival *spare; /* reused, so that memory is allocated only while the line fills up */
};

/* What the line did with a datagram. */
struct fate {
    int lost, repeated, held;
};

/* splitmix64: short, and the same numbers in every language. */
static inline uint64_t line_random(struct line *l) {
    uint64_t z = l->random += 0x9e3779b97f4a7c15u;
    z = (z ^ z >> 30) * 0xbf58476d1ce4e5b9u;
    z = (z ^ z >> 27) * 0x94d049bb133111ebu;
    return z ^ z >> 31;
}

/* A number below limit, which fits 32 bits. */
static inline uint64_t line_below(struct line *l, uint64_t limit) {
    return (line_random(l) >> 32) * limit >> 32;
}

static inline int line_chance(struct line *l, uint64_t chance) {
    return line_below(l, LINE_ALWAYS) < chance;
}

/* The extra delay of a copy that others are to overtake. */
static inline uint64_t line_hold(struct line *l) {
    return 1 + line_below(l, LINE_MOST_HELD);
}

static inline int line_before(const struct arrival *a, const struct arrival *b) {
    return a->time != b->time ? a->time < b->time : a->order < b->order;
}

static inline void line_swap(struct line *l, size_t i, size_t j) {
    struct arrival *a = l->heap[i];
    l->heap[i] = l->heap[j];
    l->heap[j] = a;
}

/* Moves the last one up to its place. */
static inline void line_rise(struct line *l) {
    for (size_t i = l->count - 1; i > 0 && line_before(l->heap[i], l->heap[(i - 1) / 2]); i = (i - 1) / 2)
        line_swap(l, i, (i - 1) / 2);
}

/* Moves the first one down to its place. */
static inline void line_sink(struct line *l) {
    size_t i = 0;
    for (;;) {
        size_t least = i;
        for (size_t child = 2 * i + 1; child <= 2 * i + 2 && child < l->count; child++)
            if (line_before(l->heap[child], l->heap[least]))
                least = child;
        if (least == i)
            return;
        line_swap(l, i, least);
        i = least;
    }
}

static inline void line_make_room(struct line *l) {
    if (l->count < l->room)
        return;
    l->room = l->room ? 2 * l->room : 256;
    l->heap = realloc(l->heap, l->room * sizeof *l->heap);
    if (!l->heap)
        die(FAILED, "out of memory");
}

static inline struct arrival *line_spare(struct line *l) {
    struct arrival *a = l->spare;
    if (a)
        l->spare = a->next_spare;
    else if (!(a = malloc(sizeof *a)))
        die(FAILED, "out of memory");
    return a;
}

/* The bytes are copied: the sender's buffer is reused before they arrive. */
static inline void line_put(struct line *l, uint64_t time, int to, uint64_t id, const uint8_t *bytes, size_t length) {
    struct arrival *a = line_spare(l);
    a->time = time;
    a->order = l->sent++;
    a->id = id;
    a->to = to;
    a->length = length;
    memcpy(a->bytes, bytes, length);
    line_make_room(l);
    l->heap[l->count++] = a;
    line_rise(l);
}

/* Sends a datagram of at most UDX_MAX_DATAGRAM bytes to an end. */
static inline struct fate line_send(struct line *l, uint64_t now, int to, uint64_t id, const uint8_t *bytes, size_t length) {
    struct fate fate = {0, 0, 0};
    fate.lost = line_chance(l, l->loss);
    if (fate.lost)
        return fate;
    fate.held = line_chance(l, l->reorder);
    line_put(l, now + l->delay + (fate.held ? line_hold(l) : 0), to, id, bytes, length);
    fate.repeated = line_chance(l, l->repeat);
    if (fate.repeated)
        line_put(l, now + l->delay + line_hold(l), to, id, bytes, length);
    return fate;
}

/* The next arrival, which stays on the line; NULL if there is none. */
static inline const struct arrival *line_next(const struct line *l) {
    return l->count ? l->heap[0] : NULL;
}

/* Takes the next arrival from the line; line_release gives it back. */
static inline struct arrival *line_take(struct line *l) {
    struct arrival *a = l->heap[0];
    l->heap[0] = l->heap[--l->count];
    line_sink(l);
    return a;
}

static inline void line_release(struct line *l, struct arrival *a) {
    a->next_spare = l->spare;
    l->spare = a;
}

/* Frees all memory. */
static inline void line_close(struct line *l) {
    while (l->count)
        line_release(l, line_take(l));
    while (l->spare) {
        struct arrival *a = l->spare;
        l->spare = a->next_spare;
        free(a);
    }
    free(l->heap);
}

#endif
