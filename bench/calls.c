/* Times write and take, refusal 1 included: a write on a fresh stream, and a take of ten packets. */
#include "timing.h"

extern uint64_t udx_bench_write(const uint64_t *numbers, uint64_t *sent, const uint64_t *held, uint64_t *queue, uint8_t *outgoing, uint64_t,
                                const uint8_t *incoming, uint64_t, const uint8_t *headers, uint64_t, const uint8_t *bytes, uint64_t);
extern uint64_t udx_bench_take(const uint64_t *numbers, uint64_t *sent, const uint64_t *held, const uint64_t *queue, const uint8_t *outgoing,
                               uint64_t, const uint8_t *incoming, uint64_t, const uint8_t *headers, uint64_t, uint8_t *buf, uint64_t);

static uint64_t numbers[24], sent[64], held[32], queue[128], fresh[64];
static uint8_t outgoing[44800], incoming[44160], headers[1280], bytes[1380], buf[14000];

/* A stream with `stored` packets of this payload, all left to take. */
static void fill(unsigned stored, unsigned payload) {
    uint64_t length = payload + 20;
    memset(fresh, 0, sizeof fresh);
    for (unsigned n = 0; n < stored; n++) {
        fresh[n] = (uint64_t)n << 32 | length << 6;
        queue[n] = (uint64_t)n << 32 | length << 6;
    }
    uint64_t values[24] = {stored, 0, 0, stored * length, 100000, 0, 0, 0, stored, stored, 0, 0,
                           0, 0, 1000000000, 1000000000, 9, 9, 10, stored, (uint64_t)stored * payload};
    memcpy(numbers, values, sizeof values);
}

static uint64_t one_write(unsigned payload) {
    return udx_bench_write(numbers, sent, held, queue, outgoing, sizeof outgoing, incoming, sizeof incoming, headers, sizeof headers, bytes, payload);
}

/* Resets the marks first: transmits are at most 7, so a packet cannot be taken forever. */
static uint64_t one_take(unsigned unused) {
    (void)unused;
    memcpy(sent, fresh, sizeof fresh);
    return udx_bench_take(numbers, sent, held, queue, outgoing, sizeof outgoing, incoming, sizeof incoming, headers, sizeof headers, buf, sizeof buf);
}

int main(void) {
    fill(0, 0);
    report("write of 1,380 bytes", one_write, 1380, 1380);
    report("write of 30 bytes", one_write, 30, 30);
    fill(10, 1380);
    report("take of ten, 1,380 bytes each", one_take, 0, 14000);
    fill(10, 30);
    report("take of ten, 30 bytes each", one_take, 0, 500);
    return 0;
}
