/* Times drive, refusal 1 included: one that queues 32 waiting packets, one that settles 32, and one that finds nothing to do. */
#include "timing.h"

extern uint64_t udx_bench_drive(const uint64_t *numbers, uint64_t *sent, const uint64_t *held, uint64_t *queue, const uint8_t *outgoing, uint64_t,
                                const uint8_t *incoming, uint64_t, uint8_t *headers, uint64_t, uint64_t clock);

static uint64_t numbers[24], sent[64], held[32], queue[128], fresh[64];
static uint8_t outgoing[44800], incoming[44160], headers[1280];

/* A stream with `stored` packets, all waiting or all sent once, and this largest ack. */
static void fill(unsigned stored, unsigned waiting, unsigned largest) {
    memset(fresh, 0, sizeof fresh);
    for (unsigned n = 0; n < stored; n++) {
        fresh[n] = (uint64_t)n << 32 | 1400ull << 6 | 1 << 1 | waiting;
        fresh[32 + n] = 6;
    }
    uint64_t values[24] = {stored, 0, largest, waiting ? 0 : stored * 1400ull, 100000, 0, 0, 0, 0, 0, 0, 0,
                           0, 0, 1000000000, 1000000000, 9, 9, 10, stored, stored * 1380ull};
    memcpy(numbers, values, sizeof values);
}

/* Resets the words of the stored packets first. */
static uint64_t one_drive(unsigned unused) {
    (void)unused;
    memcpy(sent, fresh, sizeof fresh);
    return udx_bench_drive(numbers, sent, held, queue, outgoing, sizeof outgoing, incoming, sizeof incoming, headers, sizeof headers, 9);
}

int main(void) {
    fill(32, 1, 0);
    report("drive that queues 32 packets", one_drive, 0, 32);
    fill(32, 0, 32);
    report("drive that settles 32 packets", one_drive, 0, 32);
    fill(0, 0, 0);
    report("drive with nothing to do", one_drive, 0, 0);
    return 0;
}
