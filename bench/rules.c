/* Times refusal 1 on whole records: empty, one packet, and full (32 stored, 31 held, 95 entries queued). */
#include "timing.h"

extern uint32_t udx_bench_rules(const uint64_t *numbers, const uint64_t *sent, const uint64_t *held, const uint64_t *queue);

static uint64_t numbers[24], sent[64], held[32], queue[128];

/* Records with this many packets stored, held and queued, and this many state packets queued. */
static void fill(unsigned stored, unsigned holding, unsigned states) {
    uint64_t inflight = 0;
    for (unsigned i = 0; i < stored; i++) {
        uint64_t n = 100 + i, length = 1400;
        sent[n % 32] = n << 32 | length << 6 | 1 << 1;
        sent[32 + n % 32] = 6;
        queue[states + i] = n << 32 | length << 6;
        inflight += length;
    }
    for (unsigned i = 0; i < states; i++)
        queue[i] = 20 << 6 | 1;
    for (unsigned i = 0; i < holding; i++) {
        uint64_t n = 201 + i;
        held[n % 32] = n << 32 | (uint64_t)1381 << 16;
    }
    uint64_t values[24] = {100 + stored, 100, 0, inflight, 100000, 200, 200, holding ? 201 + holding : 200, states + stored, 0, states, 0,
                           0, 0, 1000000000, 1000000000, 9, 9, 10, stored, stored * 1380};
    for (int i = 0; i < 24; i++)
        numbers[i] = values[i];
}

static uint64_t one_test(unsigned unused) {
    (void)unused;
    return udx_bench_rules(numbers, sent, held, queue);
}

static void report_rules(const char *name, unsigned stored, unsigned holding, unsigned states) {
    fill(stored, holding, states);
    report(name, one_test, 0, 1);
}

int main(void) {
    report_rules("empty", 0, 0, 0);
    report_rules("1 stored, 1 held, 1 state", 1, 1, 1);
    report_rules("8 stored, 4 held, 4 states", 8, 4, 4);
    report_rules("32 stored and queued", 32, 0, 0);
    report_rules("full: 32 stored, 31 held, 95 queued", 32, 31, 63);
    return 0;
}
