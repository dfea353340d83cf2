/* Times deliver and read, refusal 1 included: DATA on a fresh stream, an ack of ten packets, and the read of one held packet. */
#include "timing.h"

extern uint32_t udx_bench_deliver(const uint64_t *numbers, uint64_t *sent, uint64_t *held, uint64_t *queue, const uint8_t *outgoing, uint64_t,
                                  uint8_t *incoming, uint64_t, uint8_t *headers, uint64_t, const uint8_t *datagram, uint64_t, uint64_t clock);
extern uint64_t udx_bench_read(const uint64_t *numbers, const uint64_t *sent, uint64_t *held, const uint64_t *queue, const uint8_t *outgoing,
                               uint64_t, const uint8_t *incoming, uint64_t, const uint8_t *headers, uint64_t, uint8_t *buf, uint64_t);

static uint64_t numbers[24], sent[64], held[32], queue[128];
static uint8_t outgoing[44800], incoming[44160], headers[1280], datagram[1400], buf[1380];

/* A stream with `stored` packets, and one of this payload held or none. */
static void fill(unsigned stored, unsigned holding, unsigned payload) {
    for (unsigned n = 0; n < stored; n++) {
        sent[n] = (uint64_t)n << 32 | 1400ull << 6 | 1 << 1;
        sent[32 + n] = 6;
    }
    held[0] = (uint64_t)(payload + 1) << 16;
    uint64_t values[24] = {stored, 0, 0, stored * 1400ull, 100000, holding, 0, holding, 0, 0, 0, 0,
                           0, 0, 1000000000, 1000000000, 9, 9, 10, stored, stored * 1380ull};
    memcpy(numbers, values, sizeof values);
}

/* A datagram for the stream with id 1: type, ack, and the payload's bytes after the header. */
static void head(uint8_t type, uint8_t ack) {
    memset(datagram, 0, 20);
    datagram[0] = 255;
    datagram[1] = 1;
    datagram[2] = type;
    datagram[4] = 1;
    datagram[16] = ack;
}

static uint64_t one_delivery(unsigned payload) {
    return udx_bench_deliver(numbers, sent, held, queue, outgoing, sizeof outgoing, incoming, sizeof incoming, headers, sizeof headers, datagram,
                             20 + payload, 9);
}

static uint64_t one_read(unsigned unused) {
    (void)unused;
    return udx_bench_read(numbers, sent, held, queue, outgoing, sizeof outgoing, incoming, sizeof incoming, headers, sizeof headers, buf, sizeof buf);
}

int main(void) {
    fill(0, 0, 0);
    head(1, 0);
    report("deliver of 1,380 bytes", one_delivery, 1380, 1);
    report("deliver of 30 bytes", one_delivery, 30, 1);
    fill(10, 0, 0);
    head(0, 10);
    report("deliver of an ack, ten stored", one_delivery, 0, 1);
    fill(0, 1, 1380);
    report("read of 1,380 bytes", one_read, 0, 1380);
    fill(0, 1, 30);
    report("read of 30 bytes", one_read, 0, 30);
    return 0;
}
