/* A struct of more than 16 bytes is returned through a pointer, the call's first argument (System V), so it can be caught as bytes. */
#include "raw.h"
#include <stdint.h>
#include <string.h>

extern void *udx_layout_step(void *out);
extern void *udx_decode(void *out, const uint8_t *datagram, size_t length);

static uint8_t out[2][4096];

/* The step over two backgrounds: bytes that differ between them were not written. */
static void catch_step(void) {
    for (int i = 0; i < 2; i++) {
        memset(out[i], i ? 0xA5 : 0x5A, sizeof out[i]);
        udx_layout_step(out[i]);
    }
}

/* The first byte past what the archive may have written. */
static int written(void) {
    int end = (int)sizeof out[0];
    while (end > 0 && out[0][end - 1] == 0x5A && out[1][end - 1] == 0xA5)
        end--;
    return end;
}

int raw_step_place(int n) {
    catch_step();
    for (int i = 0; i < written(); i++)
        if (out[0][i] == n && out[1][i] == n)
            return i;
    return -1;
}

int raw_step_end(void) {
    catch_step();
    return written();
}

int raw_decoded_end(void) {
    static const uint8_t header[20] = {255, 1, 3, 4, 5, 6, 7, 8, 9, 10, 11, 12, 13, 14, 15, 16, 17, 18, 19, 20};
    for (int i = 0; i < 2; i++) {
        memset(out[i], i ? 0xA5 : 0x5A, sizeof out[i]);
        udx_decode(out[i], header, sizeof header);
    }
    return written();
}
