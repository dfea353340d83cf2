/*
 * The hub's samples: a source of bytes that can be generated from any offset.
 *
 * A sample has 30 bytes; its numbers are little-endian:
 *
 *     at   bytes
 *      0       8   counter: k in sample k
 *      8       4   angle of blade 1 in millidegrees, signed
 *     12       4   angle of blade 2
 *     16       4   angle of blade 3
 *     20       4   motor current in mA, signed: negative while the motor brakes
 *     24       4   battery voltage in mV
 *     28       2   check: the Internet checksum (RFC 1071) of bytes 0 to 27 as 14 little-endian words
 *
 * Sample k depends only on k, by integer arithmetic, so that a receiver can generate the bytes it expects.
 */
#ifndef SAMPLES_H
#define SAMPLES_H

#include <stddef.h>
#include <stdint.h>
#include <string.h>

enum { SAMPLE_SIZE = 30 };

/* Byte by byte, so that the layout is the same on every machine. */
static inline void sample_put(uint8_t *to, uint64_t value, int width) {
    for (int i = 0; i < width; i++)
        to[i] = (uint8_t)(value >> 8 * i);
}

/* A triangle wave: from 0 up to height and back in period samples. */
static inline int32_t sample_swing(uint64_t k, uint32_t period, uint32_t height) {
    uint64_t half = period / 2, x = k % period;
    return (int32_t)((x < half ? x : period - x) * height / half);
}

/* 0 to 31: the last digits of a measurement. */
static inline int32_t sample_noise(uint64_t k) {
    return (int32_t)(k * 0x9e3779b97f4a7c15u >> 59);
}

/* The sum with its carries folded in, complemented. */
static inline uint16_t sample_check(const uint8_t *bytes) {
    uint32_t sum = 0;
    for (int i = 0; i < SAMPLE_SIZE - 2; i += 2)
        sum += (uint32_t)bytes[i] | (uint32_t)bytes[i + 1] << 8;
    sum = (sum & 0xffff) + (sum >> 16);
    sum = (sum & 0xffff) + (sum >> 16);
    return (uint16_t)~sum;
}

/* The three blades follow the wind together, each with its own correction by a third of a turn. */
static inline void sample_make(uint64_t k, uint8_t *to) {
    int32_t pitch = sample_swing(k, 60000, 24000) - 2000, noise = sample_noise(k);
    sample_put(to, k, 8);
    for (uint32_t blade = 0; blade < 3; blade++)
        sample_put(to + 8 + 4 * blade, (uint32_t)(pitch + sample_swing(k + 2000 * blade, 6000, 1500) + noise), 4);
    sample_put(to + 20, (uint32_t)(sample_swing(k, 9000, 3000) - 600 + noise), 4);
    sample_put(to + 24, (uint32_t)(51200 - sample_swing(k, 3600000, 4000) - noise), 4);
    sample_put(to + 28, sample_check(to), 2);
}

/* The bytes from offset on of the endless sequence of samples first, first + 1, .. */
static inline void samples_bytes(uint64_t first, uint64_t offset, uint8_t *to, size_t count) {
    uint64_t k = first + offset / SAMPLE_SIZE;
    size_t skip = (size_t)(offset % SAMPLE_SIZE);
    while (count > 0) {
        uint8_t part[SAMPLE_SIZE];
        size_t step = SAMPLE_SIZE - skip < count ? SAMPLE_SIZE - skip : count;
        if (step == SAMPLE_SIZE) {
            sample_make(k, to);
        } else {
            sample_make(k, part);
            memcpy(to, part + skip, step);
        }
        to += step;
        count -= step;
        skip = 0;
        k++;
    }
}

#endif
