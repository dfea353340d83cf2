/* What is sent: samples or a file, as bytes at any offset; and the checksum of what went past. */
#ifndef SOURCE_H
#define SOURCE_H

#include "fail.h"
#include "samples.h"
#include <fcntl.h>
#include <stdint.h>
#include <sys/stat.h>
#include <unistd.h>

struct source {
    const char *path; /* of the file, or NULL: samples */
    int file;
    uint64_t first; /* number of the first sample */
    uint64_t length;
};

static struct source source_of_samples(uint64_t first, uint64_t length) {
    struct source s = {NULL, -1, first, length};
    return s;
}

/* Only a regular file has a length that is known before it is read. */
static struct source source_of_file(const char *path) {
    struct stat info;
    struct source s = {path, -1, 0, 0};
    if (stat(path, &info) != 0)
        die(FAILED, "%s: %s", path, strerror(errno));
    if (!S_ISREG(info.st_mode))
        die(FAILED, "%s: not a regular file", path);
    s.file = open(path, O_RDONLY);
    if (s.file < 0)
        die(FAILED, "%s: %s", path, strerror(errno));
    s.length = (uint64_t)info.st_size;
    return s;
}

static void file_bytes(const struct source *s, uint64_t offset, uint8_t *to, size_t count) {
    while (count > 0) {
        ssize_t got = pread(s->file, to, count, (off_t)offset);
        if (got < 0 && errno == EINTR)
            continue;
        if (got <= 0)
            die(FAILED, "%s: %s", s->path, got < 0 ? strerror(errno) : "has become shorter");
        to += got;
        offset += (uint64_t)got;
        count -= (size_t)got;
    }
}

/* The caller stays below the source's length. */
static void source_bytes(const struct source *s, uint64_t offset, uint8_t *to, size_t count) {
    if (s->path)
        file_bytes(s, offset, to, count);
    else
        samples_bytes(s->first, offset, to, count);
}

/* FNV-1a's step on words of 8 bytes, with the high half mixed into the low one. How the bytes are cut into pieces does not matter. */
struct checksum {
    uint64_t hash, word;
    unsigned held; /* bytes in word: 0 to 7 */
};

static const struct checksum checksum_of_nothing = {0xcbf29ce484222325u, 0, 0};

static uint64_t checksum_step(uint64_t hash, uint64_t word) {
    hash = (hash ^ word) * 0x100000001b3u;
    return hash ^ hash >> 32;
}

static void checksum_byte(struct checksum *c, uint8_t byte) {
    c->word |= (uint64_t)byte << 8 * c->held;
    if (++c->held == 8) {
        c->hash = checksum_step(c->hash, c->word);
        c->word = c->held = 0;
    }
}

/* Little-endian on every machine; compilers make one load of it. */
static uint64_t word_at(const uint8_t *bytes) {
    uint64_t word = 0;
    for (int i = 0; i < 8; i++)
        word |= (uint64_t)bytes[i] << 8 * i;
    return word;
}

static void checksum_add(struct checksum *c, const uint8_t *bytes, size_t count) {
    for (; count > 0 && c->held > 0; count--)
        checksum_byte(c, *bytes++);
    for (; count >= 8; count -= 8, bytes += 8)
        c->hash = checksum_step(c->hash, word_at(bytes));
    for (; count > 0; count--)
        checksum_byte(c, *bytes++);
}

static uint64_t checksum_value(const struct checksum *c) {
    return checksum_step(checksum_step(c->hash, c->word), c->held);
}

#endif
