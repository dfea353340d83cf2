/* The options of bad_line, and its help. */
#ifndef OPTIONS_H
#define OPTIONS_H

#include "fail.h"
#include "line.h"
#include <inttypes.h>
#include <stdint.h>
#include <string.h>

/* Numbers with decimals are kept in millionths: percent, milliseconds (so nanoseconds) and seconds (so microseconds). */
enum { MILLIONTHS = 1000000 };

struct options {
    const char *file; /* NULL: samples */
    uint64_t bytes;   /* of samples, each way */
    int both;
    uint64_t loss, repeat, reorder; /* percent, in millionths */
    uint64_t delay;                 /* nanoseconds */
    uint64_t seed;
    const char *log; /* NULL: none */
    uint64_t limit;  /* wall clock, microseconds */
};

static const char *const help =
    "bad_line: two ends of a stream in one process, over a simulated line that loses, repeats and reorders datagrams.\n"
    "The hub sends samples or a file, the gateway checks every byte that it reads.\n"
    "\n"
    "  --file PATH      send this file (else samples)\n"
    "  --bytes N        so many bytes of samples; 1,000,000\n"
    "  --both           the gateway sends as much to the hub at the same time\n"
    "  --loss P         percent of the datagrams that the line loses; 5\n"
    "  --repeat P       percent that come twice; 2\n"
    "  --reorder P      percent that are held back, so that later ones overtake them; 10\n"
    "  --delay MS       milliseconds from one end to the other; 20\n"
    "  --seed N         of the line's chances: the same seed gives the same run; 1\n"
    "  --log FILE       write every event to FILE\n"
    "  --limit SECONDS  stop with status 1 after so many seconds of wall clock\n"
    "  --help           print these lines\n"
    "\n"
    "Numbers may have separators: 1_000_000 or 1,000,000.\n"
    "Status: 0 when every byte arrived, 1 when not, 2 when an option is wrong.\n";

/* A digit's value, or 10. A separator counts only between two digits. */
static unsigned digit(const char *text, size_t at) {
    return text[at] >= '0' && text[at] <= '9' ? (unsigned)(text[at] - '0') : 10;
}

static int is_separator(const char *text, size_t at) {
    return (text[at] == '_' || text[at] == ',') && at > 0 && digit(text, at - 1) < 10 && digit(text, at + 1) < 10;
}

/* A number that is too large saturates, for the caller to refuse. */
static uint64_t times_ten_plus(uint64_t value, unsigned last) {
    return value > (UINT64_MAX - last) / 10 ? UINT64_MAX : 10 * value + last;
}

/* The whole number at the front of text, and where it ends: 0 if there is none. */
static size_t parse_whole(const char *text, uint64_t *value) {
    size_t at = 0;
    for (*value = 0; digit(text, at) < 10 || is_separator(text, at); at++)
        if (digit(text, at) < 10)
            *value = times_ten_plus(*value, digit(text, at));
    return at;
}

/* Up to six decimals after a point; returns where they end, or 0 if there are none or more. */
static size_t parse_decimals(const char *text, size_t at, uint64_t *value) {
    size_t from = ++at;
    uint64_t unit = MILLIONTHS;
    for (*value = 0; digit(text, at) < 10 && unit > 1; at++) {
        unit /= 10;
        *value += unit * digit(text, at);
    }
    return at == from || digit(text, at) < 10 ? 0 : at;
}

/* A number from 0 to most, whole or in millionths. */
static uint64_t parse_number(const char *name, const char *text, int decimal, uint64_t most) {
    uint64_t whole, part = 0, unit = decimal ? MILLIONTHS : 1;
    size_t end = parse_whole(text, &whole);
    if (end > 0 && decimal && text[end] == '.')
        end = parse_decimals(text, end, &part);
    if (end == 0 || text[end] != 0)
        die(BAD_USE, "%s %s: not a %s", name, text, decimal ? "number with up to six decimals" : "whole number");
    if (whole > most || (whole == most && part > 0))
        die(BAD_USE, "%s %s: more than %" PRIu64, name, text, most);
    return whole * unit + part;
}

/* One option: a flag, a text, or a number up to most. */
enum kind { FLAG, TEXT, WHOLE, DECIMAL };

struct option_row {
    const char *name;
    enum kind kind;
    void *value;
    uint64_t most;
};

/* Returns how many words of the command line the option takes. */
static int parse_option(const struct option_row *row, const char *value) {
    if (row->kind == FLAG) {
        *(int *)row->value = 1;
        return 1;
    }
    if (!value)
        die(BAD_USE, "%s: its value is missing", row->name);
    if (row->kind == TEXT)
        *(const char **)row->value = value;
    else
        *(uint64_t *)row->value = parse_number(row->name, value, row->kind == DECIMAL, row->most);
    return 2;
}

static const struct option_row *find_row(const struct option_row *rows, size_t count, const char *name) {
    for (size_t i = 0; i < count; i++)
        if (strcmp(rows[i].name, name) == 0)
            return &rows[i];
    die(BAD_USE, "%s: unknown option, see --help", name);
}

/* Wrong options end the program here. */
static struct options parse_options(int count, char **words) {
    const uint64_t unset = UINT64_MAX;
    int help_asked = 0;
    struct options o = {NULL, unset, 0, 5 * MILLIONTHS, 2 * MILLIONTHS, 10 * MILLIONTHS, 20 * MILLIONTHS, 1, NULL, UINT64_MAX};
    const struct option_row rows[] = {
        {"--file", TEXT, &o.file, 0},
        {"--bytes", WHOLE, &o.bytes, 1000000000000},
        {"--both", FLAG, &o.both, 0},
        {"--loss", DECIMAL, &o.loss, 100},
        {"--repeat", DECIMAL, &o.repeat, 100},
        {"--reorder", DECIMAL, &o.reorder, 100},
        {"--delay", DECIMAL, &o.delay, 60000},
        {"--seed", WHOLE, &o.seed, 1000000000000000000},
        {"--log", TEXT, &o.log, 0},
        {"--limit", DECIMAL, &o.limit, 1000000},
        {"--help", FLAG, &help_asked, 0},
    };
    for (int i = 1; i < count;)
        i += parse_option(find_row(rows, sizeof rows / sizeof *rows, words[i]), i + 1 < count ? words[i + 1] : NULL);
    if (help_asked) {
        fputs(help, stdout);
        finish_output();
        exit(0);
    }
    if (o.file && o.bytes != unset)
        die(BAD_USE, "--bytes is for samples: a file is sent whole");
    if (o.bytes == unset)
        o.bytes = 1000000;
    return o;
}

#endif
