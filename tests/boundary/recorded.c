/*
 * The recorded session scripts (crates/drill_replay/data/scripts.bin, named by the first argument) through udx.h: each line is compared
 * with the original's. Names the first script that differs, and then ends with status 1.
 */
#include "udx.h"
#include <stdio.h>
#include <stdlib.h>
#include <string.h>

static unsigned long failures;
#define EXPECT(condition) ((condition) ? (void)0 : (void)failures++)
#include "session.h"

static uint8_t script[65536];
static char answer[65537], text[131072];

int main(int argc, char **argv) {
    FILE *f = argc > 1 ? fopen(argv[1], "rb") : NULL;
    uint8_t head[9];
    unsigned long run = 0, number = 0;
    if (!f) {
        fprintf(stderr, "recorded: no file of scripts: %s\n", argc > 1 ? argv[1] : "name one");
        return 2;
    }
    size_t got;
    while ((got = fread(head, 1, sizeof head, f)) == sizeof head) {
        size_t n = (size_t)operand(head + 1, 4), m = (size_t)operand(head + 5, 4);
        if (n > sizeof script || m >= sizeof answer || fread(script, 1, n, f) != n || fread(answer, 1, m, f) != m) {
            fprintf(stderr, "recorded: the file is cut short or too large\n");
            return 2;
        }
        answer[m] = 0;
        number++;
        if (head[0] != 0) /* the drill's commands are not a session's */
            continue;
        unsigned long before = failures;
        session(script, n, text, sizeof text);
        EXPECT(strcmp(text, answer) == 0);
        run++;
        if (failures != before && before == 0)
            printf("script %lu differs\n", number);
    }
    fclose(f);
    if (got != 0) {
        fprintf(stderr, "recorded: the file is cut short\n");
        return 2;
    }
    printf("%lu recorded sessions, %lu differ\n", run, failures);
    return failures || run < 500;
}
