/* How the program ends when something is wrong: one line on standard error, and a status. */
#ifndef FAIL_H
#define FAIL_H

#include <errno.h>
#include <stdarg.h>
#include <stdio.h>
#include <stdlib.h>
#include <string.h>

enum { FAILED = 1, BAD_USE = 2 };

/* 1 while an unfinished progress line is on the terminal. */
static int progress_line_open;

/* The message starts on a line of its own. */
__attribute__((format(printf, 2, 3))) static _Noreturn void die(int status, const char *format, ...) {
    va_list values;
    fprintf(stderr, "%sbad_line: ", progress_line_open ? "\n" : "");
    va_start(values, format);
    vfprintf(stderr, format, values);
    va_end(values);
    fputc('\n', stderr);
    exit(status);
}

/* What was printed counts only once it has left the buffer. */
static void finish_output(void) {
    if (fflush(stdout) != 0 || ferror(stdout))
        die(FAILED, "standard output: %s", strerror(errno));
}

#endif
