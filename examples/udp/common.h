/*
 * What hub, gateway and relay share: messages, options, the clock, signals, sockets and the progress line.
 * Include it first: it makes the system headers declare POSIX and ppoll.
 */
#ifndef UDP_COMMON_H
#define UDP_COMMON_H

#define _GNU_SOURCE

#include <arpa/inet.h>
#include <errno.h>
#include <fcntl.h>
#include <inttypes.h>
#include <netinet/in.h>
#include <poll.h>
#include <signal.h>
#include <stdarg.h>
#include <stdbool.h>
#include <stdio.h>
#include <stdlib.h>
#include <string.h>
#include <sys/socket.h>
#include <time.h>
#include <unistd.h>

#define MILLISECOND UINT64_C(1000000)
#define SECOND UINT64_C(1000000000)
#define NEVER UINT64_MAX

enum { STATUS_FAILED = 1, STATUS_USAGE = 2 };

/* MESSAGES: one line each on standard error, with the program's name in front. */

static const char *program_name = "?";
static bool progress_stands; /* the terminal's cursor is after a progress line */

static inline void complain_with(const char *format, va_list arguments) {
    fprintf(stderr, "%s%s: ", progress_stands ? "\n" : "", program_name);
    progress_stands = false;
    vfprintf(stderr, format, arguments);
    fputc('\n', stderr);
}

static inline void complain(const char *format, ...) {
    va_list arguments;
    va_start(arguments, format);
    complain_with(format, arguments);
    va_end(arguments);
}

_Noreturn static inline void die(int status, const char *format, ...) {
    va_list arguments;
    va_start(arguments, format);
    complain_with(format, arguments);
    va_end(arguments);
    exit(status);
}

/* Flushes the output; a closed pipe or a full disk ends the program. */
static inline void flush_output(void) {
    if (fflush(stdout) != 0 || ferror(stdout))
        die(STATUS_FAILED, "standard output: %s", strerror(errno));
}

/* CLOCK: nanoseconds that never run backwards, as the engine requires. */

static inline uint64_t now(void) {
    struct timespec t;
    clock_gettime(CLOCK_MONOTONIC, &t);
    return (uint64_t)t.tv_sec * SECOND + (uint64_t)t.tv_nsec;
}

static inline double seconds_since(uint64_t start) { return (double)(now() - start) / 1e9; }

/* PROGRESS: rewritten in place on a terminal; elsewhere a line every two seconds. */

static inline bool progress_is_due(void) {
    static uint64_t next;
    if (now() < next)
        return false;
    next = now() + (isatty(STDERR_FILENO) ? 100 * MILLISECOND : 2 * SECOND);
    return true;
}

static inline void show_progress(const char *text) {
    progress_stands = isatty(STDERR_FILENO);
    if (progress_stands)
        fprintf(stderr, "\r\033[K%s: %s", program_name, text);
    else
        fprintf(stderr, "%s: %s\n", program_name, text);
}

static inline void end_progress(void) {
    if (progress_stands)
        fputc('\n', stderr);
    progress_stands = false;
}

/* SIGNALS: SIGINT and SIGTERM ask a program to end; its loop checks the flag. */

static volatile sig_atomic_t stop_asked;

static inline void ask_to_stop(int number) {
    (void)number;
    stop_asked = 1;
}

/*
 * Waits for a datagram at one of the sockets, until the instant, or for a signal. A signal between the check of the flag and the wait would
 * be missed, so signals are let in only inside ppoll, which also counts in nanoseconds, as the engine's deadline does.
 */
static inline void wait_for_datagram(struct pollfd *sockets, nfds_t count, uint64_t until) {
    uint64_t clock = now(), span = until > clock ? until - clock : 0;
    struct timespec limit = {.tv_sec = (time_t)(span / SECOND), .tv_nsec = (long)(span % SECOND)};
    sigset_t stops, before;
    sigemptyset(&stops);
    sigaddset(&stops, SIGINT);
    sigaddset(&stops, SIGTERM);
    sigprocmask(SIG_BLOCK, &stops, &before);
    if (!stop_asked && ppoll(sockets, count, until == NEVER ? NULL : &limit, &before) < 0 && errno != EINTR)
        die(STATUS_FAILED, "ppoll: %s", strerror(errno));
    sigprocmask(SIG_SETMASK, &before, NULL);
}

/* OPTIONS: one table serves the parser and the help. */

enum option_kind { WHOLE, PERCENT, TEXT };

struct option {
    const char *name, *operand, *help;
    enum option_kind kind;
    void *to;             /* uint64_t, double or const char *, by kind; it holds the default */
    uint64_t least, most; /* of a whole number */
};

static inline void print_help(const char *about, const struct option *options, size_t count) {
    fputs(about, stdout);
    for (size_t i = 0; i < count; i++)
        printf("  --%-8s %-11s %s\n", options[i].name, options[i].operand, options[i].help);
    printf("  --%-8s %-11s %s\n", "help", "", "this text");
    flush_output();
}

static inline void parse_operand(const struct option *o, const char *text) {
    char *end = NULL;
    bool is_number = text[0] != 0 && strspn(text, "0123456789.") == strlen(text);
    errno = 0;
    if (o->kind == TEXT) {
        *(const char **)o->to = text;
    } else if (o->kind == WHOLE) {
        uint64_t value = strtoull(text, &end, 10);
        if (!is_number || *end != 0 || errno != 0 || value < o->least || value > o->most)
            die(STATUS_USAGE, "--%s: '%s' is not a whole number from %" PRIu64 " to %" PRIu64, o->name, text, o->least, o->most);
        *(uint64_t *)o->to = value;
    } else {
        double value = strtod(text, &end);
        if (!is_number || *end != 0 || errno != 0 || value > 100)
            die(STATUS_USAGE, "--%s: '%s' is not a percentage from 0 to 100", o->name, text);
        *(double *)o->to = value;
    }
}

static inline const struct option *find_option(const char *argument, const struct option *options, size_t count) {
    for (size_t i = 0; i < count; i++)
        if (strncmp(argument, "--", 2) == 0 && strcmp(argument + 2, options[i].name) == 0)
            return &options[i];
    die(STATUS_USAGE, "unknown option '%s' (--help lists them)", argument);
}

static inline void parse_options(int argc, char **argv, const char *about, const struct option *options, size_t count) {
    for (int i = 1; i < argc; i += 2) {
        if (strcmp(argv[i], "--help") == 0) {
            print_help(about, options, count);
            exit(0);
        }
        const struct option *o = find_option(argv[i], options, count);
        if (i + 1 == argc)
            die(STATUS_USAGE, "--%s needs %s", o->name, o->operand);
        parse_operand(o, argv[i + 1]);
    }
}

/* A closed standard stream is opened first: else a socket would get its number, and printf would write to the socket. */
static inline void fill_standard_streams(void) {
    bool has_output = fcntl(STDOUT_FILENO, F_GETFD) >= 0;
    int filler;
    do
        filler = open("/dev/null", O_RDWR);
    while (filler >= 0 && filler <= STDERR_FILENO);
    if (filler >= 0)
        close(filler);
    if (!has_output)
        die(STATUS_FAILED, "standard output is closed");
}

/* First call of each main. */
static inline void start_program(const char *name) {
    struct sigaction action = {.sa_handler = ask_to_stop};
    program_name = name;
    fill_standard_streams();
    sigaction(SIGINT, &action, NULL);
    sigaction(SIGTERM, &action, NULL);
    signal(SIGPIPE, SIG_IGN); /* a write then fails with EPIPE, and flush_output says so */
}

/* SOCKETS: UDP on 127.0.0.1, never blocking. */

static inline struct sockaddr_in local_address(uint64_t port) {
    struct sockaddr_in a = {.sin_family = AF_INET, .sin_port = htons((uint16_t)port)};
    a.sin_addr.s_addr = htonl(INADDR_LOOPBACK);
    return a;
}

static inline int open_socket(void) {
    int s = socket(AF_INET, SOCK_DGRAM, 0);
    if (s < 0 || fcntl(s, F_SETFL, O_NONBLOCK) < 0)
        die(STATUS_FAILED, "socket: %s", strerror(errno));
    return s;
}

/* A socket bound to the port, or to any free one if it is 0. */
static inline int bind_to(uint64_t port) {
    struct sockaddr_in a = local_address(port);
    int s = open_socket();
    if (bind(s, (struct sockaddr *)&a, sizeof a) < 0)
        die(STATUS_FAILED, "port %" PRIu64 ": %s", port, strerror(errno));
    return s;
}

/* The first line of a program that listens: whoever starts it reads the port there. */
static inline void print_port(int socket) {
    struct sockaddr_in a;
    socklen_t length = sizeof a;
    if (getsockname(socket, (struct sockaddr *)&a, &length) < 0)
        die(STATUS_FAILED, "getsockname: %s", strerror(errno));
    printf("%s: listening at port %d\n", program_name, ntohs(a.sin_port));
    flush_output();
}

/* A socket that sends to the port and receives only what comes from there. */
static inline int connect_to(uint64_t port) {
    struct sockaddr_in a = local_address(port);
    int s = open_socket();
    if (connect(s, (struct sockaddr *)&a, sizeof a) < 0)
        die(STATUS_FAILED, "port %" PRIu64 ": %s", port, strerror(errno));
    return s;
}

/*
 * Sends one datagram; the address is NULL for a connected socket. False: it was not sent, which a stream repairs like any other loss.
 * ECONNREFUSED means that nobody listened when an earlier datagram arrived. This one was not sent then: it is tried again.
 */
static inline bool send_datagram(int socket, const struct sockaddr_in *to, const uint8_t *bytes, size_t length) {
    for (int tries = 0; tries < 2; tries++) {
        if (sendto(socket, bytes, length, 0, (const struct sockaddr *)to, to ? sizeof *to : 0) >= 0)
            return true;
        if (errno != ECONNREFUSED && errno != EINTR)
            break;
    }
    if (errno != ECONNREFUSED && errno != EINTR && errno != EAGAIN && errno != EWOULDBLOCK && errno != ENOBUFS)
        die(STATUS_FAILED, "sendto: %s", strerror(errno));
    return false;
}

/* The length of the next pending datagram, or -1 if there is none. */
static inline ssize_t receive_datagram(int socket, struct sockaddr_in *from, uint8_t *buf, size_t room) {
    for (;;) {
        socklen_t length = sizeof *from;
        ssize_t count = recvfrom(socket, buf, room, 0, (struct sockaddr *)from, &length);
        if (count >= 0)
            return count;
        if (errno == EAGAIN || errno == EWOULDBLOCK)
            return -1;
        if (errno != ECONNREFUSED && errno != EINTR) /* the other side is not there yet: no reason to end */
            die(STATUS_FAILED, "recvfrom: %s", strerror(errno));
    }
}

#endif
