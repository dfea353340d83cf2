/*
 * 01's session through udx.h: ends 0 (id 1) and 1 (id 2), and the last 32 datagrams that each has taken. The includer defines
 * EXPECT(condition).
 */
static udx_end ends[2];
static uint8_t batch[UDX_TAKE_ROOM];
static uint8_t kept[2][32][UDX_MAX_DATAGRAM];
static size_t kept_length[2][32], kept_count[2];

static uint64_t operand(const uint8_t *p, int width) {
    uint64_t v = 0;
    while (width-- > 0)
        v = v << 8 | p[width];
    return v;
}

/* The lines so far: text, its length and its room. */
struct lines {
    char *text;
    size_t length, room;
};

static void put(struct lines *l, const char *piece) {
    size_t n = strlen(piece);
    if (n >= l->room - l->length)
        n = l->room - l->length - 1;
    memcpy(l->text + l->length, piece, n);
    l->length += n;
    l->text[l->length] = 0;
}

static void put_answer(struct lines *l, const char *command, int end, udx_answer a) {
    static const char *const names[4] = {"ok", "wait", "done", "none"};
    char outcome[8], piece[64];
    if (a.outcome < UDX_REFUSED)
        strcpy(outcome, names[a.outcome]);
    else
        sprintf(outcome, "%d", a.refusal);
    sprintf(piece, "%s %d %s %u", command, end, outcome, (unsigned)a.count);
    put(l, piece);
}

static void put_bytes(struct lines *l, const uint8_t *bytes, size_t count) {
    char piece[3];
    put(l, count ? " " : " -");
    for (size_t i = 0; i < count; i++) {
        sprintf(piece, "%02x", bytes[i]);
        put(l, piece);
    }
}

static void keep(int end, const uint8_t *datagram, size_t length) {
    if (kept_count[end] == 32) {
        memmove(kept[end][0], kept[end][1], sizeof kept[end] - sizeof kept[end][0]);
        memmove(&kept_length[end][0], &kept_length[end][1], sizeof kept_length[end] - sizeof kept_length[end][0]);
        kept_count[end]--;
    }
    memcpy(kept[end][kept_count[end]], datagram, length);
    kept_length[end][kept_count[end]++] = length;
}

/* Takes a batch; what look showed before it is its first datagram. */
static udx_answer take_and_keep(int end) {
    udx_end *e = &ends[end];
    size_t shown;
    const uint8_t *next = udx_end_look(e, &shown);
    uint8_t first[UDX_MAX_DATAGRAM];
    memcpy(first, next, shown);
    udx_answer a = udx_end_take(e, batch, sizeof batch);
    size_t step = a.segment ? a.segment : a.count;
    /* a batch whose packets have all left is empty, and look has shown a later datagram */
    EXPECT(a.count == 0 || (shown == step && memcmp(first, batch, shown) == 0));
    for (size_t i = 0; i < a.count; i += step)
        keep(end, batch + i, step);
    return a;
}

/* Whether the command at p, with this many bytes left, can be run; if not, the run ends. */
static int runs(const uint8_t *p, size_t left) {
    static const size_t widths[7] = {0, 4, 9, 1, 11, 3, 1};
    if (p[0] < 1 || p[0] > 6 || left <= widths[p[0]] || p[1] > 1)
        return 0;
    if (p[0] == 4 && operand(p + 2, 2) >= kept_count[1 - p[1]])
        return 0;
    return p[0] != 5 || operand(p + 2, 2) <= 4096;
}

/* Runs one command, puts its line without the newline, and returns how many bytes the command has. */
static size_t run_command(struct lines *l, const uint8_t *p) {
    static uint8_t bytes[65536];
    int end = p[1];
    udx_end *e = &ends[end];
    switch (p[0]) {
    case 1:
        memset(bytes, p[4], sizeof bytes);
        put_answer(l, "write", end, udx_end_write(e, bytes, (size_t)operand(p + 2, 2)));
        return 5;
    case 2:
        put_answer(l, "drive", end, udx_end_drive(e, operand(p + 2, 8)));
        return 10;
    case 3:
        put_answer(l, "take", end, take_and_keep(end));
        return 2;
    case 4: {
        size_t n = (size_t)operand(p + 2, 2);
        put_answer(l, "hand", end, udx_end_deliver(e, kept[1 - end][n], kept_length[1 - end][n], operand(p + 4, 8)));
        return 12;
    }
    case 5: {
        udx_answer a = udx_end_read(e, bytes, (size_t)operand(p + 2, 2));
        put_answer(l, "read", end, a);
        put_bytes(l, bytes, a.count);
        return 4;
    }
    default:
        put_answer(l, "close", end, udx_end_close(e));
        return 2;
    }
}

/* The lines of a script. */
static void session(const uint8_t *script, size_t length, char *text, size_t room) {
    struct lines l = {text, 0, room};
    text[0] = 0;
    udx_end_open(&ends[0], 1, 2, 10, 0);
    udx_end_open(&ends[1], 2, 1, 10, 0);
    kept_count[0] = kept_count[1] = 0;
    for (size_t at = 0; at < length;) {
        if (!runs(script + at, length - at)) {
            char piece[32];
            sprintf(piece, "script %u\n", (unsigned)at);
            put(&l, piece);
            return;
        }
        at += run_command(&l, script + at);
        put(&l, "\n");
    }
}
