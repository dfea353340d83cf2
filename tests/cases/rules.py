#!/usr/bin/env python3
"""Writes crates/rules_test/stdin and stdout: records at and past the limit of every rule of 01, with the answer that 01 gives.

Each case says by its label whether the rule is kept (`at`) or broken (`past`); `keeps` below is 01's list of rules, written down once
more from its sentences, and has to agree with every label. Run it from anywhere: python3 tests/cases/rules.py; with --check it writes
nothing and fails where the files are others.
"""
import copy
import pathlib
import sys

HERE = pathlib.Path(__file__).resolve().parent.parent.parent / "crates" / "rules_test"
TOP = 4_294_967_295
CLOCK_END = 2**60
NUMBERS = {
    "segments": 16, "seq": 17, "remote_acked": 18, "largest_ack": 19, "inflight": 20, "cwnd": 21, "ack": 22, "read_cursor": 23,
    "top": 24, "count": 25, "left": 26, "states": 27, "gone": 28, "srtt": 29, "rttvar": 30, "rto": 31, "last": 32, "drive": 33,
    "inflight_packets": 34, "inflight_bytes": 35,
}
SENT, HELD, QUEUE = 36, 37, 38


def fresh():
    r = dict.fromkeys(NUMBERS, 0)
    r.update(segments=10, cwnd=2_800, rto=1_000_000_000)
    r["stored"] = {}  # number: [length, transmits, waiting, time sent or None]
    r["held"] = {}  # number: [length, offset]
    r["entries"] = []  # "state" or (number, length), all the words
    return r


def counted(r):
    """The sums and counts that follow from the packets."""
    r["inflight"] = sum(p[0] for p in r["stored"].values() if not p[2])
    r["inflight_packets"] = len(r["stored"])
    r["inflight_bytes"] = sum(max(p[0] - 20, 0) for p in r["stored"].values())
    r["count"] = len(r["entries"])
    r["states"] = r["gone"] + sum(x == "state" for x in live(r))
    return r


def live(r):
    entries = (r["entries"] + [(0, 0)] * 128)[: r["count"]]  # a word that was never set is an entry of 0 bytes
    return entries[len(entries) - r["left"] :] if r["left"] else entries


def keeps(r):
    """01, 'Rules of the records', sentence by sentence; then how the records are laid out. A word whose number is not from remote acked
    to below seq is no stored packet, one not from the read cursor to below top is no held one."""
    stored = {n: p for n, p in r["stored"].items() if r["remote_acked"] <= n < r["seq"]}
    held = {n: p for n, p in r["held"].items() if r["read_cursor"] <= n < r["top"]}
    queue = live(r)
    packets = [x for x in queue if x != "state"]
    states = len(queue) - len(packets)
    ok = r["remote_acked"] <= r["seq"] <= r["remote_acked"] + 32
    ok &= r["read_cursor"] <= r["ack"] <= r["read_cursor"] + 32
    ok &= all(r["read_cursor"] <= n < min(r["read_cursor"] + 32, TOP) for n in held)
    ok &= all(21 <= p[0] <= 1_400 for p in stored.values())
    ok &= all(21 <= x[1] <= 1_400 for x in packets)
    ok &= all(p[0] <= 1_380 and p[1] <= p[0] for p in held.values())
    ok &= all(x[0] not in stored or stored[x[0]][0] == x[1] for x in packets)
    ok &= r["largest_ack"] <= r["seq"]
    ok &= 1 <= r["segments"] <= 10
    ok &= r["inflight_packets"] == len(stored)
    ok &= r["inflight_bytes"] == sum(max(p[0] - 20, 0) for p in stored.values())
    ok &= r["inflight"] == sum(p[0] for p in stored.values() if not p[2])
    ok &= r["srtt"] < CLOCK_END and r["rttvar"] < CLOCK_END and 1_000_000_000 <= r["rto"] <= 5 * CLOCK_END
    ok &= all(p[3] is None or p[3] <= r["last"] for p in stored.values())
    ok &= r["drive"] <= r["last"] < CLOCK_END
    ok &= all(p[1] <= 7 for p in stored.values())
    ok &= 1_400 <= r["cwnd"] <= TOP
    if r["left"] == 0:
        numbers = [x[0] for x in packets]
        ok &= len(set(numbers)) == len(numbers) and states <= 63
        ok &= all(r["remote_acked"] <= n < r["seq"] for n in numbers)
    else:
        ok &= len(packets) <= 64 and states <= 64
    ok &= r["read_cursor"] <= r["top"] <= r["read_cursor"] + 32
    ok &= r["left"] <= r["count"] <= 128 and r["states"] <= 64 and r["states"] == r["gone"] + states
    ok &= r["left"] != 0 or r["gone"] == 0
    return ok


def command(op, index=0, value=0):
    return bytes([op, index]) + value.to_bytes(8, "little")


def text(s):
    data = s.encode()
    return b"".join(command(4, len(p), int.from_bytes(p, "little")) for p in (data[i : i + 8] for i in range(0, len(data), 8)))


def sent_word(n, p):
    return n * 2**32 + p[0] * 64 + p[1] * 2 + p[2]


def held_word(n, p):
    return n * 2**32 + (p[0] + 1) * 65_536 + p[1]


def entry_word(x):
    return 20 * 64 + 1 if x == "state" else x[0] * 2**32 + x[1] * 64


def words(r):
    w = {}
    for n, p in r["stored"].items():
        w[SENT, n % 32] = sent_word(n, p)
        w[SENT, 32 + n % 32] = 0 if p[3] is None else p[3] + 1
    for n, p in r["held"].items():
        w[HELD, n % 32] = held_word(n, p)
    for i, x in enumerate(r["entries"][:128]):
        w[QUEUE, i] = entry_word(x)
    return w


def changes(old, new):
    """The commands that turn one set of records into another."""
    out = b""
    for k, op in NUMBERS.items():
        if old[k] != new[k]:
            out += command(op, 0, new[k])
    a, b = words(old), words(new)
    for key in sorted(set(a) | set(b)):
        if a.get(key, 0) != b.get(key, 0):
            out += command(key[0], key[1], b.get(key, 0))
    return out


class Cases:
    def __init__(self):
        self.stdin, self.stdout, self.count = b"", "", 0

    def start(self, base, name):
        assert keeps(base), name
        self.base = base
        self.stdin += command(0) + changes(fresh(), base) + command(1)

    def case(self, label, kept, r):
        assert keeps(r) == kept, (label, kept)
        self.stdin += command(2) + changes(self.base, r) + text(label) + command(3)
        self.stdout += label + (" kept\n" if kept else " broken\n")
        self.count += 1

    def number(self, key, at, past):
        for kept, values in ((True, at), (False, past)):
            for v in values:
                r = copy.deepcopy(self.base)
                r[key] = v
                self.case(f"{key} {v}", kept, r)

    def change(self, label, kept, f, sums=True):
        r = copy.deepcopy(self.base)
        f(r)
        self.case(label, kept, counted(r) if sums else r)


def at_rest():
    """Five stored packets, two held, two state packets and two packets queued."""
    r = fresh()
    r.update(seq=40, remote_acked=35, largest_ack=38, ack=9, read_cursor=8, top=13, last=1_000, drive=900, cwnd=70_000)
    r["stored"] = {35: [1_400, 1, 0, 900], 36: [21, 2, 1, 800], 37: [500, 0, 0, None], 38: [500, 7, 0, 1_000], 39: [60, 0, 0, None]}
    r["held"] = {8: [1_380, 7], 12: [0, 0]}
    r["entries"] = ["state", (37, 500), "state", (39, 60)]
    return counted(r)


def to_take():
    """Everything left to take, some of it gone: packets twice, packets that have left, state packets."""
    r = fresh()
    r.update(seq=34, remote_acked=32, last=50, drive=50, left=5, gone=2)
    r["stored"] = {32: [30, 3, 0, 40], 33: [30, 1, 0, 50]}
    r["entries"] = ["state", "state", (32, 30), (33, 30), (32, 30), "state", (7, 900)]
    r["count"] = 7
    return counted(r)


def main():
    c = Cases()
    c.start(fresh(), "fresh")
    c.case("fresh", True, fresh())
    c.number("segments", [1, 10], [0, 11, 255])
    c.number("cwnd", [1_400, 65_535, TOP], [0, 1_399])
    c.number("srtt", [0, CLOCK_END - 1], [CLOCK_END])
    c.number("rttvar", [CLOCK_END - 1], [CLOCK_END, 2**64 - 1])
    c.number("rto", [1_000_000_000, 5 * CLOCK_END], [999_999_999, 5 * CLOCK_END + 1])
    c.number("last", [1, CLOCK_END - 1], [CLOCK_END, 2**64 - 1])
    c.number("drive", [0], [1])
    c.number("seq", [1, 32], [33, TOP])
    c.number("remote_acked", [], [1, 33])
    c.number("largest_ack", [], [1])
    c.number("inflight", [], [1, 20])
    c.number("inflight_packets", [], [1])
    c.number("inflight_bytes", [], [1])
    c.number("ack", [1, 32], [33])
    c.number("read_cursor", [], [1])
    c.number("top", [1, 32], [33, TOP])
    c.number("count", [], [1, 128, 129])
    c.number("left", [], [1])
    c.number("states", [], [1, 65])
    c.number("gone", [], [1])

    c.start(at_rest(), "at rest")
    c.case("at rest", True, at_rest())
    c.number("remote_acked", [8, 34], [7, 36, 41])
    c.number("seq", [41, 67], [34, 38, 68])
    c.number("largest_ack", [0, 40], [41])
    c.number("inflight", [], [c.base["inflight"] - 1, c.base["inflight"] + 1])
    c.number("inflight_packets", [], [4, 6])
    c.number("inflight_bytes", [], [c.base["inflight_bytes"] - 20, c.base["inflight_bytes"] + 1])
    c.number("ack", [8, 40], [7, 41])
    c.number("read_cursor", [0, 9], [10, 13])
    c.number("top", [40], [7, 41])
    c.number("last", [1_001], [999, 899])
    c.number("drive", [1_000], [1_001])
    c.number("states", [], [1, 3])
    c.number("gone", [], [1])
    c.number("left", [], [3, 5])
    for n, p in at_rest()["stored"].items():
        def queued(r, size, n=n):
            r["stored"][n][0] = size
            r["entries"] = [(n, size) if x != "state" and x[0] == n else x for x in r["entries"]]
        for size, kept in ((20, False), (21, True), (1_400, True), (1_401, False)):
            c.change(f"stored {n} length {size}", kept, lambda r, s=size: queued(r, s))
        for t in (7, 8, 31):
            c.change(f"stored {n} transmits {t}", t <= 7, lambda r, t=t, n=n: r["stored"][n].__setitem__(1, t))
        for t in (1_000, 1_001):
            c.change(f"stored {n} time sent {t}", t <= 1_000, lambda r, t=t, n=n: r["stored"][n].__setitem__(3, t))
        c.change(f"stored {n} waits, inflight as before", p[2] == 1, lambda r, n=n: r["stored"][n].__setitem__(2, 1), sums=False)
        c.change(f"stored {n} gone", True, lambda r, n=n: r["stored"].pop(n))
        c.change(f"stored {n} gone, totals as before", False, lambda r, n=n: r["stored"].pop(n), sums=False)
    for n in (8, 12):
        for size, kept in ((1_380, True), (1_381, False)):
            c.change(f"held {n} length {size}", kept, lambda r, n=n, s=size: r["held"].__setitem__(n, [s, 0]))
        c.change(f"held {n} offset at its length", True, lambda r, n=n: r["held"].__setitem__(n, [100, 100]))
        c.change(f"held {n} offset past its length", False, lambda r, n=n: r["held"].__setitem__(n, [100, 101]))
    for n in (9, 10, 11):
        c.change(f"held {n} too", True, lambda r, n=n: r["held"].__setitem__(n, [5, 5]))
    for size, kept in ((20, False), (21, True), (1_400, True), (1_401, False)):
        def left_store(r, s=size):
            r["stored"].pop(37)
            r["entries"][1] = (37, s)
        c.change(f"queued 37, gone, length {size}", kept, left_store)
    for size in (499, 501):
        c.change(f"queued 37 length {size}", False, lambda r, s=size: r["entries"].__setitem__(1, (37, s)))
    c.change("queued 37 twice", False, lambda r: r["entries"].append((37, 500)))
    for n, kept in ((34, False), (35, True), (40, False)):
        c.change(f"queued {n}", kept, lambda r, n=n: r["entries"].append((n, 1_400)))
    for k in (63, 64):
        c.change(f"{k} state packets", k <= 63, lambda r, k=k: r["entries"].extend(["state"] * (k - 2)))
    c.change("gone with none left to take", False, lambda r: r.update(gone=1))
    c.change("a word numbered seq", True, lambda r: r["stored"].__setitem__(40, [1_401, 8, 0, None]), sums=False)
    c.change("a word numbered top", True, lambda r: r["held"].__setitem__(13, [1_381, 0]), sums=False)

    full = fresh()
    full.update(seq=132, remote_acked=100, ack=200, read_cursor=200, top=232, last=9, drive=9, cwnd=TOP, segments=1)
    full["stored"] = {n: [21 + n, n % 8, n % 2, None if n % 3 else n % 10] for n in range(100, 132)}
    full["held"] = {n: [n, n % 2 * n] for n in range(201, 232)}
    full["entries"] = ["state"] * 63 + [(n, 21 + n) for n in range(131, 99, -1)]
    c.start(counted(full), "full")
    c.case("full", True, full)
    for n in range(100, 132):
        c.change(f"full, stored {n} length 20", False, lambda r, n=n: r["stored"][n].__setitem__(0, 20))
        c.change(f"full, stored {n} transmits 8", False, lambda r, n=n: r["stored"][n].__setitem__(1, 8))
        c.change(f"full, stored {n} sent at 10", False, lambda r, n=n: r["stored"][n].__setitem__(3, 10))
        c.change(f"full, stored {n} sent at 9", True, lambda r, n=n: r["stored"][n].__setitem__(3, 9))
        c.change(f"full, queued {n} again", False, lambda r, n=n: r["entries"].append((n, 21 + n)))
    for n in range(201, 232):
        c.change(f"full, held {n} length 1381", False, lambda r, n=n: r["held"].__setitem__(n, [1_381, 0]))
        c.change(f"full, held {n} offset past", False, lambda r, n=n: r["held"].__setitem__(n, [n, n + 1]))
    c.change("full, one state packet more", False, lambda r: r["entries"].insert(0, "state"))

    c.start(to_take(), "to take")
    c.case("to take", True, to_take())
    c.number("left", [4], [0, 6, 8])
    c.number("count", [], [6, 8])
    c.number("states", [], [2, 4])
    c.number("gone", [], [1, 3])
    many = to_take()
    many.update(gone=0, left=128)
    many["entries"] = ["state"] * 64 + [(32, 30)] * 64
    c.change("64 of each to take", True, lambda r: r.update(copy.deepcopy(many)))
    for k in (63, 65):
        def kinds(r, k=k):
            r.update(gone=0, left=128, entries=["state"] * k + [(32, 30)] * (128 - k))
        c.change(f"{k} state packets of 128 to take", False, kinds)
    for size, kept in ((20, False), (21, True), (1_400, True), (1_401, False)):
        c.change(f"to take, gone, length {size}", kept, lambda r, s=size: r["entries"].__setitem__(6, (7, s)))
    c.change("65 places of state packets", False, lambda r: r.update(gone=1, left=64, entries=["state"] * 65))
    c.change("129 entries", False, lambda r: r.update(gone=0, left=128, entries=[(32, 30)] + ["state"] * 64 + [(32, 30)] * 64))
    c.change("to take, length of another", False, lambda r: r["entries"].__setitem__(3, (33, 31)))

    assert len(c.stdin) <= 65_536, len(c.stdin)
    if sys.argv[1:] == ["--check"]:
        if ((HERE / "stdin").read_bytes(), (HERE / "stdout").read_text()) != (c.stdin, c.stdout):
            sys.exit("crates/rules_test: stdin or stdout is not what tests/cases/rules.py writes")
    else:
        (HERE / "stdin").write_bytes(c.stdin)
        (HERE / "stdout").write_text(c.stdout)
    print(f"{c.count} cases, {len(c.stdin)} bytes, {c.stdout.count('broken')} broken")


main()
