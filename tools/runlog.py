"""The log of a run, as the examples write it with --log: what was sent, lost, came and was refused, and the numbers of both ends."""
from dataclasses import dataclass, field
from typing import NamedTuple

import cli

FIRST_LINE = "udx-log 1"
HEADER_BYTES = 20
MOST_BYTES = 64 << 20  # a log without end is refused, not read
REFUSALS = 17
FIELDS = {
    "sent": ("end", "datagram", "kind", "number", "bytes"),
    "lost": ("end", "datagram"),
    "came": ("end", "datagram"),
    "refused": ("end", "datagram", "refusal"),
    "numbers": ("end", "window", "inflight", "rto"),
    "timeout": ("end",),
    "failed": ("end",),
}


class Wrong(Exception):
    """What is wrong with a line."""


class Arrival(NamedTuple):
    time: int
    refusal: int  # 0 where it was accepted


@dataclass
class Datagram:
    end: int  # the sender
    kind: str  # data or state
    number: int  # a data packet's seq, a state packet's ack
    size: int
    sent: int
    stream: int  # of which pair of streams it is, from 0
    again: bool  # a data packet that was sent before
    lost: bool = False
    arrivals: list = field(default_factory=list)  # none, one, or more where the line repeats it

    def last_time(self):
        return max([self.sent] + [a.time for a in self.arrivals])

    def payload(self):
        return max(0, self.size - HEADER_BYTES) if self.kind == "data" else 0


class Numbers(NamedTuple):
    time: int
    window: int
    inflight: int
    rto: int


class Mark(NamedTuple):
    time: int
    end: int


@dataclass
class Run:
    datagrams: list = field(default_factory=list)
    numbers: tuple = field(default_factory=lambda: ([[]], [[]]))  # of end 0 and end 1: a list for each stream, up to where it ends
    timeouts: list = field(default_factory=list)
    failures: list = field(default_factory=list)
    first: int = 0
    last: int = 0


class Reader:
    """Takes the events of a log in and holds each to the ones before it."""

    def __init__(self):
        self.run = Run()
        self.packets = set()  # all that were sent
        self.events = 0

    def take(self, words):
        time = natural("time", words[0])
        if self.events and time < self.run.last:
            raise Wrong(f"the time is {time}, before {self.run.last} of the line above")
        if len(words) < 2 or words[1] not in FIELDS:
            said = cli.quoted(words[1]) if len(words) > 1 else "nothing"
            raise Wrong(f"behind the time stands {said}, and not {cli.listed(list(FIELDS), 'or')}")
        names, given = FIELDS[words[1]], words[2:]
        if len(given) != len(names):
            count = f"{'is' if len(given) == 1 else 'are'} {len(given)}"
            raise Wrong(f"{words[1]} has {cli.listed(names, 'and')} behind it, {len(names)} in all, and here {count}")
        values = [given_value(n, w) for n, w in zip(names, given)]
        getattr(self, words[1])(time, *values)
        self.run.first = self.run.first if self.events else time
        self.run.last = time
        self.events += 1

    def sent(self, time, end, datagram, kind, number, size):
        if datagram != len(self.run.datagrams):
            raise Wrong(f"datagram {datagram} is sent, and the next one is {len(self.run.datagrams)}")
        stream = len(self.run.failures)
        packet = stream, end, kind, number
        again = kind == "data" and packet in self.packets
        self.packets.add(packet)
        self.run.datagrams.append(Datagram(end, kind, number, size, time, stream, again))

    def lost(self, time, end, datagram):
        d = self.on_the_line(datagram, sender=end)
        if d.lost or d.arrivals:
            raise Wrong(f"datagram {datagram} is lost, and it {'is lost already' if d.lost else 'has come'}")
        d.lost = True

    def came(self, time, end, datagram):
        d = self.on_the_line(datagram, sender=1 - end)
        if d.lost:
            raise Wrong(f"datagram {datagram} comes, and it was lost")
        d.arrivals.append(Arrival(time, 0))

    def refused(self, time, end, datagram, refusal):
        """The refusal of the arrival in the line before; without one it tells of an arrival by itself."""
        d = self.on_the_line(datagram, sender=1 - end)
        if d.arrivals and d.arrivals[-1] == Arrival(time, 0):
            d.arrivals.pop()
        elif d.lost:
            raise Wrong(f"datagram {datagram} is refused, and it was lost")
        d.arrivals.append(Arrival(time, refusal))

    def numbers(self, time, end, window, inflight, rto):
        self.run.numbers[end][-1].append(Numbers(time, window, inflight, rto))

    def timeout(self, time, end):
        self.run.timeouts.append(Mark(time, end))

    def failed(self, time, end):
        """The next pair of streams starts with packet 0 again, and with fresh numbers."""
        self.run.failures.append(Mark(time, end))
        self.end_streams(time)

    def end_streams(self, time):
        """The last numbers of the streams hold until now."""
        for streams in self.run.numbers:
            if streams[-1]:
                streams[-1].append(streams[-1][-1]._replace(time=time))
                streams.append([])

    def on_the_line(self, datagram, sender):
        if datagram >= len(self.run.datagrams):
            raise Wrong(f"datagram {datagram} was not sent before")
        d = self.run.datagrams[datagram]
        if d.end != sender:
            raise Wrong(f"datagram {datagram} was sent by end {d.end}, so this is the wrong end")
        return d


def natural(name, word):
    if not (word.isascii() and word.isdigit() and len(word) <= 20):
        raise Wrong(f"the {name} is {cli.quoted(word)}, and not a whole number")
    return int(word)


def given_value(name, word):
    """The value of one field of an event."""
    if name == "kind":
        if word not in ("data", "state"):
            raise Wrong(f"the kind is {cli.quoted(word)}, and not data or state")
        return word
    value = natural(name, word)
    if name == "end" and value > 1:
        raise Wrong(f"the end is {value}, and not 0 or 1")
    if name == "refusal" and not 1 <= value <= REFUSALS:
        raise Wrong(f"the refusal is {value}, and not 1 to {REFUSALS}")
    return value


def lines_of(data):
    """The lines with their numbers, without comments and blank ones."""
    for number, raw in enumerate(data.decode("utf-8", "replace").split("\n"), 1):
        line = raw.strip()
        if line and not line.startswith("#"):
            yield number, line


def read(name):
    """The run of a log file, or of standard input."""
    shown = cli.shown_name(name)
    data = cli.read(name, MOST_BYTES)
    if len(data) > MOST_BYTES:
        raise cli.Refused(f"{shown}: over {MOST_BYTES:,} bytes of log")
    lines = lines_of(data)
    number, line = next(lines, (1, ""))
    if line != FIRST_LINE:
        raise cli.WrongLines(f"{shown}:{number}: a log starts with the line `{FIRST_LINE}`, and here is {cli.quoted(line)}")
    reader = Reader()
    for number, line in lines:
        try:
            reader.take(line.split())
        except Wrong as e:
            raise cli.WrongLines(f"{shown}:{number}: {e}")
    if not reader.run.datagrams:
        raise cli.WrongLines(f"{shown}:{number}: the log ends here, and nothing was sent")
    reader.end_streams(reader.run.last)
    return reader.run
