"""What a picture shows of a run: its datagrams as lines with a kind and a fate, and the counts in its title."""
from collections import Counter
from typing import NamedTuple

NAMES = ("hub", "gateway")
SECOND = 1_000_000_000
FATES = {
    "came": "came",
    "repeat": "came once more",
    "lost": "lost by the line",
    "refused": "came and was refused",
    "under-way": "still under way",
}


def kind_of(datagram):
    return "state" if datagram.kind == "state" else "again" if datagram.again else "first"


class Flight(NamedTuple):
    """One line of the picture: a datagram, and one of its arrivals where it has any."""

    datagram: object
    fate: str
    arrival: object

    def told(self):
        """In words, for who points at the line."""
        d = self.datagram
        what = f"state packet, ack {d.number}" if d.kind == "state" else f"packet {d.number}{', sent again' if d.again else ''}"
        end = FATES[self.fate]
        if self.arrival:
            end += f" at {seconds(self.arrival.time)} s" + (f" with {self.arrival.refusal}" if self.arrival.refusal else "")
        return f"{what}: {d.size:,} bytes, sent by the {NAMES[d.end]} at {seconds(d.sent)} s, {end}"


def flights_of(datagram):
    if datagram.lost:
        return [Flight(datagram, "lost", None)]
    if not datagram.arrivals:
        return [Flight(datagram, "under-way", None)]
    fates = ["refused" if a.refusal else "repeat" if i else "came" for i, a in enumerate(datagram.arrivals)]
    return [Flight(datagram, f, a) for f, a in zip(fates, datagram.arrivals)]


class Gap(NamedTuple):
    """The time from the loss of packets until they came."""

    start: int
    stop: int
    numbers: tuple


def gaps_of(run, sender):
    """When lost packets of an end were missing at the other; times that overlap are one gap."""
    lost, came = {}, {}
    for d in run.datagrams:
        if d.end == sender and d.kind == "data":
            packet = d.stream, d.number
            if d.lost:
                lost.setdefault(packet, d.sent)
            for a in d.arrivals:
                if not a.refusal:
                    came[packet] = min(a.time, came.get(packet, a.time))
    ends = [m.time for m in run.failures] + [run.last]
    gaps = [Gap(time, came.get(p, ends[p[0]]), (p[1],)) for p, time in lost.items()]
    return joined_gaps(sorted(g for g in gaps if g.start < g.stop))


def joined_gaps(gaps):
    joined = []
    for gap in gaps:
        if joined and gap.start <= joined[-1].stop:
            last = joined.pop()
            gap = Gap(last.start, max(last.stop, gap.stop), last.numbers + gap.numbers)
        joined.append(gap)
    return joined


class Part:
    """The part of a run from one time to another."""

    def __init__(self, run, start, stop):
        self.run, self.start, self.stop = run, start, stop
        self.whole = start <= run.first and run.last <= stop
        self.datagrams = [d for d in run.datagrams if d.sent <= stop and d.last_time() >= start]
        self.flights = [f for d in self.datagrams for f in flights_of(d)]
        self.timeouts = [m for m in run.timeouts if start <= m.time <= stop]
        self.failures = [m for m in run.failures if start <= m.time <= stop]
        self.senders = [e for e in (0, 1) if any(d.end == e and d.kind == "data" for d in run.datagrams)] or [0]

    def numbers(self):
        """All numbers of the senders that hold at some time of the part."""
        streams = [stream for end in self.senders for stream in self.run.numbers[end]]
        return [a for s in streams for a, b in zip(s, s[1:]) if a.time <= self.stop and b.time >= self.start]

    def gaps(self, sender):
        return [g for g in gaps_of(self.run, sender) if g.start <= self.stop and g.stop >= self.start]

    def summary(self):
        """Bytes, packets, resends, losses and seconds."""
        kinds = Counter(kind_of(d) for d in self.datagrams)
        payload = sum(d.payload() for d in self.datagrams if kind_of(d) == "first")
        told = [
            f"{payload:,} bytes in {counted(kinds['first'], 'packet')}",
            f"{kinds['again']:,} sent again",
            f"{sum(d.lost for d in self.datagrams):,} of {counted(len(self.datagrams), 'datagram')} lost",
        ]
        if self.failures:
            told.append(f"{counted(len(self.failures), 'stream')} failed")
        if self.whole:
            return ", ".join(told + [f"{seconds(self.stop - self.start)} s"])
        return ", ".join(told) + f", from {seconds(self.start)} to {seconds(self.stop)} s of {seconds(self.run.last)} s"


def counted(count, noun):
    return f"{count:,} {noun}" + ("" if count == 1 else "s")


def in_unit(value, size):
    """value / size in decimal, exact and without needless zeros; size is a power of ten."""
    whole, rest = divmod(value, size)
    digits = str(rest).rjust(len(str(size)) - 1, "0").rstrip("0") if rest else ""
    return f"{whole:,}" + (f".{digits}" if digits else "")


def seconds(time):
    """To the millisecond, or exact where that would be 0."""
    rounded = (time + 500_000) // 1_000_000
    return f"{rounded / 1000:,.3f}" if rounded else in_unit(time, SECOND)


def usual_delays(run):
    """The median time of flight from each end, for datagrams that never came."""
    delays = ([], [])
    for d in run.datagrams:
        delays[d.end].extend(a.time - d.sent for a in d.arrivals[:1])
    medians = [sorted(d)[len(d) // 2] if d else None for d in delays]
    guess = next((m for m in medians if m is not None), (run.last - run.first) // 50)
    return [guess if m is None else m for m in medians]
