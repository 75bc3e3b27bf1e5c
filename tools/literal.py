"""How long the streams of a traffic can wait, worked out literally from the definition, over all phases.

It shares nothing with the engine and takes none of its short cuts. Times are bit times.
Run by itself it holds the worked examples against their known figures.
"""

from bisect import bisect_right
from dataclasses import dataclass
from math import lcm

NODES = 16
HORIZON = 4_194_304
UNSETTLED = "unsettled"


def longest_frame(data_bytes):
    """The longest that a data frame can be on the wire, intermission included."""
    return 55 + 10 * data_bytes


@dataclass
class Stream:
    node: int
    identifier: int
    longest: int


class Traffic:
    """Streams, numbered from 0. Each kind says its cycles, its reach, and its places in two parts: the first place at a
    phase, and how much later than the first that of another instance is."""

    def __init__(self, streams):
        self.streams = streams
        self._later = [[] for _ in streams]

    def cycle(self, node):
        raise NotImplementedError

    def reach(self):
        raise NotImplementedError

    def first(self, stream, phase):
        raise NotImplementedError

    def later(self, stream, instance):
        raise NotImplementedError

    def place(self, stream, phase, instance):
        return self.first(stream, phase) + self.later(stream, instance)

    def laters(self, stream, length):
        """`later` of the instances 1, 2, .., as far as one that is above `length`. Each is above the one before."""
        listed = self._later[stream]
        while not listed or listed[-1] <= length:
            listed.append(self.later(stream, len(listed) + 1))
        return listed

    def count(self, stream, phase, window):
        """How many instances have a place of at most `window` at the phase."""
        length = window - self.first(stream, phase)
        return bisect_right(self.laters(stream, length), length)


@dataclass
class Message:
    """A message is timed (period and offset), sporadic (an event gap) or both."""

    identifier: int
    node: int
    data_bytes: int
    timed: tuple = None
    event: int = None
    jitter: int = 0
    due: int = 4_194_304


class Plan(Traffic):
    """Declared messages. A message's timed stream comes before its event stream."""

    def __init__(self, messages):
        self.messages = messages
        self.parts = []
        for message in messages:
            if message.timed is not None:
                self.parts.append((message, True))
            if message.event is not None:
                self.parts.append((message, False))
        super().__init__([Stream(m.node, m.identifier, longest_frame(m.data_bytes)) for m, _ in self.parts])

        self.cycles = [lcm(*[m.timed[0] for m in messages if m.timed is not None and m.node == node]) for node in range(NODES)]

    def cycle(self, node):
        return self.cycles[node]

    def reach(self):
        return max([m.jitter for m in self.messages], default=0)

    def first(self, stream, phase):
        message, is_timed = self.parts[stream]
        if not is_timed:
            return -message.jitter
        # the least d, not below -jitter, for which phase + d - offset is a multiple of the period
        period, offset = message.timed
        return -message.jitter + (offset - phase + message.jitter) % period

    def later(self, stream, instance):
        message, is_timed = self.parts[stream]
        return (instance - 1) * (message.timed[0] if is_timed else message.event)


@dataclass
class Sender:
    """A measured sender: s(2) to s(8) are the least that 2 to 8 arrivals in a row lie apart."""

    node: int
    identifier: int
    data_bytes: int
    jitter: int
    spans: list

    def span(self, arrivals):
        if arrivals == 1:
            return 0
        if arrivals <= 8:
            return self.spans[arrivals - 2]
        turns = (arrivals - 2) // 7
        return self.span(arrivals - 7 * turns) + turns * self.spans[6]

    def refusals(self):
        """The numbers of the limits that the sender does not keep."""
        rising = all(a < b for a, b in zip([0] + self.spans, self.spans)) and self.spans[6] <= 8_388_608
        kept = {1: self.identifier <= 2047, 2: self.node <= 15, 3: self.data_bytes <= 8, 6: self.jitter <= 1_048_576, 12: rising}
        return [number for number, holds in kept.items() if not holds]


class Sheet(Traffic):
    """Measured senders, each of them a stream."""

    def __init__(self, senders=()):
        super().__init__([])
        self.senders = []
        for sender in senders:
            self.note(sender)

    def note(self, sender):
        """Adds a sender. The answer is how many are held then, and no refusal; or none, and the number of the refusal."""
        refusals = sender.refusals()
        if sender.identifier in [s.identifier for s in self.senders]:
            refusals.append(31)
        if len(self.senders) >= 64:
            refusals.append(33)
        if refusals:
            return None, min(refusals)
        self.senders.append(sender)
        self.streams.append(Stream(sender.node, sender.identifier, longest_frame(sender.data_bytes)))
        self._later.append([])
        return len(self.senders), None

    def cycle(self, node):
        return 1

    def reach(self):
        return max([s.jitter for s in self.senders], default=0)

    def first(self, stream, phase):
        return -self.senders[stream].jitter

    def later(self, stream, instance):
        return self.senders[stream].span(instance)


class Delayed(Traffic):
    """Another traffic whose nodes each queue up to a delay later."""

    def __init__(self, below, delays):
        super().__init__(below.streams)
        self.below = below
        self.delays = [delays.get(node, 0) for node in range(NODES)]

    def cycle(self, node):
        return self.below.cycle(node)

    def reach(self):
        return self.below.reach() + max(self.delays)

    def first(self, stream, phase):
        node = self.streams[stream].node
        return self.below.first(stream, (phase - self.delays[node]) % self.cycle(node)) - self.delays[node]

    def later(self, stream, instance):
        return self.below.later(stream, instance)


class Question:
    """What the definition says of one stream of a traffic."""

    def __init__(self, traffic, stream):
        self.traffic = traffic
        self.stream = stream
        self.asked = traffic.streams[stream]
        # each other node's streams with lower identifiers, and the stream's own node's with the same or a lower one
        self.lower = [[] for _ in range(NODES)]
        self.beside = []
        for k, s in enumerate(traffic.streams):
            if s.node != self.asked.node and s.identifier < self.asked.identifier:
                self.lower[s.node].append(k)
            if s.node == self.asked.node and s.identifier <= self.asked.identifier and k != stream:
                self.beside.append(k)
        self.blocking = max(s.longest for s in traffic.streams if s.identifier >= self.asked.identifier)
        self.firsts = {k: [traffic.first(k, phase) for phase in range(traffic.cycle(node))] for node in range(NODES) for k in self.lower[node]}
        self.heaviest_known = {}

    def loads(self, k, window):
        """What stream k sends in the window, for each phase that the window can begin at."""
        firsts = self.firsts[k]
        laters = self.traffic.laters(k, window - min(firsts))
        longest = self.traffic.streams[k].longest
        return [bisect_right(laters, window - first) * longest for first in firsts]

    def heaviest(self, node, window):
        """The largest demand, over the phases of another node, of its streams with lower identifiers."""
        if not self.lower[node]:
            return 0
        if (node, window) not in self.heaviest_known:
            loads = [self.loads(k, window) for k in self.lower[node]]
            self.heaviest_known[node, window] = max(map(sum, zip(*loads)))
        return self.heaviest_known[node, window]

    def others(self, window):
        return sum(self.heaviest(node, window) for node in range(NODES) if node != self.asked.node)

    def own(self, phase, window):
        """The demand, from the same phase on, of the other streams of the node with the same or a lower identifier."""
        return sum(self.traffic.count(k, phase, window) * self.traffic.streams[k].longest for k in self.beside)

    def settling_window(self, phase, instance):
        """The least window from 0 to the horizon that is not below what it needs; None where there is none.

        The need does not fall as the window grows, so no window below a need that was found can settle."""
        fixed = self.blocking + (instance - 1) * self.asked.longest
        window = 0
        while window <= HORIZON:
            need = fixed + self.others(window) + self.own(phase, window)
            if need <= window:
                return window
            window = need
        return None

    def bound(self):
        largest = 0
        for phase in range(self.traffic.cycle(self.asked.node)):
            instance = 1
            while True:
                window = self.settling_window(phase, instance)
                if window is None:
                    return UNSETTLED
                place = self.traffic.place(self.stream, phase, instance)
                if window < place:
                    break
                largest = max(largest, window + self.asked.longest - place)
                instance += 1
        return largest


def bound(traffic, stream):
    """The largest response of the stream over all phases, 0 where nothing is listed, or that it is unsettled."""
    return Question(traffic, stream).bound()


def message_bound(plan, identifier):
    """The larger bound of the message's streams, or that one of them is unsettled."""
    bounds = [bound(plan, k) for k, s in enumerate(plan.streams) if s.identifier == identifier]
    return UNSETTLED if UNSETTLED in bounds else max(bounds)


def even(step):
    return [step * k for k in range(1, 8)]


def worked_examples():
    """What is calculated, and the figure known for it."""
    uneven = Sender(0, 1, 0, 0, [100, 600, 700, 1200, 1300, 1800, 1900])
    timed = Message(10, 1, 0, timed=(400, 0))
    shifted = Message(20, 1, 0, timed=(400, 200))
    apart = Message(20, 2, 0, timed=(400, 200))
    mixed = Message(10, 1, 0, timed=(400, 0), event=400)
    two_senders = Sheet([Sender(1, 1, 0, 0, even(110)), Sender(2, 2, 0, 0, even(5000))])
    two_events = Plan([Message(1, 1, 0, event=110), Message(2, 2, 0, event=5000)])
    yield "length without data", longest_frame(0), 55
    yield "length with 8 bytes", longest_frame(8), 135
    yield "ninth place", Sheet([uneven]).place(0, 0, 9), 2000
    yield "first place at phase 0", Plan([timed]).place(0, 0, 1), 0
    yield "first place at phase 1", Plan([timed]).place(0, 1, 1), 399
    yield "spans 110 and 5000 in two nodes", bound(two_senders, 1), 220
    yield "spans 200 with jitter 450", bound(Sheet([Sender(1, 1, 0, 450, even(200))]), 0), 560
    yield "spans 55", bound(Sheet([Sender(1, 1, 0, 0, even(55))]), 0), UNSETTLED
    yield "spans 56", bound(Sheet([Sender(1, 1, 0, 0, even(56))]), 0), 110
    yield "spans 900 to 906 with 8 bytes", bound(Sheet([Sender(1, 1, 8, 0, list(range(900, 907)))]), 0), 270
    yield "timed 400 0", bound(Plan([timed]), 0), 110
    yield "timed 400 0 and 400 200 in one node", message_bound(Plan([timed, shifted]), 20), 110
    yield "timed 400 0 and 400 200 in two nodes", message_bound(Plan([timed, apart]), 20), 165
    yield "timed 400 0 mixed with event 400", message_bound(Plan([mixed]), 10), 165
    yield "event 110 and 5000 in two nodes", message_bound(two_events, 2), 220
    yield "event 200 with jitter 450", bound(Plan([Message(1, 1, 0, event=200, jitter=450)]), 0), 560
    yield "event 55", bound(Plan([Message(1, 1, 0, event=55)]), 0), UNSETTLED
    yield "event 56", bound(Plan([Message(1, 1, 0, event=56)]), 0), 110
    yield "timed 400 0 with a delay of 100", bound(Delayed(Plan([timed]), {1: 100}), 0), 210


def main():
    wrong = 0
    examples = list(worked_examples())
    for name, found, known in examples:
        if found != known:
            wrong += 1
            print(f"{name}: {found}, not {known}")
    print(f"{len(examples) - wrong} of {len(examples)} worked examples hold")
    return 1 if wrong else 0


if __name__ == "__main__":
    raise SystemExit(main())
