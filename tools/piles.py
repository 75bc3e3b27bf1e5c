"""Piles of delays on plans and sheets, at random, and what the program `piles` must print of them, by the definition.

`piles.py data FOLDER` writes the tables, senders and delays; `piles.py answers FOLDER` prints what is to be printed of them.
"""

import random
import sys
from pathlib import Path

from literal import Delayed, Plan, Sender, Sheet, bound, even
from table import message_of

NODES = 16
NODES_TOLD = 4
PHASES = [0, 1, 99, 250, 1_199]
WINDOWS = [0, 500, 4_000]
LONGEST_DELAY = 1_048_576
LARGEST_REACH = 16_777_216
PILES = 8


def timed_places(plan, node, phase):
    """Each timed stream's first place at the phase, with the jitter of its message."""
    return [
        (plan.first(stream, phase), message.jitter)
        for stream, (message, is_timed) in enumerate(plan.parts)
        if is_timed and message.node == node
    ]


def turns(traffic, node, phase):
    if isinstance(traffic, Delayed):
        return turns(traffic.below, node, (phase - traffic.delays[node]) % traffic.cycle(node))
    if isinstance(traffic, Sheet):
        return False
    return any(place == -jitter for place, jitter in timed_places(traffic, node, phase))


def next_turn(traffic, node, phase):
    return next((turn for turn in range(phase, traffic.cycle(node)) if turns(traffic, node, turn)), "none")


def told(traffic):
    yield f"reach {traffic.reach()}"
    for node in range(NODES_TOLD):
        for phase in PHASES:
            if phase < traffic.cycle(node):
                yield f"turns {node} {phase} {str(turns(traffic, node, phase)).lower()}"
                yield f"next turn {node} {phase} {next_turn(traffic, node, phase)}"
            else:
                yield f"next turn {node} {phase} refused 10"
    for number, stream in enumerate(traffic.streams):
        for phase in PHASES:
            if phase >= traffic.cycle(stream.node):
                yield f"place {number} {phase} 1 refused 10"
                continue
            yield f"place {number} {phase} 1 {traffic.place(number, phase, 1)}"
            yield f"place {number} {phase} 3 {traffic.place(number, phase, 3)}"
            for window in WINDOWS:
                yield f"count {number} {phase} {window} {traffic.count(number, phase, window)}"
        yield f"bound {number} {bound(traffic, number)}"


def pile(below, lines):
    """What is printed of the traffic with the delays on it, one after another."""
    for line in lines:
        delays = [int(word) for word in line.split()]
        above = Delayed(below, dict(enumerate(delays)))
        if max(delays) > LONGEST_DELAY:
            yield "refused 11"
            above = Delayed(below, {})
        elif below.reach() + max(delays) > LARGEST_REACH:
            yield "refused 35"
            above = Delayed(below, {})
        else:
            yield "set"
        yield from told(above)
        below = above


def plan_of(text):
    return Plan([message_of(line) for line in text.splitlines(keepends=True)])


def sheet_of(text):
    numbers = [[int(word) for word in line.split()] for line in text.splitlines()]
    return Sheet([Sender(*line[:4], line[4:]) for line in numbers])


def answers(folder):
    for name in (folder / "index").read_text().splitlines():
        yield name
        lines = (folder / f"{name}.delays").read_text().splitlines()
        if name.startswith("plan"):
            below = plan_of((folder / f"{name}.table").read_bytes())
        else:
            below = sheet_of((folder / f"{name}.senders").read_text())
        yield from pile(below, lines)
    yield from tower()


def tower():
    """Sixteen of the longest delays on a sender with the longest jitter: the last is one too many."""
    yield "tower"
    pile = Sheet([Sender(0, 1, 0, LONGEST_DELAY, even(1_000))])
    for _ in range(16):
        if pile.reach() + LONGEST_DELAY > LARGEST_REACH:
            yield f"refused 35, reach {pile.reach()}"
        else:
            pile = Delayed(pile, dict.fromkeys(range(NODES), LONGEST_DELAY))
            yield f"set, reach {pile.reach()}"


def table(chance):
    for identifier in chance.sample(range(2_048), chance.randint(2, 4)):
        period = chance.choice([600, 800, 1_200])
        timed = f" (timed {period} {chance.randrange(period)})"
        event = f" (event {chance.randint(1_500, 5_000)})"
        arrivals = chance.choice([timed, timed, event, timed + event])
        jitter = chance.choice([0, 0, chance.randint(1, 900)])
        yield f"(message {identifier} (node {chance.randrange(3)}) (bytes {chance.randint(0, 2)}){arrivals} (jitter {jitter}) (due 4000))\n"


def senders(chance):
    for identifier in chance.sample(range(2_048), chance.randint(2, 5)):
        spans = [chance.randint(20, 1_500)]
        while len(spans) < 7:
            spans.append(spans[-1] + chance.randint(700, 1_500))
        numbers = [chance.randrange(3), identifier, chance.randint(0, 4), chance.choice([0, chance.randint(1, 900)])] + spans
        yield " ".join(map(str, numbers)) + "\n"


def delays(chance):
    for _ in range(3):
        longest = chance.choice([90, 900, 2_500])
        of_nodes = [chance.choice([0, chance.randint(1, longest)]) for _ in range(NODES)]
        if chance.random() < 0.15:
            # of a node without streams: only the reach tells it
            of_nodes[NODES - 1] = chance.choice([LONGEST_DELAY, LONGEST_DELAY + 1])
        yield " ".join(map(str, of_nodes)) + "\n"


def write(folder):
    names = []
    for number in range(PILES):
        for kind, ending, lines in (("plan", "table", table), ("sheet", "senders", senders)):
            chance = random.Random(f"{kind} {number}")
            name = f"{kind}-{number}"
            names.append(name)
            (folder / f"{name}.{ending}").write_text("".join(lines(chance)))
            (folder / f"{name}.delays").write_text("".join(delays(chance)))
    (folder / "index").write_text("".join(f"{name}\n" for name in sorted(names)))


def main():
    what, folder = sys.argv[1], Path(sys.argv[2])
    if what == "data":
        write(folder)
    else:
        for line in answers(folder):
            print(line)


if __name__ == "__main__":
    main()
