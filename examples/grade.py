#!/usr/bin/env python3
"""examples/grade.py LAB FILE.s ..: grades solutions of a lab of examples/labs, `lost-update` or `two-locks`, on two processors. A
solution is right if it is so in every order of events: the machine can always come to its end, which is off, and by a thousand seeds
the words of RAM are there then that the lab asks for. Says of each file whether it is, or the events that go wrong; of one with too
many states, what a thousand seeds say. The exit status is 1 where one isn't right, 2 for another lab."""

import itertools
import sys
from pathlib import Path

from talusdish import AssemblyError, Clean, Found, Machine, Open, Random, Stop, WrongRun, assemble, explore, search

RAM = 28672
WORDS = {"lost-update": {0x1000: 2}, "two-locks": {}}


def is_right(image, seed, words):
    machine = Machine(image, RAM, cpus=2, log=1)
    run = machine.run(Random(seed), events=10_000)
    return run.stop == Stop.OFF and all(machine.memory[address] == word for address, word in words.items())


def grade(image, words):
    found = explore(image, RAM, cpus=2, states=100_000)
    if isinstance(found, Open):
        run = search(image, Random(0), 1000, 10_000, RAM, cpus=2)
        if isinstance(run, WrongRun):
            return False, f"{run.verdict.wrong.name.lower()} by seed {run.order.seed}"
        return False, f"isn't known: it has more than {found.limit} states, and {run.runs - run.cut} of {run.runs} seeds are right"
    if not isinstance(found, Clean):
        steps = itertools.groupby(found.events, lambda event: f"{event[0].name.lower()} {event[1]}")
        events = ", ".join(f"{event} x {len(list(times))}" for event, times in steps)
        return False, f"{found.verdict.wrong.name.lower() if isinstance(found, Found) else 'hung'} after {events}"
    wrong = next((seed for seed in range(1000) if not is_right(image, seed, words)), None)
    return wrong is None, f"right in every order: {found.states} states" if wrong is None else f"wrong words by seed {wrong}"


def main(lab, *files):
    results = []
    for path in map(Path, files):
        try:
            results.append(grade(assemble(path.read_text()), WORDS[lab]))
        except AssemblyError as error:
            results.append((False, f"isn't assembled: {error}"))
        print(f"{path.stem}: {results[-1][1]}")
    return not all(right for right, _ in results)


if __name__ == "__main__":
    sys.exit(main(*sys.argv[1:]) if len(sys.argv) > 1 and sys.argv[1] in WORDS else __doc__)
