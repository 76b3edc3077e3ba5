"""By what runs are judged, verdicts, and what an exploration finds."""

from __future__ import annotations

import ctypes as c
from dataclasses import dataclass
from enum import Enum
from typing import Any, Iterable, Optional, Sequence, Tuple, Union

from ._library import JudgementNumbers, VerdictNumbers, WatchNumbers
from ._orders import Delayed, Order, within


class Event(Enum):
    """The kind of an event: a Step of a processor, a typed byte, or the end of the console's transfer."""

    STEP = 0
    KEY = 1
    DONE = 2


Made = Tuple[Event, int]
"""An event to be made: its kind, and the processor or the byte (0 of `DONE`)."""


@dataclass(frozen=True)
class Watch:
    """A page of an address space, whose shootdown is watched: once the initiator has stored to `pte` and then to `done`, no
    processor uses the page through an old row of its TLB. `id` is the identifier of the address space (0 to 63), `page` a virtual
    address divided by 4,096, `pte` the physical address in bytes of the word with the page table's entry, as EntryLo has it, and
    `done` that of the word that is stored to when the shootdown is over."""

    id: int
    page: int
    pte: int
    done: int


class Wrong(Enum):
    """How a list of events goes wrong. Of the kinds that hold, the first one is the verdict. The values are the numbers of talusdish.h."""

    STALE = 1
    REACHED = 2
    CONFLICT = 3
    STUCK = 4
    OUTPUT = 5
    HUNG = 7
    END = 6


@dataclass(frozen=True)
class Verdict:
    """What is wrong: a `STALE` use (`processor`, virtual `address`, `row`), a `REACHED` address (`processor`, `address`), a
    `CONFLICT` (`processor`, `row`, `other` row), `STUCK`, another `OUTPUT`, `HUNG`: no order of events leads to an end any more, or no `END`:
    the machine is neither off nor stuck. What has no meaning is 0."""

    wrong: Wrong
    processor: int = 0
    address: int = 0
    row: int = 0
    other: int = 0


@dataclass(frozen=True)
class Judgement:
    """The `verdict` on a machine's events, and how many of them it needs: of a stale use or a reached address, the last of these is
    it."""

    verdict: Verdict
    events: int


@dataclass(frozen=True)
class AllRight:
    """None of so many `runs` goes wrong. So many of them are `cut`: they ended only because no more events were asked for."""

    runs: int
    cut: int


@dataclass(frozen=True)
class WrongRun:
    """The first run that goes wrong: its `order`, its `verdict`, and the `events` that this needs, the first of the run. So many runs
    before it don't go wrong (`right`), of which so many are `cut`; by delays both are 0."""

    order: Union[Order, Delayed]
    verdict: Verdict
    events: Sequence[Made]
    right: int
    cut: int


Searched = Union[AllRight, WrongRun]


@dataclass(frozen=True)
class Clean:
    """In whatever order and for however long events come, nothing goes wrong, and each list of them can come to its end: the machine
    off, or stuck with its output sent. There are so many different states."""

    states: int


@dataclass(frozen=True)
class Found:
    """The `verdict` of a shortest list of events that goes wrong, these `events`, and how many different states come before it."""

    verdict: Verdict
    events: Sequence[Made]
    states: int


@dataclass(frozen=True)
class Hung:
    """Nothing goes wrong, but no events continue this list to an end; it is a shortest such list. There are so many different
    states."""

    events: Sequence[Made]
    states: int


@dataclass(frozen=True)
class Open:
    """There are more different states than `limit`; no list of at most `events` events goes wrong."""

    limit: int
    events: int


Explored = Union[Clean, Found, Hung, Open]


def verdict_of(numbers: VerdictNumbers) -> Verdict:
    return Verdict(Wrong(numbers.kind), numbers.processor, numbers.address, numbers.row, numbers.other)


def judgement_of(numbers: JudgementNumbers) -> Optional[Judgement]:
    return Judgement(verdict_of(numbers.verdict), numbers.events) if numbers.verdict.kind else None


def array(kind: Any, items: Iterable[Any]) -> Tuple[Any, int]:
    """The items as C has them, and how many."""
    every = list(items)
    return (kind * max(len(every), 1))(*every), len(every)


def watches_of(watches: Iterable[Watch]) -> Tuple[Any, int]:
    """The watches as C has them, and how many."""
    names = ("id", "page", "pte", "done")
    return array(WatchNumbers, (WatchNumbers(*(within(name, getattr(it, name)) for name in names)) for it in watches))


def goal_of(keys: bytes, watches: Iterable[Watch], never: Iterable[int], output: Optional[bytes]) -> Tuple[Any, ...]:
    """What the calls take that judge: keys, watches, addresses, and the output, if one is asked for."""
    addresses = (within("address", address) for address in never)
    return keys, len(keys), *watches_of(watches), *array(c.c_uint32, addresses), output is not None, output or b"", len(output or b"")


def events_of(numbers: bytes, processors: int, keys: bytes) -> Sequence[Made]:
    """The events of a list of their numbers."""
    events, typed = [], iter(keys)
    for n in numbers:
        if n < processors:
            events.append((Event.STEP, n))
        elif n == processors:
            events.append((Event.DONE, 0))
        else:
            events.append((Event.KEY, next(typed)))
    return tuple(events)
