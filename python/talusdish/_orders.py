"""The orders of driven runs."""

from __future__ import annotations

from dataclasses import dataclass
from typing import Tuple, Union

from ._library import OrderNumbers


@dataclass(frozen=True)
class Turns:
    """Turns: so many Steps of each ready processor, at least 1."""

    steps: int = 1


@dataclass(frozen=True)
class Random:
    """A ready processor at random, by the words of a seed of 64 bits."""

    seed: int


@dataclass(frozen=True)
class Priorities:
    """The ready processor of the highest priority; `changes` priorities (at most 64) change in each stretch of `within` Steps
    (at least 1), at Steps that are drawn by the seed."""

    seed: int
    changes: int
    within: int


@dataclass(frozen=True)
class Delayed:
    """Turns of so many Steps, with `delays`: the choices, from 0, at which a ready processor is passed over. What a search by delays
    gives; a machine makes the events that it gives beside."""

    steps: int
    delays: Tuple[int, ...]


@dataclass(frozen=True)
class Delays:
    """To be searched: all turns of `steps` Steps in which at most `most` times (0 to 64) a ready processor is passed over, at choices from
    `first` on that come before `within`."""

    most: int
    steps: int = 50
    first: int = 0
    within: int = 16777216


Order = Union[Turns, Random, Priorities]
Seeded = Union[Random, Priorities]


def within(name: str, number: int, bits: int = 32) -> int:
    """The number, which a ctypes field would cut off in silence."""
    if not 0 <= number < 2**bits:
        raise ValueError(f"{name} is {number}; it has {bits} bits")
    return number


def numbers_of(order: Order, transfer: int, gap: int | None) -> OrderNumbers:
    numbers = OrderNumbers(transfer=within("transfer", transfer), gap=within("gap", gap or 0), gaps=gap is not None)
    if isinstance(order, Turns):
        numbers.kind, numbers.turns = 0, within("steps", order.steps)
    elif isinstance(order, Random):
        numbers.kind, numbers.seed = 1, within("seed", order.seed, 64)
    elif isinstance(order, Priorities):
        numbers.kind, numbers.seed = 2, within("seed", order.seed, 64)
        numbers.changes, numbers.within = within("changes", order.changes), within("within", order.within)
    else:
        raise TypeError(f"{order!r} is no order")
    return numbers
