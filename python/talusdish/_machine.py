"""Images, machines and their views."""

from __future__ import annotations

import ctypes as c
import threading
import weakref
from contextlib import contextmanager
from dataclasses import dataclass, replace
from enum import Enum
from typing import Any, Callable, Iterable, Iterator, Optional, Sequence, Tuple, Union

from ._errors import GOALS, KINDS, ORDERS, AssemblyError, BadProcessor, boot_error, refusal
from ._library import (
    ALL_RIGHT, MORE, NO_MEMORY, NO_SYMBOL, RUN_OFF, RUN_STUCK, BoardView, ClassNumbers, ConflictView, EntryView, Exploration, Fault, Goal, JudgementNumbers,
    ListNumbers, OrderNumbers, OutcomeNumbers,
    ProcessorView, RowWords, Size, Slot, Sought, SoughtSlice, Style, lib,
)
from ._judging import (
    AllRight, Clean, Event, Explored, Found, Hung, Judgement, Made, Open, Searched, Watch, WrongRun, events_of, goal_of, judgement_of, verdict_of,
    watches_of,
)
from ._orders import Delayed, Delays, Order, Random, Seeded, Turns, numbers_of, within
from ._trace import TraceLine


class Doing(Enum):
    """What a processor is doing."""

    STOPPED = 0
    RUNNING = 1
    WAITING = 2


class Kind(Enum):
    """The kind of an event's outcome."""

    RAN = 0
    TRAPPED = 1
    IDLE = 2
    OFF = 3
    CONFLICT = 4
    TAKEN = 5


@dataclass(frozen=True)
class Outcome:
    """An event's outcome. Of a trap `first` is its code as in Cause, and `second` its vector; of a conflict they are the row and
    the other row; else both are 0."""

    kind: Kind
    first: int
    second: int


@dataclass(frozen=True)
class Entry:
    """An entry of the log: its event with the processor or the key (0 of `DONE`), and its outcome."""

    event: Event
    value: int
    outcome: Outcome


@dataclass(frozen=True)
class Conflict:
    """What switched a strict machine off: the processor that was to write a row of its TLB, that row, which stays as it was, and
    the lowest other row that it would have overlapped."""

    processor: int
    row: int
    other: int


class Stop(Enum):
    """Why a driven run has no more events."""

    END = 0
    OFF = RUN_OFF
    STUCK = RUN_STUCK
    WORN = 8
    NO_MEMORY = 6


@dataclass(frozen=True)
class Run:
    """A driven run: how many events were made, and why no more were."""

    made: int
    stop: Stop


@dataclass(frozen=True)
class Image:
    """An ELF file."""

    file: bytes

    def symbol(self, name: str) -> Optional[int]:
        """The value of the first symbol with this name, if there is one. Raises MemoryError."""
        value, text = c.c_uint32(), name.encode()
        answer = lib.talusdish_symbol(self.file, len(self.file), text, len(text), value)
        if answer == NO_MEMORY:
            raise MemoryError("talusdish")
        return None if answer == NO_SYMBOL else value.value

    def nearest(self, address: int) -> Optional[tuple[str, int]]:
        """The name of the symbol that is nearest below an address, and how many bytes the address is behind it; None where each value
        is above it. Raises MemoryError."""
        distance, slot = c.c_uint32(), _slot()
        try:
            answer = lib.talusdish_nearest(slot, self.file, len(self.file), within("address", address), distance)
            if answer == NO_MEMORY:
                raise MemoryError("talusdish")
            return None if answer == NO_SYMBOL else (_bytes(slot).decode(errors="replace"), distance.value)
        finally:
            lib.talusdish_close(slot)


@contextmanager
def _alone(lock: threading.Lock) -> Iterator[None]:
    """One call at a time. (ctypes lets other threads run while a call works.)"""
    if not lock.acquire(blocking=False):
        raise RuntimeError("a machine belongs to one thread at a time")
    try:
        yield
    finally:
        lock.release()


def _outcome(outcome: OutcomeNumbers) -> Outcome:
    return Outcome(Kind(outcome.kind), outcome.first, outcome.second)


def _processor(p: int) -> int:
    if not 0 <= p < 2**32:
        raise BadProcessor(BadProcessor.__doc__)
    return p


def _run(made: int, answer: int) -> Run:
    if answer in ORDERS:
        raise ORDERS[answer](ORDERS[answer].__doc__)
    return Run(made, Stop(answer))


def _judged(answer: int) -> None:
    """Raises why nothing is judged."""
    if answer == NO_MEMORY:
        raise MemoryError("talusdish")
    if answer in GOALS:
        raise GOALS[answer](GOALS[answer].__doc__)
    if answer:
        raise ValueError("the goal is too long")


def _states_at_once(cpus: int) -> int:
    """How many states a slice of an exploration tries, so that it takes some 20 ms, and hardly ever more than 50: with two processors a
    state takes about 10 microseconds, so 2,048 of them. With twice the processors a state has twice the events, and each makes a state
    that is twice as large."""
    return 8192 // cpus**2


def _slot() -> Slot:
    slot = Slot()
    if not lib.talusdish_open(slot):
        raise MemoryError("talusdish")
    return slot


def _bytes(slot: Slot) -> bytes:
    size = lib.talusdish_length(slot)
    room = c.create_string_buffer(size or 1)
    read = lib.talusdish_read(slot, 0, room, size)
    return room.raw[:read]


def assemble(text: str, symbols: bool = False) -> Image:
    """Assembles a text, with its labels as the file's symbols if they are wanted.

    Raises AssemblyError with the place and the kind of the text's first fault, and MemoryError."""
    source, fault, slot = text.encode(), Fault(), _slot()
    try:
        answer = lib.talusdish_assemble(slot, source, len(source), symbols, fault)
        if answer == 0:
            return Image(_bytes(slot))
    finally:
        lib.talusdish_close(slot)
    if answer == 9:
        raise MemoryError("talusdish")
    raise AssemblyError(fault.line, fault.column, KINDS[answer])


@dataclass(frozen=True)
class Processor:
    """What a processor shows at one moment: its 32 registers, HI, LO, the address of its instruction (bytes), what it is doing,
    whether its instruction is in a delay slot, and how many Steps it has made."""

    reg: Sequence[int]
    hi: int
    lo: int
    pc: int
    state: Doing
    in_slot: bool
    count: int


@dataclass(frozen=True)
class Console:
    """The byte that the console is sending, if it is, and how many typed bytes wait (0 to 256)."""

    latch: Optional[int]
    waiting: int


class Processors(Sequence[Processor]):
    """The processors of a machine; each is shown as it is when it is asked for."""

    def __init__(self, machine: Machine, count: int) -> None:
        self._machine, self._count = machine, count

    def __len__(self) -> int:
        return self._count

    def __getitem__(self, p):  # type: ignore[no-untyped-def, override]
        if isinstance(p, slice):
            return [self[q] for q in range(*p.indices(self._count))]
        q = p + self._count if p < 0 else p
        view = ProcessorView()
        with _alone(self._machine._lock):
            if not 0 <= q < self._count or not lib.talusdish_processor(self._machine._slot, q, view):
                raise IndexError(f"there is no processor {p}")
        return Processor(
            tuple(view.registers), view.hi, view.lo, view.pc, Doing(view.state), bool(view.in_slot), view.count
        )


class Entries(Sequence[Entry]):
    """The entries that a machine's log keeps, the oldest first: `machine.entries[-1]` is the last event."""

    def __init__(self, machine: Machine) -> None:
        self._machine = machine

    def __len__(self) -> int:
        with _alone(self._machine._lock):
            return lib.talusdish_entries(self._machine._slot)

    def __getitem__(self, i):  # type: ignore[no-untyped-def, override]
        count = len(self)
        if isinstance(i, slice):
            return [self[k] for k in range(*i.indices(count))]
        k = i + count if i < 0 else i
        entry = EntryView()
        with _alone(self._machine._lock):
            if not 0 <= k < count or not lib.talusdish_entry(self._machine._slot, k, entry):
                raise IndexError(f"the log has no entry {i}")
        return Entry(Event(entry.kind), entry.value, _outcome(entry.outcome))


class Memory:
    """A machine's RAM by words: `memory[0x3010]` is the word at a physical address, a multiple of 4, in bytes."""

    def __init__(self, machine: Machine, size: int) -> None:
        self._machine, self._size = machine, size

    def __len__(self) -> int:
        """How many bytes it has."""
        return self._size

    def __getitem__(self, address: int) -> int:
        word = c.c_uint32()
        with _alone(self._machine._lock):
            if not 0 <= address < self._size or not lib.talusdish_word(self._machine._slot, address, word):
                raise IndexError(f"there is no word at {address:#x}")
        return word.value


class Machine:
    """A machine that was booted from an image.

    `ram` is in bytes (4,096 to 16,777,216, a multiple of 4,096), `cpus` 1 to 32, and `log` the entries that the log has room
    for (1 to 16,777,216). With `line` the instruction `ll` links to a line in place of a word; a `strict` machine stops where a
    row of a TLB would overlap another one. It takes three times its RAM.

    A machine belongs to one thread at a time; a call while another thread is in one raises RuntimeError.

    Raises a BootError (BadConf, Truncated, .. BadEntry), MemoryError, or ValueError for a number below 0 or above 2^32 - 1."""

    def __init__(
        self, image: Image, ram: int = 1048576, cpus: int = 1, log: int = 4096, line: bool = False, strict: bool = False
    ) -> None:
        size = Size(within("ram", ram), within("cpus", cpus), within("log", log), line, strict)
        self._own(_slot(), image, ram, cpus)
        answer = lib.talusdish_boot(self._slot, image.file, len(image.file), size)
        if answer:
            raise boot_error(answer)

    def _own(self, slot: Slot, image: Image, ram: int, cpus: int) -> None:
        self._image = image
        self._lock = threading.Lock()
        self._slot = slot
        weakref.finalize(self, lib.talusdish_close, slot)
        self.processors = Processors(self, cpus)
        self.memory = Memory(self, ram)
        self.entries = Entries(self)

    def copy(self) -> Machine:
        """The same machine again; each goes its own way from then on. Raises MemoryError."""
        slot = Slot()
        with _alone(self._lock):
            if lib.talusdish_copy(self._slot, slot):
                raise MemoryError("talusdish")
        other = Machine.__new__(Machine)
        other._own(slot, self._image, len(self.memory), len(self.processors))
        return other

    __copy__ = copy

    def _event(self, call: Callable[..., int], *value: int) -> Outcome:
        outcome = OutcomeNumbers()
        with _alone(self._lock):
            answer = call(self._slot, *value, outcome)
        if answer:
            raise refusal(answer)
        return _outcome(outcome)

    def step(self, p: int = 0) -> Outcome:
        """Makes one Step of processor `p`. Raises BadProcessor, Off or Worn; the machine is as it was then."""
        return self._event(lib.talusdish_step, _processor(p))

    def key(self, byte: int) -> Outcome:
        """Types a byte at the console. Raises Off, Worn or KeyFull, and ValueError for no byte."""
        return self._event(lib.talusdish_key, within("byte", byte, 8))

    def done(self) -> Outcome:
        """The console has sent its byte. Raises Off, Worn, NothingSent or MemoryError."""
        return self._event(lib.talusdish_done)

    def make(self, events: Iterable[Made]) -> list[Outcome]:
        """Makes these events, one after the other, as `explore` gives them, and gives their outcomes. Raises what `step`, `key` and
        `done` do; the events before the refused one are made then."""
        calls = {Event.STEP: self.step, Event.KEY: self.key, Event.DONE: lambda _: self.done()}
        return [calls[event](value) for event, value in events]

    def steps(self, n: int, p: int = 0) -> int:
        """Makes Steps of processor `p` until `n` are made, at most 2^32 - 1, or one is refused because the machine went off.
        Returns how many. Raises BadProcessor, Off or Worn where the first one is refused."""
        made = c.c_uint32()
        with _alone(self._lock):
            answer = lib.talusdish_steps(self._slot, _processor(p), within("n", n), made)
        if answer and made.value == 0:
            raise refusal(answer)
        return made.value

    def run(self, order: Order = Turns(1), events: int = 1000000, keys: bytes = b"", gap: int | None = None, transfer: int = 4) -> Run:
        """Makes the events that an order chooses, at most `events`. A byte of the console is sent once `transfer` events came
        after it. A key is typed where no processor is ready, and with a `gap` once so many events came after the last one.
        Each call begins the order and the keys anew. Raises NoTurn, NoStretch or TooManyChanges."""
        made, numbers = c.c_uint64(), numbers_of(order, transfer, gap)
        with _alone(self._lock):
            answer = lib.talusdish_drive(self._slot, numbers, keys, len(keys), within("events", events, 64), made)
        return _run(made.value, answer)

    def trace(
        self, order: Order = Turns(1), events: int = 1000, keys: bytes = b"", gap: int | None = None, transfer: int = 4, names: bool = False,
        symbols: bool = False, loads: bool = False,
    ) -> Iterator[TraceLine]:
        """Runs as `run` does, and gives a line for each event, as `s161 trace` prints it, with its parts by name. With `names` registers
        have their names; with `symbols` an address has its place behind it, by the symbols of the machine's image; with `loads` the
        line of a Step that loads has the word that it loads. The run is made by this call, before the first line is asked for. Raises
        also MemoryError: no event is made then."""
        made, numbers, style, file = c.c_uint64(), numbers_of(order, transfer, gap), Style(names, symbols, loads), self._image.file
        with _alone(self._lock):
            answer = lib.talusdish_lines(
                self._slot, numbers, keys, len(keys), style, file, len(file), within("events", events, 64), made
            )
            if answer == NO_MEMORY:
                raise MemoryError("talusdish")
            _run(made.value, answer)
            text = _bytes(self._slot)
        return map(TraceLine, text.decode().splitlines())

    def search(
        self, order: Seeded, address: int, word: int, count: int = 1000, events: int = 10000, keys: bytes = b"", gap: int | None = None,
        transfer: int = 4,
    ) -> Optional[Seeded]:
        """Looks for a run that ends wrong: one after which the machine isn't off, or the word at a physical address isn't `word`.
        Tries the order with `count` seeds, its own and those behind it, each from the machine as it is, which stays so. Gives the
        first order whose run ends wrong, or None. Raises NoStretch, TooManyChanges, or MemoryError."""
        right, numbers = c.c_uint64(), numbers_of(order, transfer, gap)
        goal = Goal(within("address", address), within("word", word))
        with _alone(self._lock):
            answer = lib.talusdish_search(
                self._slot, numbers, keys, len(keys), within("events", events, 64), within("count", count, 64), goal, right
            )
        if answer == ALL_RIGHT:
            return None
        if answer == NO_MEMORY:
            raise MemoryError("talusdish")
        if answer:
            raise ORDERS[answer](ORDERS[answer].__doc__)
        return replace(order, seed=(order.seed + right.value) % 2**64)

    def explore(
        self, states: int = 1000000, keys: bytes = b"", watches: Iterable[Watch] = (), never: Iterable[int] = (),
        output: Optional[bytes] = None, progress: Optional[Callable[[int], object]] = None,
    ) -> Explored:
        """Looks at every state that the machine can reach from its boot by any order of events with these keys, as long as there are
        no more than `states` of them: whether a watched page is used through an old row of a TLB, a Step fetches a word at one of
        the virtual addresses `never`, a strict machine would have rows that overlap, nothing is left to do, or, with `output`, the
        machine is off and the console hasn't sent just that. The machine stays as it is. Gives Clean, Found, Hung or Open.

        The states are looked at in this thread, in slices, each a call of the library that takes a small part of a second; but the one
        that gives Clean or Hung looks once more at all of them, which takes longer. Behind each slice without an answer, `progress` is
        called with how many states were found so far; what it raises ends the exploration, and so does Ctrl-C. They are never fewer
        than before, but where a Step reads Random or Count for the first time: states that only these tell apart counted as one, and
        are looked for anew. The machine is in this call all the while, so that no other thread can use it, nor can `progress`.

        Raises BadWatch, ValueError for no states, or MemoryError."""
        limit = within("states", states)
        if limit == 0:
            raise ValueError("states is 0; it is at least 1")
        with _alone(self._lock):
            found, numbers = self._explored(limit, goal_of(keys, watches, never, output), progress)
        events = events_of(numbers, len(self.processors), keys)
        if found.kind == 0:
            return Clean(found.states)
        if found.kind == 1:
            return Found(verdict_of(found.verdict), events, found.states)
        return Hung(events, found.states) if found.kind == 2 else Open(limit, found.events)

    def _explored(
        self, limit: int, goal: Tuple[Any, ...], progress: Optional[Callable[[int], object]]
    ) -> Tuple[Exploration, bytes]:
        """An exploration, and the numbers of the events of its list. It is made in a copy of the session, with which all that it found is
        freed, where it is ended early, too."""
        found, slot, number = Exploration(), Slot(), _states_at_once(len(self.processors))
        try:
            if lib.talusdish_copy(self._slot, slot):
                raise MemoryError("talusdish")
            _judged(lib.talusdish_explore_begin(slot, limit, *goal))
            while (answer := lib.talusdish_explore_slice(slot, number, found)) == MORE:
                if progress:
                    progress(found.states)
            _judged(answer)
            return found, _bytes(slot)
        finally:
            lib.talusdish_close(slot)

    def audit(self, watches: Iterable[Watch]) -> Optional[Judgement]:
        """Audits the machine's events since its boot: the first stale use of one of the watches' pages, or None. Raises BadWatch, Dropped
        where the log has no room for all events, or MemoryError."""
        found = JudgementNumbers()
        with _alone(self._lock):
            _judged(lib.talusdish_audit(self._slot, *watches_of(watches), found))
        return judgement_of(found)

    def judge(
        self, keys: bytes = b"", watches: Iterable[Watch] = (), never: Iterable[int] = (), output: Optional[bytes] = None, hung: int = 0
    ) -> Optional[Judgement]:
        """Judges the machine's events since its boot: the first verdict that holds, in the order of `Wrong`, or None. `keys` are all that
        could be typed: while some are left, the machine isn't stuck. With `hung`, events behind which no order of further ones leads to
        an end are HUNG, if those lead to at most so many different states; with 0 it isn't looked at. Raises BadWatch, Dropped where the
        log has no room for all events, or MemoryError."""
        found, file = JudgementNumbers(), self._image.file
        goal, looked = goal_of(keys, watches, never, output), within("hung", hung)
        with _alone(self._lock):
            if looked:
                _judged(lib.talusdish_hung(self._slot, file, len(file), looked, *goal, found))
            else:
                _judged(lib.talusdish_judge(self._slot, file, len(file), *goal, found))
        return judgement_of(found)

    def _seek(self, numbers: OrderNumbers, events: int, count: int, hung: int, goal: Tuple[Any, ...]) -> Tuple[Sought, bytes]:
        """A search by these seeds from the boot, and the numbers of the events that its verdict needs."""
        found, file = Sought(), self._image.file
        with _alone(self._lock):
            answer = lib.talusdish_seeds(self._slot, file, len(file), numbers, events, count, hung, *goal, found)
            listed = b"" if answer else _bytes(self._slot)
        if answer in ORDERS:
            raise ORDERS[answer](ORDERS[answer].__doc__)
        _judged(answer)
        return found, listed

    def _seek_lists(
        self, numbers: OrderNumbers, lists: ClassNumbers, first: ListNumbers, count: int, events: int, hung: int, goal: Tuple[Any, ...]
    ) -> Tuple[SoughtSlice, bytes]:
        """A slice of a search by these lists of delays from the boot, from the first one on, and the numbers of the events that its
        verdict needs."""
        found, file = SoughtSlice(), self._image.file
        with _alone(self._lock):
            answer = lib.talusdish_slice(self._slot, file, len(file), numbers, lists, first, count, events, hung, *goal, found)
            listed = b"" if answer else _bytes(self._slot)
        if answer in ORDERS:
            raise ORDERS[answer](ORDERS[answer].__doc__)
        _judged(answer)
        return found, listed

    @property
    def made(self) -> int:
        """How many events the machine has accepted."""
        with _alone(self._lock):
            return lib.talusdish_made(self._slot)

    @property
    def output(self) -> bytes:
        """The bytes that the console has sent. Raises MemoryError."""
        with _alone(self._lock):
            if lib.talusdish_output(self._slot):
                raise MemoryError("talusdish")
            return _bytes(self._slot)

    @property
    def log(self) -> list[str]:
        """The log's text by lines: a first line (`m161 log ..`, or `m161 tail ..` with how many entries were dropped), and a
        line for each of the last entries. Raises MemoryError."""
        with _alone(self._lock):
            if lib.talusdish_log(self._slot):
                raise MemoryError("talusdish")
            return _bytes(self._slot).decode().splitlines()

    def _board(self) -> BoardView:
        board = BoardView()
        with _alone(self._lock):
            lib.talusdish_board(self._slot, board)
        return board

    @property
    def is_off(self) -> bool:
        """Whether the machine was switched off."""
        return bool(self._board().off)

    @property
    def started(self) -> list[bool]:
        """Of each processor whether it was started."""
        started = self._board().started
        return [bool(started >> p & 1) for p in range(len(self.processors))]

    @property
    def conflict(self) -> Optional[Conflict]:
        """What switched a strict machine off, if something did."""
        conflict = ConflictView()
        with _alone(self._lock):
            if not lib.talusdish_conflict(self._slot, conflict):
                return None
        return Conflict(conflict.processor, conflict.row, conflict.other)

    def link(self, p: int) -> Optional[int]:
        """The physical address of the first byte of the word, or of the line, that processor `p`'s link of `ll` is to; None where
        its link isn't live. Raises IndexError."""
        if not 0 <= p < len(self.processors):
            raise IndexError(f"there is no processor {p}")
        at = c.c_uint32()
        with _alone(self._lock):
            return at.value if lib.talusdish_link(self._slot, p, at) else None

    @property
    def console(self) -> Console:
        """The console as it is now."""
        board = self._board()
        return Console(board.latch if board.sending else None, board.waiting)

    def cop(self, p: int, number: int) -> int:
        """A register of coprocessor 0 of processor `p` by its number, as `mfc0` reads it. Raises IndexError."""
        word = c.c_uint32()
        with _alone(self._lock):
            if not (0 <= p < 2**32 and 0 <= number < 32) or not lib.talusdish_cop(self._slot, p, number, word):
                raise IndexError(f"processor {p} has no register {number} of coprocessor 0")
        return word.value

    def row(self, p: int, i: int) -> tuple[int, int]:
        """A row, 0 to 63, of processor `p`'s TLB, as the words in EntryHi and EntryLo. Raises IndexError."""
        words = RowWords()
        with _alone(self._lock):
            if not (0 <= p < 2**32 and 0 <= i < 64) or not lib.talusdish_row(self._slot, p, i, words):
                raise IndexError(f"processor {p} has no row {i}")
        return words.high, words.low


def explore(
    image: Image, ram: int = 1048576, cpus: int = 1, states: int = 1000000, keys: bytes = b"", watches: Iterable[Watch] = (),
    never: Iterable[int] = (), output: Optional[bytes] = None, line: bool = False, strict: bool = False,
    progress: Optional[Callable[[int], object]] = None,
) -> Explored:
    """Looks at every state that an image can reach, as `Machine.explore` does: `explore(image, cpus=2)` gives `Clean(527)`, say. In
    between `progress` is called with how many states were found so far; what it raises ends the exploration, and so does Ctrl-C. Raises
    also what `Machine` does."""
    return Machine(image, ram, cpus, 1, line, strict).explore(states, keys, watches, never, output, progress)


def _search_delays(
    machine: Machine, lists: Delays, numbers: OrderNumbers, events: int, hung: int, goal: Tuple[Any, ...], keys: bytes,
    progress: Optional[Callable[[int], object]], at_once: int,
) -> Searched:
    if not 0 <= lists.most <= 64:
        raise ValueError(f"most is {lists.most}; it is 0 to 64")
    group = ClassNumbers(lists.most, within("first", lists.first), within("within", lists.within))
    first, done, cut = ListNumbers(), 0, 0
    while True:
        slice_, listed = machine._seek_lists(numbers, group, first, min(at_once, 2**64 - 1), events, hung, goal)
        found, first = slice_.found, slice_.next
        if found.verdict.kind:
            order = Delayed(lists.steps, tuple(found.delays[: found.count]))
            return WrongRun(order, verdict_of(found.verdict), events_of(listed, len(machine.processors), keys), found.right, found.cut)
        done, cut = done + found.right, cut + found.cut
        if progress:
            progress(done)
        if not slice_.goes_on:
            return AllRight(done, cut)


def search(
    image: Image, order: Union[Order, Delays] = Random(0), runs: int = 1000, events: int = 100000, ram: int = 1048576, cpus: int = 1, keys: bytes = b"",
    gap: int | None = None, transfer: int = 4, watches: Iterable[Watch] = (), never: Iterable[int] = (), output: Optional[bytes] = None,
    hung: int = 10000, line: bool = False, strict: bool = False, progress: Optional[Callable[[int], object]] = None, at_once: int = 100,
) -> Searched:
    """Looks for a run of an image that goes wrong, as `s161 search` does: `search(image, cpus=2)` gives `AllRight(1000, 0)`, say, or a
    `WrongRun`. The runs are those of `order` with so many seeds, its own and those behind it, each from the boot and of at most `events`
    events. What goes wrong is what `Machine.judge` says; a run that ends only because no more events were asked for hangs where no order
    of events leads to an end any more, if those that there are lead to at most `hung` different states; 0 looks at none.

    With `Delays(2)` in place of an order they are all runs by turns in which at most twice a ready processor is passed over, and `runs` has
    no meaning. `AllRight(277, 0)` says then that each of 277 different runs is right; a `WrongRun` has a `Delayed` as its order.

    The runs are made in this thread, `at_once` of them a call of the library. Behind each call in which none goes wrong, `progress` is
    called with how many runs there were so far; what it raises ends the search, and so does Ctrl-C.

    Raises NoTurn, NoStretch or TooManyChanges, a BootError, BadWatch, MemoryError, or ValueError for a number outside its limits."""
    machine = Machine(image, ram, cpus, 1, line, strict)
    goal, most, looked = goal_of(keys, watches, never, output), within("events", events, 64), within("hung", hung)
    if at_once < 1:
        raise ValueError(f"at_once is {at_once}; it is at least 1")
    if isinstance(order, Delays):
        return _search_delays(machine, order, numbers_of(Turns(order.steps), transfer, gap), most, looked, goal, keys, progress, at_once)
    numbers = numbers_of(order, transfer, gap)
    first = numbers.seed
    done = cut = 0
    while True:
        numbers.seed = (first + done) % 2**64
        found, listed = machine._seek(numbers, most, min(at_once, within("runs", runs, 64) - done), looked, goal)
        done, cut = done + found.right, cut + found.cut
        if found.verdict.kind:
            seeded = order if isinstance(order, Turns) else replace(order, seed=(first + done) % 2**64)
            return WrongRun(seeded, verdict_of(found.verdict), events_of(listed, cpus, keys), done, cut)
        if progress:
            progress(done)
        if done >= runs:
            return AllRight(done, cut)
