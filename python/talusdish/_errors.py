"""Exceptions, named as the refusals."""

from __future__ import annotations

from typing import ClassVar


class TalusdishError(Exception):
    """What the machine or the assembler refuses. `number` is its number in talusdish.h."""

    number: ClassVar[int] = 0


class AssemblyError(TalusdishError, ValueError):
    """Why a text isn't assembled: `line` and `column` from 1, the column in bytes of UTF-8, and `kind`, the fault's name."""

    def __init__(self, line: int, column: int, kind: str) -> None:
        super().__init__(f"{line}:{column}: {kind}")
        self.line, self.column, self.kind = line, column, kind


class BootError(TalusdishError, ValueError):
    """Why an image isn't booted."""


class Refusal(TalusdishError):
    """Why an event is refused. The machine is as it was."""


class OrderError(TalusdishError, ValueError):
    """A number of an order that is outside its limits."""


class GoalError(TalusdishError, ValueError):
    """What a run is to be judged by can't be asked of this machine."""


def _kind(base: type[TalusdishError], name: str, number: int, text: str) -> type[TalusdishError]:
    return type(name, (base,), {"__doc__": text, "__module__": "talusdish", "number": number})


BadConf = _kind(BootError, "BadConf", 1, "The size is outside the limits.")
Truncated = _kind(BootError, "Truncated", 2, "The file is shorter than an ELF header.")
NotElf32Big = _kind(BootError, "NotElf32Big", 3, "The file is not a big-endian ELF32 file.")
NotExecutable = _kind(BootError, "NotExecutable", 4, "The file is not an executable.")
NotMips = _kind(BootError, "NotMips", 5, "The file is not for MIPS.")
BadHeaderTable = _kind(BootError, "BadHeaderTable", 6, "The table of program headers is bad.")
SegmentOutsideFile = _kind(BootError, "SegmentOutsideFile", 7, "A segment ends past the file's end.")
SegmentOutsideRam = _kind(BootError, "SegmentOutsideRam", 8, "A segment lies outside RAM.")
FileLargerThanMemory = _kind(BootError, "FileLargerThanMemory", 9, "A segment is larger in the file than in memory.")
BadEntry = _kind(BootError, "BadEntry", 10, "The entry is misaligned or outside RAM.")

BadProcessor = _kind(Refusal, "BadProcessor", 1, "There is no such processor.")
Off = _kind(Refusal, "Off", 2, "The machine is off.")
Worn = _kind(Refusal, "Worn", 8, "The machine has accepted 2^63 - 1 events.")
KeyFull = _kind(Refusal, "KeyFull", 4, "256 typed bytes are waiting.")
NothingSent = _kind(Refusal, "NothingSent", 5, "The console isn't sending a byte.")

NoTurn = _kind(OrderError, "NoTurn", 18, "A turn has at least 1 Step.")
NoStretch = _kind(OrderError, "NoStretch", 19, "A stretch has at least 1 Step.")
TooManyChanges = _kind(OrderError, "TooManyChanges", 20, "A stretch has at most 64 changes.")

BadWatch = _kind(GoalError, "BadWatch", 22, "A watch has an identifier, a page or a word that there isn't, or one word for both.")

Dropped = _kind(GoalError, "Dropped", 23, "The log has no room for all events since the boot.")

BOOT = {it.number: it for it in (BadConf, Truncated, NotElf32Big, NotExecutable, NotMips, BadHeaderTable, SegmentOutsideFile, SegmentOutsideRam, FileLargerThanMemory, BadEntry)}
REFUSALS = {it.number: it for it in (BadProcessor, Off, Worn, KeyFull, NothingSent)}
ORDERS = {it.number: it for it in (NoTurn, NoStretch, TooManyChanges)}
GOALS = {it.number: it for it in (BadWatch, Dropped)}
KINDS = ["", "BadToken", "UnknownWord", "BadOperand", "OutOfRange", "UnknownLabel", "DoubleLabel", "BranchTooFar", "Overlap"]


def refusal(number: int) -> Exception:
    """The exception of a refused event."""
    if number in (6, 254):
        return MemoryError("talusdish")
    kind = REFUSALS[number]
    return kind(kind.__doc__)


def boot_error(number: int) -> Exception:
    if number == 254:
        return MemoryError("talusdish")
    kind = BOOT[number]
    return kind(kind.__doc__)
