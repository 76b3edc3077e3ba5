"""The machine and the assembler of Talusdish, a proved emulator of System/161.

    from talusdish import Machine, Turns, assemble

    image = assemble(open("hello.s").read())
    machine = Machine(image, ram=65536, cpus=2)
    machine.run(Turns(1), events=1000)
    assert machine.output == b"hi"

A machine belongs to one thread at a time. Words are of 32 bits, addresses in bytes.
"""

from ._errors import (
    AssemblyError, BadConf, BadEntry, BadHeaderTable, BadProcessor, BadWatch, BootError, Dropped, FileLargerThanMemory, GoalError, KeyFull, NoStretch, NotElf32Big,
    NotExecutable, NothingSent, NotMips, NoTurn, Off, OrderError, Refusal, SegmentOutsideFile, SegmentOutsideRam, TalusdishError,
    TooManyChanges, Truncated, Worn,
)
from ._judging import (
    AllRight, Clean, Event, Explored, Found, Hung, Judgement, Made, Open, Searched, Verdict, Watch, Wrong, WrongRun,
)
from ._machine import (
    Conflict, Console, Doing, Entries, Entry, Image, Kind, Machine, Memory, Outcome, Processor, Processors, Run, Stop, assemble, explore, search,
)
from ._orders import Delayed, Delays, Order, Priorities, Random, Seeded, Turns
from ._trace import TraceLine

__all__ = [
    "AllRight", "AssemblyError", "BadConf", "BadEntry", "BadHeaderTable", "BadProcessor", "BadWatch", "BootError", "Clean",
    "Conflict", "Console", "Delayed", "Delays", "Doing", "Dropped", "Entries", "Entry", "Event", "Explored", "FileLargerThanMemory", "Found",
    "GoalError", "Hung", "Image", "Judgement", "KeyFull", "Kind", "Machine", "Made", "Memory", "NoStretch", "NoTurn",
    "NotElf32Big", "NotExecutable", "NotMips", "NothingSent", "Off", "Open", "Order", "OrderError", "Outcome", "Priorities",
    "Processor", "Processors", "Random", "Refusal", "Run", "Searched", "Seeded", "SegmentOutsideFile", "SegmentOutsideRam",
    "Stop", "TalusdishError", "TooManyChanges", "TraceLine", "Truncated", "Turns", "Verdict", "Watch", "Worn", "Wrong", "WrongRun",
    "assemble", "explore", "search",
]
