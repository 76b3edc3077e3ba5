"""The calls of talusdish.h by ctypes."""

from __future__ import annotations

import ctypes as c
import os
from pathlib import Path
from typing import Any

OK, NOTHING, NO_MEMORY, BAD = 0, 255, 254, 253
RUN_OFF, RUN_STUCK, ALL_RIGHT, BAD_WATCH, DROPPED = 16, 17, 21, 22, 23
NO_SYMBOL, MORE = 24, 25


class Slot(c.Structure):
    _fields_ = [("at", c.c_void_p), ("full", c.c_bool)]


class Fault(c.Structure):
    _fields_ = [("line", c.c_uint64), ("column", c.c_uint64)]


class Size(c.Structure):
    _fields_ = [("ram", c.c_uint32), ("processors", c.c_uint32), ("log", c.c_uint32), ("line", c.c_bool), ("strict", c.c_bool)]


class OrderNumbers(c.Structure):
    _fields_ = [
        ("kind", c.c_uint32), ("turns", c.c_uint32), ("seed", c.c_uint64), ("changes", c.c_uint32), ("within", c.c_uint32),
        ("transfer", c.c_uint32), ("gap", c.c_uint32), ("gaps", c.c_bool),
    ]


class Style(c.Structure):
    _fields_ = [("names", c.c_bool), ("symbols", c.c_bool), ("loads", c.c_bool)]


class Goal(c.Structure):
    _fields_ = [("address", c.c_uint32), ("word", c.c_uint32)]


class WatchNumbers(c.Structure):
    _fields_ = [("id", c.c_uint32), ("page", c.c_uint32), ("pte", c.c_uint32), ("done", c.c_uint32)]


class VerdictNumbers(c.Structure):
    _fields_ = [("kind", c.c_uint32), ("processor", c.c_uint32), ("address", c.c_uint32), ("row", c.c_uint32), ("other", c.c_uint32)]


class JudgementNumbers(c.Structure):
    _fields_ = [("verdict", VerdictNumbers), ("events", c.c_uint64)]


class Sought(c.Structure):
    _fields_ = [("verdict", VerdictNumbers), ("right", c.c_uint64), ("cut", c.c_uint64), ("events", c.c_uint64)]


class ClassNumbers(c.Structure):
    _fields_ = [("most", c.c_uint32), ("from_", c.c_uint32), ("within", c.c_uint32)]


class SoughtList(c.Structure):
    _fields_ = [
        ("verdict", VerdictNumbers), ("right", c.c_uint64), ("cut", c.c_uint64), ("events", c.c_uint64), ("count", c.c_uint32),
        ("delays", c.c_uint32 * 64),
    ]


class ListNumbers(c.Structure):
    _fields_ = [("count", c.c_uint32), ("delays", c.c_uint32 * 64)]


class SoughtSlice(c.Structure):
    _fields_ = [("found", SoughtList), ("goes_on", c.c_bool), ("next", ListNumbers)]


class Exploration(c.Structure):
    _fields_ = [("kind", c.c_uint32), ("states", c.c_uint32), ("events", c.c_uint64), ("verdict", VerdictNumbers)]


class OutcomeNumbers(c.Structure):
    _fields_ = [("kind", c.c_uint32), ("first", c.c_uint32), ("second", c.c_uint32)]


class EntryView(c.Structure):
    _fields_ = [("kind", c.c_uint32), ("value", c.c_uint32), ("outcome", OutcomeNumbers)]


class ConflictView(c.Structure):
    _fields_ = [("processor", c.c_uint32), ("row", c.c_uint32), ("other", c.c_uint32)]


class ProcessorView(c.Structure):
    _fields_ = [
        ("registers", c.c_uint32 * 32), ("hi", c.c_uint32), ("lo", c.c_uint32), ("pc", c.c_uint32), ("state", c.c_uint32),
        ("in_slot", c.c_bool), ("count", c.c_uint64),
    ]


class RowWords(c.Structure):
    _fields_ = [("high", c.c_uint32), ("low", c.c_uint32)]


class BoardView(c.Structure):
    _fields_ = [("off", c.c_bool), ("sending", c.c_bool), ("latch", c.c_uint8), ("waiting", c.c_uint32), ("started", c.c_uint32)]


def _path() -> str:
    """The library: $TALUSDISH_LIBRARY, or the one in the package, or what c/build left in the repository."""
    named = os.environ.get("TALUSDISH_LIBRARY")
    if named:
        return named
    here = Path(__file__).resolve().parent
    for path in (here / "libtalusdish.so", here.parent.parent / "c" / "out" / "libtalusdish.so"):
        if path.exists():
            return str(path)
    raise ImportError("libtalusdish.so is in neither the package nor c/out: run c/build, or set TALUSDISH_LIBRARY")


def _load() -> Any:
    lib = c.CDLL(_path())
    slot, size, u8, u32, u64, point = c.POINTER(Slot), c.c_size_t, c.c_uint8, c.c_uint32, c.c_uint64, c.POINTER
    forms: dict[str, tuple[Any, ...]] = {
        "open": (c.c_bool, slot),
        "close": (None, slot),
        "assemble": (u8, slot, c.c_char_p, size, c.c_bool, point(Fault)),
        "boot": (u8, slot, c.c_char_p, size, point(Size)),
        "event": (u8, slot, u8, u32, point(OutcomeNumbers)),
        "step": (u8, slot, u32, point(OutcomeNumbers)),
        "key": (u8, slot, u8, point(OutcomeNumbers)),
        "done": (u8, slot, point(OutcomeNumbers)),
        "steps": (u8, slot, u32, u32, point(u32)),
        "drive": (u8, slot, point(OrderNumbers), c.c_char_p, size, u64, point(u64)),
        "trace": (u8, slot, point(OrderNumbers), c.c_char_p, size, c.c_bool, u64, point(u64)),
        "lines": (u8, slot, point(OrderNumbers), c.c_char_p, size, point(Style), c.c_char_p, size, u64, point(u64)),
        "search": (u8, slot, point(OrderNumbers), c.c_char_p, size, u64, u64, point(Goal), point(u64)),
        "explore": (
            u8, slot, u32, c.c_char_p, size, point(WatchNumbers), size, point(u32), size, c.c_bool, c.c_char_p, size, point(Exploration),
        ),
        "explore_begin": (
            u8, slot, u32, c.c_char_p, size, point(WatchNumbers), size, point(u32), size, c.c_bool, c.c_char_p, size,
        ),
        "explore_slice": (u8, slot, u32, point(Exploration)),
        "seeds": (
            u8, slot, c.c_char_p, size, point(OrderNumbers), u64, u64, u32, c.c_char_p, size, point(WatchNumbers), size, point(u32), size,
            c.c_bool, c.c_char_p, size, point(Sought),
        ),
        "delays": (
            u8, slot, c.c_char_p, size, point(OrderNumbers), point(ClassNumbers), u64, u32, c.c_char_p, size, point(WatchNumbers), size,
            point(u32), size, c.c_bool, c.c_char_p, size, point(SoughtList),
        ),
        "slice": (
            u8, slot, c.c_char_p, size, point(OrderNumbers), point(ClassNumbers), point(ListNumbers), u64, u64, u32, c.c_char_p, size,
            point(WatchNumbers), size, point(u32), size, c.c_bool, c.c_char_p, size, point(SoughtSlice),
        ),
        "symbol": (u8, c.c_char_p, size, c.c_char_p, size, point(u32)),
        "nearest": (u8, slot, c.c_char_p, size, u32, point(u32)),
        "audit": (u8, slot, point(WatchNumbers), size, point(JudgementNumbers)),
        "judge": (
            u8, slot, c.c_char_p, size, c.c_char_p, size, point(WatchNumbers), size, point(u32), size, c.c_bool, c.c_char_p, size,
            point(JudgementNumbers),
        ),
        "hung": (
            u8, slot, c.c_char_p, size, u32, c.c_char_p, size, point(WatchNumbers), size, point(u32), size, c.c_bool, c.c_char_p, size,
            point(JudgementNumbers),
        ),
        "processor": (c.c_bool, slot, u32, point(ProcessorView)),
        "made": (u64, slot),
        "output": (u8, slot),
        "length": (size, slot),
        "read": (size, slot, size, c.c_char_p, size),
        "cop": (c.c_bool, slot, u32, u32, point(u32)),
        "row": (c.c_bool, slot, u32, u32, point(RowWords)),
        "board": (c.c_bool, slot, point(BoardView)),
        "link": (c.c_bool, slot, u32, point(u32)),
        "conflict": (c.c_bool, slot, point(ConflictView)),
        "entries": (size, slot),
        "entry": (c.c_bool, slot, size, point(EntryView)),
        "log": (u8, slot),
        "copy": (u8, slot, slot),
        "word": (c.c_bool, slot, u32, point(u32)),
    }
    for name, (result, *parameters) in forms.items():
        call = getattr(lib, f"talusdish_{name}")
        call.restype, call.argtypes = result, parameters
    return lib


lib = _load()
