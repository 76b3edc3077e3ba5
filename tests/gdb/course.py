"""A run, by what `trace`, `schedule` and `run` print of it: the events, what each Step fetches, loads and
stores, the registers and words that are known at a place, and the console's bytes."""
import re
import subprocess
from typing import NamedTuple, Optional

LOAD = re.compile(r"\(([0-9a-f]{8})\)=([0-9a-f]{8})")
STORE = re.compile(r"\[([0-9a-f]{8})\]=([0-9a-f]{8})")
REGISTER = re.compile(r"r([0-9]+)=([0-9a-f]{8})")
START = re.compile(r"starts ([0-9]+)")
BASE = re.compile(r"(-?[0-9]+)\(\$([0-9]+)\)$")


class Access(NamedTuple):
    is_store: bool
    word: int  # its physical address
    mapped: Optional[int]  # its virtual one, if a row of the TLB translated it


class Step(NamedTuple):
    processor: int
    pc: int
    fetched: bool
    access: Optional[Access]


def unmapped(address):
    """The physical address of one in kseg0 or kseg1."""
    return address & 0x1FFFFFFF if 0x80000000 <= address < 0xC0000000 else None


class Course:
    def __init__(self, program, words, processors, ram):
        def said(command, *more):
            done = subprocess.run([program, command, *words, *more], capture_output=True, timeout=60)
            return done.stdout

        self.words = words
        self.processors = processors
        self.ram = ram
        self.steps = []
        # (place from which it is known, value) of a register of a processor, and of a word of RAM
        self.registers = {(p, r): [(0, 0)] for p in range(processors) for r in range(32)}
        self.memory = {}
        self.events = self.listed(said("schedule").decode())
        *lines, self.stop = said("trace", "--loads").decode().splitlines()
        for line in lines:
            self.add(line)
        self.end = len(self.steps)
        sent = [j for j, event in enumerate(self.events[: self.end]) if event == "o"]
        self.sent = sent
        self.output = said("run")[: len(sent)]

    @staticmethod
    def listed(schedule):
        events = []
        for line in schedule.splitlines():
            parts = line.split()
            if parts[0] == "#":  # the machine line
                continue
            if parts[0] == "s" and len(parts) == 3:
                events += [f"s {parts[1]}"] * int(parts[2])
            else:
                events.append(line)
        return events

    def add(self, line):
        place = len(self.steps)
        head, _, items = line.partition("  ")
        parts = head.split(" ", 4)
        assert int(parts[0]) == place, line
        if parts[1] in ("o", "k"):
            self.steps.append(None)
            return
        p, pc = int(parts[1]), int(parts[2], 16)
        fetched = parts[3] != "-"
        if fetched and unmapped(pc) is not None:
            self.note(unmapped(pc), place, int(parts[3], 16), before=True)
        access = self.access(p, parts[4] if fetched else "", items, place)
        self.steps.append(Step(p, pc, fetched, access))
        for r, value in REGISTER.findall(items):
            self.registers[p, int(r)].append((place + 1, int(value, 16)))
        for q in START.findall(items):
            for r in range(1, 32):
                self.registers[int(q), r].append((place + 1, None))

    def access(self, p, text, items, place):
        load, store = LOAD.search(items), STORE.search(items)
        found = store or load
        if not found or int(found[1], 16) >= self.ram:
            return None
        word = int(found[1], 16)
        self.note(word, place + bool(store), int(found[2], 16), before=not store)
        offset, base = BASE.search(text).groups()
        value = self.known(self.registers[p, int(base)], place)
        mapped = None
        if value is None:
            raise ValueError(f"event {place}: its address isn't known")
        address = (value + int(offset)) % 2**32
        if unmapped(address) is None:
            mapped = address // 4 * 4
        else:
            assert unmapped(address) // 4 * 4 == word
        return Access(bool(store), word, mapped)

    def note(self, word, place, value, before):
        """A word of RAM has this value at a place. Without a store it had it before, too."""
        known = self.memory.setdefault(word, [])
        if before and known:
            assert known[-1][1] == value, f"the word at {word:x} has another value at {place}"
        else:
            known.append((0 if before else place, value))

    @staticmethod
    def known(values, place):
        found = None
        for since, value in values:
            if since <= place:
                found = value
        return found

    def word(self, address, place):
        return self.known(self.memory.get(address, []), place)

    def console(self, place):
        return self.output[: sum(j < place for j in self.sent)]

    def next(self, place):
        """What comes at a place, as `monitor at` tells it."""
        if place < self.end:
            return self.events[place]
        if self.stop in ("stop: stuck", "stop: end"):
            return "end"
        return self.stop[len("stop: ") :]

    def last_processor(self, place):
        for step in reversed(self.steps[:place]):
            if step:
                return step.processor
        return 0
