"""What both scripts share: the commands as they answer undisturbed, and the account of all runs."""
import os
import sys
import tempfile
import time
from collections import Counter

import commands
import running

# What is done to the commands of a sweep; each process finds it here.
sweep = None


def start(script, program, shim, top, size, chosen=()):
    """A folder for the runs, with the files that the commands need; the chosen ones of the commands,
    or all."""
    folder = tempfile.TemporaryDirectory(prefix="s161-hostile-")
    make = commands.Maker(program, top, folder.name)
    listed = list(enumerate(commands.SIZES[size](make), 1))
    for word in chosen:
        if not any(is_chosen(word, *place) for place in listed):
            for number, command in listed:
                print(f"{number}: {command.name}")
            folder.cleanup()
            sys.exit(f"{script}: no command is {word}")
    return Sweep(
        script,
        program,
        shim,
        folder,
        [place for place in listed if not chosen or any(is_chosen(word, *place) for word in chosen)],
    )


def is_chosen(word, number, command):
    """Whether a word chooses a command: by its number, by two numbers that it stands between, or by a
    part of its line."""
    first, dash, last = word.partition("-")
    if first.isdigit() and (last.isdigit() or not dash):
        return int(first) <= number <= int(last or first)
    return word in command.name


class Sweep:
    """The commands of one size, how each answers undisturbed, and what was found."""

    def __init__(self, script, program, shim, folder, listed):
        """`listed` are the commands, each with its number."""
        self.script = script
        self.program = program
        self.shim = shim
        self.folder = folder
        self.numbers = [number for number, _command in listed]
        self.commands = [command for _number, command in listed]
        self.usual = []
        self.found = {}
        self.faults = {}
        self.passed = 0
        self.failed = 0
        self.begun = time.monotonic()

    def files(self):
        """The file that each command reads as its standard input."""
        for number, command in enumerate(self.commands):
            path = os.path.join(self.folder.name, f"input-{number}")
            with open(path, "wb") as file:
                file.write(command.text or b"")
            yield path if command.text is not None else "/dev/null"

    def settle(self, judge):
        """Makes each run undisturbed, twice; tells of those that aren't as they should be."""
        global sweep
        place = running.settle(self.program, self.shim, self.folder.name)
        self.inputs = list(self.files())
        for command, read in zip(self.commands, self.inputs):
            first, again = (place.run(command.words, read, limit=120) for _ in range(2))
            fault = None
            if not first.counts.started:
                fault = "the shim didn't see its start: the program isn't linked to the C library"
            elif first.counts.unwatched:
                fault = "it makes calls that the shim doesn't watch"
            elif first.status != command.ends:
                fault = f"undisturbed it ends with {first.status}, not {command.ends}: "
                fault += repr(first.errors.decode(errors="replace")[:120])
            elif not judge.is_same(command, again, first):
                fault = "undisturbed two runs answer differently"
            self.usual.append(None if fault else first)
            if fault:
                print(f"{self.script}: {command.name}: {fault}", flush=True)
        sweep = self

    def limit(self, number):
        """The seconds after which a run counts as one that doesn't end."""
        return max(20.0, 50 * self.usual[number].seconds)

    def note(self, number, mode, kind, fault):
        """Notes the answer of one run."""
        self.found.setdefault((number, mode), Counter())[kind] += 1
        if fault:
            self.faults.setdefault((number, mode), []).append(fault)

    def account(self, modes, head, each_mode=True):
        """Prints what each command answered, by mode or in all; one that was wrong is told whole."""
        for number, command in enumerate(self.commands):
            if self.usual[number] is None:
                self.failed += 1
                continue
            print(f"{self.numbers[number]}: {command.name}: {head(self.usual[number])}")
            found = {mode: self.found[(number, mode)] for mode in modes if (number, mode) in self.found}
            if each_mode:
                for mode, kinds in found.items():
                    print(f"    {mode}: {counted(kinds)}")
            else:
                print(f"    {len(found)} ways: {counted(sum(found.values(), Counter()))}")
            for mode in found:
                wrong = self.faults.get((number, mode), [])
                for fault in wrong[:5]:
                    print(f"{self.script}: {command.name}: {mode}: {fault}")
                if len(wrong) > 5:
                    print(f"{self.script}: {command.name}: {mode}: and {len(wrong) - 5} more")
                self.passed += not wrong
                self.failed += bool(wrong)

    def end(self):
        """Prints the last line, and ends with its status."""
        runs = sum(sum(kinds.values()) for kinds in self.found.values())
        print(f"{runs} runs in {time.monotonic() - self.begun:.0f} s")
        print(f"{self.passed} passed, {self.failed} failed")
        self.folder.cleanup()
        sys.exit(1 if self.failed else 0)


def counted(kinds):
    """Kinds of answers with their counts."""
    return ", ".join(f"{count} {kind}" for kind, count in sorted(kinds.items()))


def told(answer):
    """An answer, short enough for a line."""
    return (
        f"status {answer.status}, output {answer.output[-160:]!r} ({len(answer.output)} bytes), "
        f"errors {answer.errors[:200]!r}"
    )
