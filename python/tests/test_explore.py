"""Tests of explorations, of searches and of verdicts, over the library that c/build made."""

import os
import signal
import threading
import unittest
from pathlib import Path
from unittest import mock

import talusdish
from talusdish import (
    AllRight, Clean, Delayed, Delays, Event, Found, Hung, Judgement, Machine, Open, Priorities, Random, Stop, Turns, Verdict, Watch, Wrong, WrongRun, assemble,
    explore, search,
)
from talusdish._judging import events_of, goal_of, verdict_of
from talusdish._library import Exploration, lib
from talusdish._machine import _bytes

EXAMPLES = Path(__file__).resolve().parents[2] / "examples"
LABS = EXAMPLES / "labs"
SPIN = "here: beq $0, $0, here\n nop\n"
SUM = "main: addiu $8, $0, 5\n addiu $9, $8, 7\n lui $10, 0x8000\n sw $9, 0x3010($10)\nlast: wait\n beq $0, $0, last\n nop\n"
POLL = " lui $8, 0xbfe0\nread: lw $9, 8($8)\n andi $9, $9, 2\n beq $9, $0, read\n nop\ngot: nop\n"
# Reads Random at its third Step, and spins.
READER = " nop\n nop\n mfc0 $8, $1\nhere: beq $0, $0, here\n nop\n"
# Two processors count down beside each other, and wait.
COUNTERS = (
    " lui $8, 0xbfff\n ori $8, $8, 0x8000\n lui $9, 0x8000\n ori $9, $9, 0x021c\n sw $9, 1792($8)\n ori $9, $0, 3\n sw $9, -492($8)\n"
    "both: ori $10, $0, {}\nturn: addiu $10, $10, -1\n bne $10, $0, turn\n nop\nrest: wait\n beq $0, $0, rest\n nop\n"
)


def counters(times):
    return assemble(COUNTERS.format(times))


def in_one_call(machine, states, keys=b"", watches=(), never=(), output=None):
    """What one call of the library finds."""
    found = Exploration()
    answer = lib.talusdish_explore(machine._slot, states, *goal_of(keys, watches, never, output), found)
    assert answer == 0, answer
    events = events_of(_bytes(machine._slot), len(machine.processors), keys)
    if found.kind == 1:
        return Found(verdict_of(found.verdict), events, found.states)
    return (Clean(found.states), None, Hung(events, found.states), Open(states, found.events))[found.kind]


def by(number):
    """Slices of so many states."""
    return mock.patch.object(talusdish._machine, "_states_at_once", lambda cpus: number)


def lab(name):
    return assemble((LABS / f"{name}.s").read_text())


def example(name):
    return assemble((EXAMPLES / f"{name}.s").read_text())


class Exploring(unittest.TestCase):
    def test_lost_update(self):
        found = explore(lab("lost-update"), ram=28672, cpus=2)
        steps = [0] * 12 + [1] * 4 + [0] * 9 + [1] * 14
        self.assertEqual(found, Found(Verdict(Wrong.STUCK), tuple((Event.STEP, p) for p in steps), 651))
        machine = Machine(lab("lost-update"), ram=28672, cpus=2)
        machine.make(found.events)
        self.assertEqual(machine.run().stop, Stop.STUCK)
        self.assertEqual(machine.memory[0x1000], 1)
        self.assertEqual(explore(lab("lost-update-fixed"), ram=28672, cpus=2), Clean(527))

    def test_hung(self):
        found = explore(lab("two-locks"), ram=28672, cpus=2)
        self.assertIsInstance(found, Hung)
        self.assertEqual(found.states, 1201)
        self.assertEqual(found.events[:19], ((Event.STEP, 0),) * 12 + ((Event.STEP, 1),) * 7)
        self.assertEqual(explore(assemble("here: beq $0, $0, here\n nop\n"), ram=4096), Hung((), 2))

    def test_open_and_what_stays(self):
        machine = Machine(assemble(SUM), ram=65536)
        machine.run(events=2)
        before = machine.log
        self.assertEqual(machine.explore(3), Open(3, 2))
        self.assertEqual(machine.explore(), Found(Verdict(Wrong.STUCK), ((Event.STEP, 0),) * 5, 5))
        self.assertEqual(machine.explore(output=b""), Clean(6))
        self.assertEqual(machine.explore(never=[0x80000208, 4], output=b"").verdict, Verdict(Wrong.REACHED, address=0x80000208))
        self.assertEqual((machine.made, machine.log), (2, before))

    def test_key(self):
        found = explore(assemble(POLL), ram=4096, keys=b"k", never=[0x80000214])
        step = (Event.STEP, 0)
        self.assertEqual(found.events, (step, (Event.KEY, ord("k")), step, step, step, step, step))

    def test_slices(self):
        hasty = assemble((EXAMPLES / "shootdown.s").read_text().replace("beq     $15, $0, acked", "nop"))
        for name, image, size, goal, kind in (
            ("lost-update", lab("lost-update"), {"cpus": 2}, {}, Found), ("two-locks", lab("two-locks"), {"cpus": 2}, {}, Hung),
            ("lost-update-fixed", lab("lost-update-fixed"), {"cpus": 2}, {}, Clean), ("hasty", hasty, {"cpus": 2}, {"watches": [Watch(5, 0x400, 0x3000, 0x3004)]}, Found),
            ("key", assemble(POLL), {}, {"keys": b"k", "never": [4, 0x80000214]}, Found), ("hello", example("hello"), {}, {"output": b"ho"}, Found),
            ("open", lab("two-locks"), {"cpus": 2}, {"states": 99}, Open), ("random", assemble(READER), {}, {}, Hung),
        ):
            machine = Machine(image, ram=65536, **size)
            goal = {"states": 9999, **goal}
            whole = in_one_call(machine, **goal)
            self.assertIsInstance(whole, kind)
            for number in (1, 7, 1000, 2**32 - 1):
                with self.subTest(name, number=number), by(number):
                    self.assertEqual(machine.explore(**goal), whole)
            self.assertEqual(machine.explore(**goal), whole)

    def test_progress(self):
        # What is expected is what `s161 explore` prints.
        told = []
        self.assertEqual(explore(counters(40), ram=28672, cpus=2, output=b"", progress=told.append), Clean(15136))
        self.assertTrue(told and told[-1] <= 15136)
        self.assertEqual(told, sorted(told))
        # a state after the other, in a row; and anew, since the third Step reads Random
        for image, states in ((SUM, [2, 3, 4, 5, 6]), (READER, [2, 3, 1, *range(2, 60)])):
            told = []
            with by(1):
                machine = Machine(assemble(image), ram=4096 * 4)
                found = machine.explore(output=b"", progress=told.append)
            self.assertEqual((told, found.states), (states, states[-1]))

    def test_ended_early(self):
        machine = Machine(counters(40), ram=28672, cpus=2)
        told = []
        with self.assertRaises(KeyError):
            machine.explore(output=b"", progress=lambda states: {}[told.append(states)])
        self.assertEqual(len(told), 1)
        # another thread can't use it meanwhile, nor can `progress`
        with self.assertRaises(RuntimeError):
            machine.explore(output=b"", progress=lambda states: machine.step())
        machine.step()
        self.assertEqual((machine.made, machine.explore(output=b"")), (1, Clean(15136)))

    def test_ctrl_c(self):
        before = signal.signal(signal.SIGINT, signal.default_int_handler)
        timer = threading.Timer(0.1, os.kill, (os.getpid(), signal.SIGINT))
        try:
            timer.start()
            with self.assertRaises(KeyboardInterrupt):
                explore(counters(9999), ram=28672, cpus=2)  # a million states, which take seconds
        finally:
            timer.join()
            signal.signal(signal.SIGINT, before)

    def test_refusals(self):
        machine = Machine(assemble(SUM), ram=65536)
        for watch in (Watch(64, 0, 0, 4), Watch(0, 2**20, 0, 4), Watch(0, 0, 1, 4), Watch(0, 0, 0, 65536), Watch(0, 0, 4, 4)):
            with self.subTest(watch), self.assertRaises(talusdish.BadWatch):
                machine.explore(watches=[Watch(63, 2**20 - 1, 65532, 0), watch])
        for wrong in ({"states": 0}, {"states": 2**32}, {"never": [2**32]}, {"watches": [Watch(-1, 0, 0, 4)]}):
            with self.subTest(wrong), self.assertRaises(ValueError):
                machine.explore(**wrong)

    def test_conflict(self):
        # A strict machine: row 3 has the page, and row 5 is to get it too.
        text = " lui $8, 0x40\n mtc0 $8, $10\n ori $9, $0, 0x200\n mtc0 $9, $2\n ori $9, $0, 0x300\n mtc0 $9, $0\n tlbwi\n ori $9, $0, 0x500\n mtc0 $9, $0\n tlbwi\n"
        found = explore(assemble(text), ram=4096, strict=True)
        self.assertEqual((found.verdict, len(found.events)), (Verdict(Wrong.CONFLICT, row=5, other=3), 10))


class Searching(unittest.TestCase):
    # What is expected of the labs is what `s161 search` prints of them.
    def small(self, name, **options):
        return search(lab(name), ram=28672, cpus=2, runs=100, events=2000, **options)

    def test_lost_update(self):
        found = self.small("lost-update")
        self.assertEqual((found.order, found.verdict, found.right, found.cut), (Random(1), Verdict(Wrong.STUCK), 1, 0))
        runs = ((0, 7), (1, 1), (0, 4), (1, 1), (0, 1), (1, 3), (0, 2), (1, 1), (0, 6), (1, 1), (0, 1), (1, 11))
        self.assertEqual(found.events, tuple((Event.STEP, p) for p, times in runs for _ in range(times)))
        machine = Machine(lab("lost-update"), ram=28672, cpus=2)
        machine.make(found.events)
        self.assertEqual((machine.run().stop, machine.memory[0x1000]), (Stop.STUCK, 1))
        found = self.small("lost-update", order=Priorities(3, 2, 40))
        self.assertEqual((found.order, found.verdict, found.right), (Priorities(31, 2, 40), Verdict(Wrong.STUCK), 28))
        self.assertEqual(self.small("lost-update-fixed"), AllRight(100, 0))

    def test_hung(self):
        found = self.small("two-locks")
        self.assertEqual((found.order, found.verdict), (Random(0), Verdict(Wrong.HUNG)))
        # these events hang, and one fewer don't
        for n, stuck in ((len(found.events), Judgement(Verdict(Wrong.HUNG), len(found.events))), (len(found.events) - 1, None)):
            machine = Machine(lab("two-locks"), ram=28672, cpus=2)
            machine.make(found.events[:n])
            self.assertEqual(machine.judge(hung=10000), stuck)
            self.assertIsNone(machine.judge())
        self.assertEqual(self.small("two-locks", hung=0), AllRight(100, 89))
        self.assertEqual(search(assemble(SPIN), ram=4096, events=50), WrongRun(Random(0), Verdict(Wrong.HUNG), (), 0, 0))
        self.assertEqual(search(assemble(SPIN), ram=4096, events=50, runs=3, hung=1), AllRight(3, 3))
        self.assertEqual(search(assemble(SPIN), ram=4096, events=50, runs=3, hung=1, output=b"").verdict, Verdict(Wrong.END))
        self.assertEqual(search(assemble(SPIN), ram=4096, events=50, runs=3, output=b"").verdict, Verdict(Wrong.HUNG))

    def test_delays(self):
        found = self.small("lost-update", order=Delays(2))
        self.assertEqual((found.order, found.verdict), (Delayed(50, (11,)), Verdict(Wrong.STUCK)))
        machine = Machine(lab("lost-update"), ram=28672, cpus=2)
        machine.make(found.events)
        self.assertEqual((machine.run().stop, machine.memory[0x1000]), (Stop.STUCK, 1))
        self.assertEqual(self.small("lost-update", order=Delays(2, 7)).order, Delayed(7, (11,)))
        for lists, runs in (
            (Delays(2), 277), (Delays(2, within=30), 221), (Delays(2, first=20), 61), (Delays(1, 3), 34), (Delays(0), 1), (Delays(2, first=9, within=9), 1),
        ):
            with self.subTest(lists):
                self.assertEqual(self.small("lost-update-fixed", order=lists), AllRight(runs, 0))
        found = self.small("two-locks", order=Delays(2))
        self.assertEqual((found.order, found.verdict), (Delayed(50, (12,)), Verdict(Wrong.HUNG)))
        self.assertEqual(found.events[:15], ((Event.STEP, 0),) * 12 + ((Event.STEP, 1),) * 3)
        self.assertEqual(self.small("two-locks", order=Delays(1), hung=0), AllRight(26, 6))
        self.assertEqual(self.small("two-locks", order=Delays(0)), AllRight(1, 0))

    def test_slices(self):
        told = []
        self.assertEqual(self.small("lost-update-fixed", progress=told.append, at_once=30), AllRight(100, 0))
        self.assertEqual(told, [30, 60, 90, 100])
        whole = self.small("lost-update", order=Priorities(3, 2, 40))
        for at_once in (1, 7, 28, 29, 1000):
            told = []
            self.assertEqual(self.small("lost-update", order=Priorities(3, 2, 40), progress=told.append, at_once=at_once), whole)
            self.assertEqual(told, list(range(at_once, 29, at_once)))
        # seeds begin again at 0, and what `progress` raises ends the search
        found = self.small("lost-update", order=Priorities(2**64 - 1, 1, 50), at_once=10)
        self.assertEqual((found.order, found.right), (Priorities(67, 1, 50), 68))
        with self.assertRaises(KeyError):
            self.small("lost-update-fixed", progress={}.__getitem__)
        self.assertEqual(search(assemble(SUM), runs=0, ram=65536), AllRight(0, 0))

    def test_slices_of_delays(self):
        told = []
        self.assertEqual(self.small("lost-update-fixed", order=Delays(2), progress=told.append), AllRight(277, 0))
        self.assertEqual(told, [100, 200, 277])
        told = []
        self.assertEqual(self.small("lost-update-fixed", order=Delays(2, within=30), progress=told.append, at_once=221), AllRight(221, 0))
        self.assertEqual(told, [221])
        cut = self.small("two-locks", order=Delays(1), hung=0)
        for kernel, lists in (("lost-update", Delays(2)), ("lost-update", Delays(3, 7, 5)), ("two-locks", Delays(2))):
            whole = self.small(kernel, order=lists, at_once=2**64)
            for at_once in (1, 3, 12, 13):
                with self.subTest((kernel, lists, at_once)):
                    told = []
                    self.assertEqual(self.small(kernel, order=lists, progress=told.append, at_once=at_once), whole)
                    self.assertEqual(told, list(range(at_once, at_once * (len(told) + 1), at_once)))
                    self.assertEqual(self.small("two-locks", order=Delays(1), hung=0, at_once=at_once), cut)
        with self.assertRaises(KeyError):
            self.small("lost-update-fixed", order=Delays(1), progress={}.__getitem__)

    def test_keys_and_transfers(self):
        found = search(assemble(POLL), Turns(1), 1, 99, ram=4096, keys=b"k", gap=3, never=[0x80000214])
        self.assertEqual((found.order, found.verdict.wrong, found.events[3]), (Turns(1), Wrong.REACHED, (Event.KEY, ord("k"))))
        self.assertIn((Event.DONE, 0), search(example("hello"), ram=65536, runs=1, output=b"").events)

    def test_refusals(self):
        image = assemble(SUM)
        for wrong, options in (
            (talusdish.NoTurn, {"order": Turns(0)}), (talusdish.NoStretch, {"order": Priorities(0, 1, 0)}),
            (talusdish.BadWatch, {"watches": [Watch(0, 0, 4, 4)]}), (talusdish.BadConf, {"ram": 5}), (ValueError, {"at_once": 0}),
            (ValueError, {"order": Delays(1), "at_once": 0}),
            (ValueError, {"runs": -1}), (ValueError, {"order": Delays(65)}), (talusdish.NoTurn, {"order": Delays(1, 0)}), (ValueError, {"hung": 2**32}), (ValueError, {"events": -1}),
        ):
            with self.subTest(wrong), self.assertRaises(wrong):
                search(image, **options)


class Judging(unittest.TestCase):
    def test_stale(self):
        text = (EXAMPLES / "shootdown.s").read_text()
        watch = Watch(5, 0x400, 0x3000, 0x3004)
        for name, kernel, stale in (
            ("shootdown", text, None),
            ("hasty", text.replace("beq     $15, $0, acked", "nop"), Judgement(Verdict(Wrong.STALE, 1, 0x400000, 53), 38)),
        ):
            with self.subTest(name):
                machine = Machine(assemble(kernel), ram=65536, cpus=2)
                for line in (EXAMPLES / f"{name}.schedule").read_text().splitlines():
                    if line.startswith("s "):
                        machine.steps(int(line.split()[2]), int(line.split()[1]))
                made = machine.made
                self.assertEqual(machine.audit([watch]), stale)
                self.assertEqual(machine.judge(watches=[watch], keys=b"k"), stale)
                self.assertEqual(machine.copy().audit([Watch(5, 0x401, 0x3000, 0x3004), watch]), stale)
                self.assertEqual(machine.made, made)

    def test_verdicts(self):
        machine = Machine(assemble(SUM), ram=65536)
        self.assertIsNone(machine.judge(output=None))
        self.assertEqual(machine.judge(output=b""), Judgement(Verdict(Wrong.END), 0))
        machine.run(events=9)
        self.assertEqual(machine.judge(), Judgement(Verdict(Wrong.STUCK), 5))
        self.assertIsNone(machine.judge(output=b""))
        self.assertIsNone(machine.copy().judge(keys=b"k"))
        self.assertEqual(machine.judge(never=[0x80000204]), Judgement(Verdict(Wrong.REACHED, address=0x80000204), 2))

    def test_refusals(self):
        machine = Machine(assemble(SUM), ram=65536, log=2)
        machine.run(events=3)
        for call in (machine.judge, lambda: machine.audit([])):
            with self.assertRaises(talusdish.Dropped):
                call()
        with self.assertRaises(talusdish.BadWatch):
            Machine(assemble(SUM), ram=65536).audit([Watch(0, 0, 4, 4)])


if __name__ == "__main__":
    unittest.main()
