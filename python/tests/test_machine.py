"""Tests of the package, over the library that c/build made."""

import threading
import unittest
from pathlib import Path

import talusdish
from talusdish import Conflict, Doing, Entry, Event, Image, Kind, Machine, Outcome, Priorities, Random, Stop, Turns, assemble

EXAMPLES = Path(__file__).resolve().parents[2] / "examples"
SUM = "main: addiu $8, $0, 5\n addiu $9, $8, 7\n lui $10, 0x8000\n sw $9, 0x3010($10)\nlast: wait\n beq $0, $0, last\n nop\n"
COUNTER = (
    "main: lui $8, 0x8000\n lw $9, 0x21c($8)\n addiu $9, $9, 1\n sw $9, 0x21c($8)\nlast: wait\n beq $0, $0, last\n nop\ntotal: .word 5\n"
)
ECHO = """ lui $8, 0xbfe0
read: lw $9, 8($8)
 andi $9, $9, 2
 beq $9, $0, read
 nop
 lw $10, 0($8)
 sw $10, 0($8)
sent: lw $9, 4($8)
 andi $9, $9, 2
 beq $9, $0, sent
 nop
 sw $0, 4($8)
 beq $0, $0, read
 nop
"""


class Assembling(unittest.TestCase):
    def test_fault(self):
        with self.assertRaises(talusdish.AssemblyError) as caught:
            assemble("main: addiu $8, $0, 1\n  bogus $1\n")
        self.assertEqual((caught.exception.line, caught.exception.column, caught.exception.kind), (2, 3, "UnknownWord"))
        self.assertEqual(str(caught.exception), "2:3: UnknownWord")

    def test_kinds(self):
        for text, kind in (("?", "BadToken"), ("addiu $8", "BadOperand"), ("addiu $8, $0, 70000", "OutOfRange"), ("beq $0, $0, b", "UnknownLabel"), ("a: nop\na: nop", "DoubleLabel"), (".org 0x80000200\nnop\n.org 0x80000200\nnop", "Overlap")):
            with self.subTest(kind), self.assertRaises(talusdish.AssemblyError) as caught:
                assemble(text)
            self.assertEqual(caught.exception.kind, kind)

    def test_column_in_bytes(self):
        with self.assertRaises(talusdish.AssemblyError) as caught:
            assemble("nop # \N{SNOWMAN}\n  bogus")
        self.assertEqual((caught.exception.line, caught.exception.column), (2, 3))

    def test_symbols(self):
        self.assertGreater(len(assemble(SUM, symbols=True).file), len(assemble(SUM).file))
        self.assertTrue(assemble(SUM).file.startswith(b"\x7fELF"))

    def test_empty(self):
        self.assertEqual(Machine(assemble(""), ram=4096).processors[0].pc, 0x80000200)


class Booting(unittest.TestCase):
    def test_refusals(self):
        file = assemble(SUM).file
        for kind, image, ram, cpus in (
            (talusdish.BadConf, file, 100, 1), (talusdish.BadConf, file, 4096, 33), (talusdish.BadConf, file, 4096, 0),
            (talusdish.Truncated, b"", 4096, 1), (talusdish.Truncated, file[:51], 4096, 1), (talusdish.NotElf32Big, b"X" + file[1:], 4096, 1),
            (talusdish.SegmentOutsideFile, file[:-1], 4096, 1),
        ):
            with self.subTest(kind.__name__), self.assertRaises(kind) as caught:
                Machine(Image(image), ram=ram, cpus=cpus)
            self.assertIsInstance(caught.exception, talusdish.BootError)
            self.assertEqual(caught.exception.number, kind.number)
        misaligned = file[:24] + b"\x80\0\2\2" + file[28:]
        with self.assertRaises(talusdish.BadEntry):
            Machine(Image(misaligned), ram=4096)
        with self.assertRaises(ValueError):
            Machine(Image(file), ram=2**32)
        with self.assertRaises(ValueError):
            Machine(Image(file), cpus=-1)


class Events(unittest.TestCase):
    def test_steps(self):
        machine = Machine(assemble(SUM), ram=65536)
        self.assertEqual(machine.processors[0].pc, 0x80000200)
        self.assertEqual(machine.step(), Outcome(Kind.RAN, 0, 0))
        self.assertEqual(machine.processors[0].reg[8], 5)
        self.assertEqual(machine.steps(3), 3)
        self.assertEqual(machine.memory[0x3010], 12)
        self.assertEqual(machine.made, 4)
        self.assertEqual(machine.processors[-1].count, 4)
        self.assertEqual(machine.processors[0].state, Doing.RUNNING)
        self.assertEqual(machine.step(), Outcome(Kind.RAN, 0, 0))
        self.assertEqual(machine.processors[0].state, Doing.WAITING)
        self.assertEqual(machine.step().kind, Kind.IDLE)

    def test_refusals(self):
        machine = Machine(assemble(SUM), ram=65536)
        for p in (1, 2**32 - 1, 2**32, -1):
            with self.subTest(p), self.assertRaises(talusdish.BadProcessor):
                machine.step(p)
            with self.subTest(p), self.assertRaises(talusdish.BadProcessor):
                machine.steps(1, p)
        with self.assertRaises(talusdish.NothingSent):
            machine.done()
        for byte in range(256):
            self.assertEqual(machine.key(byte).kind, Kind.TAKEN)
        with self.assertRaises(talusdish.KeyFull):
            machine.key(0)
        with self.assertRaises(ValueError):
            machine.key(256)
        self.assertEqual(machine.made, 256)

    def test_views(self):
        machine = Machine(assemble(SUM), ram=65536, cpus=2)
        self.assertEqual((len(machine.processors), len(machine.memory)), (2, 65536))
        self.assertEqual([p.state for p in machine.processors], [Doing.RUNNING, Doing.STOPPED])
        self.assertEqual(len(machine.processors[0:2]), 2)
        for p in (2, -3, 2**32):
            with self.subTest(p), self.assertRaises(IndexError):
                machine.processors[p]
        for address in (1, 65536, 2**32, -4):
            with self.subTest(address), self.assertRaises(IndexError):
                machine.memory[address]

    def test_trap(self):
        machine = Machine(assemble(" syscall\n nop\n"), ram=65536)
        self.assertEqual(machine.step(), Outcome(Kind.TRAPPED, 8, 0x80000080))


class Views(unittest.TestCase):
    def test_log(self):
        machine = Machine(assemble(SUM), ram=65536, log=2)
        self.assertEqual(machine.log, ["m161 log 2 word"])
        machine.steps(2)
        self.assertEqual(machine.log, ["m161 log 2 word", "s 0 ran", "s 0 ran"])
        machine.key(65)
        self.assertEqual(machine.log, ["m161 tail 2 word 1", "s 0 ran", "k 41 taken"])

    def test_board(self):
        machine = Machine(assemble(" lui $8, 0xbfe0\n ori $9, $0, 65\n sw $9, 0($8)\n"), ram=65536)
        self.assertEqual(machine.console, talusdish.Console(None, 0))
        machine.steps(3)
        machine.key(1)
        self.assertEqual(machine.console, talusdish.Console(65, 1))
        self.assertFalse(machine.is_off)

    def test_cop(self):
        machine = Machine(assemble(" lui $8, 0x0040\n ori $8, $8, 0x0140\n mtc0 $8, $10\n ori $9, $0, 0x5600\n mtc0 $9, $2\n tlbwi\n"), ram=65536)
        machine.steps(6)
        self.assertEqual((machine.cop(0, 15), machine.cop(0, 10)), (0xA1, 0x00400140))
        self.assertEqual(machine.row(0, 0), (0x00400140, 0x5600))
        for p, number in ((1, 10), (0, 3), (0, 32), (0, -1), (-1, 0), (2**32, 0)):
            with self.subTest((p, number)), self.assertRaises(IndexError):
                machine.cop(p, number)
        for p, i in ((1, 0), (0, 64), (0, -1), (-1, 0)):
            with self.subTest((p, i)), self.assertRaises(IndexError):
                machine.row(p, i)

    def test_entries(self):
        machine = Machine(assemble(" lui $8, 0xbfe0\n ori $9, $0, 65\n sw $9, 0($8)\n"), ram=65536, log=3)
        self.assertEqual((len(machine.entries), list(machine.entries)), (0, []))
        machine.steps(3)
        machine.key(200)
        machine.done()
        taken = Outcome(Kind.TAKEN, 0, 0)
        self.assertEqual(list(machine.entries), [Entry(Event.STEP, 0, Outcome(Kind.RAN, 0, 0)), Entry(Event.KEY, 200, taken), Entry(Event.DONE, 0, taken)])
        self.assertEqual(machine.entries[-1], machine.entries[2])
        self.assertEqual(machine.entries[0:2], list(machine.entries)[:2])
        for i in (3, -4, 2**64):
            with self.subTest(i), self.assertRaises(IndexError):
                machine.entries[i]

    def test_link(self):
        machine = Machine(assemble(" lui $8, 0x8000\n ll $9, 0x1014($8)\n sw $0, 0x1018($8)\n sw $0, 0x1014($8)\n"), ram=65536)
        self.assertIsNone(machine.link(0))
        machine.steps(3)
        self.assertEqual(machine.link(0), 0x1014)
        machine.step()
        self.assertIsNone(machine.link(0))
        with self.assertRaises(IndexError):
            machine.link(1)
        machine = Machine(Image(assemble(" lui $8, 0x8000\n ll $9, 0x1014($8)\n").file), ram=65536, line=True)
        machine.steps(2)
        self.assertEqual(machine.link(0), 0x1010)

    def test_conflict(self):
        text = " ori $8, $0, 0x0300\n mtc0 $8, $0\n tlbwi\n ori $8, $0, 0x0500\n mtc0 $8, $0\n tlbwi\n"
        machine = Machine(assemble(" lui $9, 0x0040\n mtc0 $9, $10\n" + text), ram=65536, strict=True)
        self.assertEqual(machine.steps(7), 7)
        self.assertIsNone(machine.conflict)
        self.assertEqual(machine.step(), Outcome(Kind.CONFLICT, 5, 3))
        self.assertEqual(machine.conflict, Conflict(0, 5, 3))
        self.assertTrue(machine.is_off)

    def test_copy(self):
        machine = Machine(assemble(SUM), ram=65536, cpus=2, log=8)
        machine.steps(2)
        other = machine.copy()
        other.steps(2)
        self.assertEqual((machine.made, other.made), (2, 4))
        self.assertEqual((machine.memory[0x3010], other.memory[0x3010]), (0, 12))
        self.assertEqual((len(other.memory), len(other.processors), len(other.log)), (65536, 2, 5))
        del machine
        self.assertEqual(other.processors[0].reg[9], 12)


class Runs(unittest.TestCase):
    def test_output(self):
        machine = Machine(assemble((EXAMPLES / "hello.s").read_text()), ram=65536, cpus=2)
        run = machine.run(Turns(1), events=1000)
        self.assertEqual((machine.output, run.stop), (b"hi", Stop.OFF))
        self.assertEqual(run.made, machine.made)
        with self.assertRaises(talusdish.Off):
            machine.step()
        with self.assertRaises(talusdish.Off):
            machine.steps(1)
        self.assertEqual(machine.run(), talusdish.Run(0, Stop.OFF))

    def test_keys(self):
        machine = Machine(assemble(ECHO), ram=65536)
        self.assertEqual(machine.run(Turns(1), events=400, keys=b"a\0b", gap=40).stop, Stop.END)
        self.assertEqual(machine.output, b"a\0b")

    def test_stuck(self):
        machine = Machine(assemble(SUM), ram=65536)
        self.assertEqual(machine.run(Turns(3)), talusdish.Run(5, Stop.STUCK))

    def test_orders(self):
        image = assemble(SUM)
        for order in (Random(7), Random(2**64 - 1), Priorities(3, 2, 20)):
            with self.subTest(order):
                self.assertEqual(Machine(image, ram=65536).run(order), talusdish.Run(5, Stop.STUCK))
        machine = Machine(image, ram=65536)
        for order, kind in ((Turns(0), talusdish.NoTurn), (Priorities(1, 1, 0), talusdish.NoStretch), (Priorities(1, 65, 1), talusdish.TooManyChanges)):
            with self.subTest(order), self.assertRaises(kind):
                machine.run(order)
            with self.subTest(order), self.assertRaises(kind):
                machine.trace(order)
        with self.assertRaises(ValueError):
            machine.run(Random(2**64))
        with self.assertRaises(TypeError):
            machine.run("turns")
        self.assertEqual(machine.made, 0)

    def test_same_run_again(self):
        image = assemble((EXAMPLES / "labs" / "lost-update.s").read_text())
        for seed in range(20):
            one, two = Machine(image, ram=65536, cpus=2), Machine(image, ram=65536, cpus=2)
            self.assertEqual(one.run(Random(seed), events=200), two.run(Random(seed), events=200))
            self.assertEqual(one.processors[1], two.processors[1])

    def test_search(self):
        image = assemble((EXAMPLES / "labs" / "lost-update.s").read_text())
        machine = Machine(image, ram=65536, cpus=2, log=1)
        self.assertEqual(machine.started, [True, False])
        for first in (Random(0), Random(2**64 - 3), Priorities(5, 2, 60)):
            with self.subTest(first):
                found = machine.search(first, 0x1000, 2, events=10_000, transfer=100)
                for k in range(1000):
                    order = talusdish.Random((first.seed + k) % 2**64) if isinstance(first, Random) else Priorities(first.seed + k, 2, 60)
                    other = machine.copy()
                    run = other.run(order, events=10_000, transfer=100)
                    self.assertEqual(other.started, [True, True])
                    if run.stop != Stop.OFF or other.memory[0x1000] != 2:
                        break
                self.assertEqual(found, order)
        self.assertEqual((machine.made, machine.started), (0, [True, False]))
        self.assertIsNone(machine.search(Random(0), 0x1000, 2, count=0))
        with self.assertRaises(talusdish.NoStretch):
            machine.search(Priorities(0, 1, 0), 0x1000, 2)
        with self.assertRaises(ValueError):
            machine.search(Random(0), 2**32, 2)

    def test_trace(self):
        machine = Machine(assemble(SUM), ram=65536)
        self.assertEqual(list(machine.trace(events=2)), ["0 0 80000200 24080005 addiu $8, $0, 5  r8=00000005", "1 0 80000204 25090007 addiu $9, $8, 7  r9=0000000c"])
        self.assertEqual(list(machine.trace(events=1, names=True)), ["2 0 80000208 3c0a8000 lui $t2, 0x8000  t2=80000000"])
        self.assertEqual(machine.made, 3)

    def test_trace_with_symbols_and_loads(self):
        image = assemble(COUNTER, symbols=True)
        lines = list(Machine(image, ram=65536).trace(names=True, symbols=True, loads=True))
        self.assertEqual(lines[1], "1 0 80000204 <main+4> 8d09021c lw $t1, 540($t0)  (0000021c <total>)=00000005 t1=00000005")
        self.assertEqual(lines[3], "3 0 8000020c <main+c> ad09021c sw $t1, 540($t0)  [0000021c <total>]=00000006")
        self.assertEqual([line.place for line in lines], ["main", "main+4", "main+8", "main+c", "last"])
        self.assertEqual((lines[1].loaded, lines[3].stored), ((0x21C, 5), (0x21C, 6)))
        self.assertEqual(list(Machine(image, ram=65536).trace(loads=True, events=2))[1], "1 0 80000204 8d09021c lw $9, 540($8)  (0000021c)=00000005 r9=00000005")
        self.assertEqual(list(Machine(image, ram=65536).trace(symbols=True, events=1)), ["0 0 80000200 <main> 3c088000 lui $8, 0x8000  r8=80000000"])
        # without labels in its file an image has no places
        bare = list(Machine(assemble(COUNTER), ram=65536).trace(symbols=True, events=1))
        self.assertEqual((bare, bare[0].place), (["0 0 80000200 3c088000 lui $8, 0x8000  r8=80000000"], None))

    def test_names(self):
        image = assemble(SUM, symbols=True)
        self.assertEqual((image.symbol("main"), image.symbol("last"), image.symbol("lost")), (0x80000200, 0x80000210, None))
        self.assertEqual((image.nearest(0x8000020c), image.nearest(0x80000210), image.nearest(0x800001fc)), (("main", 12), ("last", 0), None))
        self.assertIsNone(assemble(SUM).symbol("main"))
        self.assertIsNone(Image(b"no file").nearest(2**32 - 1))

    def test_threads(self):
        machine = Machine(assemble("loop: beq $0, $0, loop\n nop\n"), ram=65536)
        seen, begun = [], threading.Event()

        def work():
            begun.set()
            machine.steps(200_000_000)

        thread = threading.Thread(target=work)
        thread.start()
        begun.wait()
        while thread.is_alive():
            try:
                machine.step()
            except RuntimeError as error:
                seen.append(error)
                break
        thread.join()
        self.assertEqual(len(seen), 1)

    def test_many(self):
        image = assemble((EXAMPLES / "hello.s").read_text())
        for _ in range(300):
            machine = Machine(image, ram=4 * 1048576)
            machine.run(events=100)
            self.assertEqual(machine.output, b"hi")


if __name__ == "__main__":
    unittest.main()
