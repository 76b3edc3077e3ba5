"""The parts of a trace's lines. The lines are those that docs/kernel-writers.md shows."""

import unittest

from talusdish import TraceLine


class TraceLines(unittest.TestCase):
    def test_a_store(self):
        line = TraceLine("31 0 8000023c ad093000 sw $9, 12288($8)  [00003000]=00006600")
        self.assertEqual((line.number, line.processor, line.address, line.word), (31, 0, 0x8000023C, 0xAD093000))
        self.assertEqual(line.instruction, "sw $9, 12288($8)")
        self.assertEqual(line.stored, (0x3000, 0x6600))
        self.assertEqual(line.changes, {"[00003000]": "00006600"})
        self.assertIsNone(line.trap)
        self.assertEqual(line, "31 0 8000023c ad093000 sw $9, 12288($8)  [00003000]=00006600")

    def test_a_trap_with_a_fetch(self):
        line = TraceLine(
            "17 1 80000298 8d2b0000 lw $11, 0($9)  context=00001000 badvaddr=00400000 entryhi=00400140 cause=00000008 "
            "epc=80000298 trap 2 80000000"
        )
        self.assertEqual(line.trap, (2, 0x80000000))
        self.assertEqual(list(line.changes), ["context", "badvaddr", "entryhi", "cause", "epc"])
        self.assertEqual(line.items[-1], "trap 2 80000000")
        self.assertIsNone(line.stored)

    def test_an_interrupt_before_the_fetch(self):
        line = TraceLine("35 1 800002a8 -  status=00000804 cause=00000800 epc=800002a8 trap 0 80000080")
        self.assertEqual((line.processor, line.address, line.word, line.instruction), (1, 0x800002A8, None, None))
        self.assertEqual(line.trap, (0, 0x80000080))

    def test_no_change(self):
        line = TraceLine("33 1 800002a0 8d2b0000 lw $11, 0($9)")
        self.assertEqual((line.items, line.changes, line.stored, line.is_idle), ((), {}, None, False))

    def test_items_of_several_words(self):
        line = TraceLine("10 0 80000228 adcd0214 sw $13, 532($14)  cpue=00000003 starts 1")
        self.assertEqual(line.items, ("cpue=00000003", "starts 1"))
        line = TraceLine("5 0 80000210 42000002 tlbwi  tlb 53=00400140 00005600 link=00003000 unlink 1 cram 1 0=00000007")
        self.assertEqual(line.changes["tlb 53"], "00400140 00005600")
        self.assertEqual(line.changes["cram 1 0"], "00000007")
        self.assertIn("unlink 1", line.items)

    def test_places(self):
        line = TraceLine("3 0 8000020c <main+c> ad09021c sw $t1, 540($t0)  [0000021c <total>]=00000006")
        self.assertEqual((line.address, line.place, line.word), (0x8000020C, "main+c", 0xAD09021C))
        self.assertEqual((line.instruction, line.items), ("sw $t1, 540($t0)", ("[0000021c <total>]=00000006",)))
        self.assertEqual((line.stored, line.loaded), ((0x21C, 6), None))
        self.assertEqual(line.changes, {"[0000021c <total>]": "00000006"})
        line = TraceLine("4 1 80000210 <a=b<c>+10> 11000001 beq $8, $0, 0x80000218 <a=b<c>+18>")
        self.assertEqual((line.place, line.instruction), ("a=b<c>+10", "beq $8, $0, 0x80000218 <a=b<c>+18>"))
        self.assertEqual(TraceLine("5 0 80000210 <a=b> ad090004 sw $9, 4($8)  [00000004 <a=b>]=00000001").changes, {"[00000004 <a=b>]": "00000001"})
        self.assertEqual(TraceLine("35 1 800002a8 <last> -  idle").place, "last")
        self.assertIsNone(TraceLine("33 1 800002a0 8d2b0000 lw $11, 0($9)").place)

    def test_loads(self):
        line = TraceLine("1 0 80000204 <main+4> 8d09021c lw $t1, 540($t0)  (0000021c <total>)=00000005 t1=00000005")
        self.assertEqual((line.loaded, line.stored, line.changes), ((0x21C, 5), None, {"t1": "00000005"}))
        self.assertEqual(line.items[0], "(0000021c <total>)=00000005")
        line = TraceLine("18 1 80000298 8d2b0000 lw $11, 0($9)  (00003008)=00000001 r11=00000001")
        self.assertEqual((line.loaded, line.place), ((0x3008, 1), None))

    def test_idle_key_and_transfer(self):
        self.assertTrue(TraceLine("52 1 800002b8 -  idle").is_idle)
        key = TraceLine("0 k 41  waiting=1 rirq=00000003")
        self.assertEqual((key.key, key.processor, key.is_transfer), (0x41, None, False))
        sent = TraceLine("7 o  latch=00")
        self.assertEqual((sent.key, sent.is_transfer, sent.items), (None, True, ("latch=00",)))


if __name__ == "__main__":
    unittest.main()
