#!/usr/bin/env python3
"""Tests of vandrexu.py: disks with hosts that are judged, by their histories, their slots and their traces."""
import unittest

import vandrexu
from vandrexu import (BadLine, Checker, Config, Controller, Disk, Entry, NoBlock, NoHandle, SlotChecker, SlotFault,
                      SlotRefused, SlotsMisused, Status, Tracer, certify_text, observe_text)

THREE = Config.of_line("config 8 1 1 0 0 3 4 4 8")
# (the blocks 3 and 4)
SLOTS = FIRST, COUNT = 3, 2
FREE, A1 = bytes(512), b"\xA1" * 512
ALONE = "a write in the slots that is no claim, release or takeover"


def block_of(host, serial):
    """The block of a slot that is held by this name."""
    return host.to_bytes(8, "little") + serial.to_bytes(8, "little") + bytes(496)


def over(disk, host, *call):
    """Serves a host's queue, and polls until its call is over: of a slot host its only one, else the one of this number."""
    disk.serve(host.queue)
    while (reply := host.poll(*call)).kind.name == "PENDING":
        pass
    return reply


class Judging(unittest.TestCase):
    def refused(self, status, call, *arguments):
        with self.assertRaises(vandrexu.Error) as caught:
            call(*arguments)
        self.assertEqual(caught.exception.status, status)
        self.assertEqual(str(caught.exception), vandrexu.WORDS[status])
        return caught.exception

    def kept(self, disk, first, count):
        """How many lines of a disk's history keep the discipline of these slots, and what is wrong behind them."""
        kept = 0
        with Checker(THREE) as legal, SlotChecker(THREE, first, count) as slots:
            for line in disk.history(1):
                legal.take_line(line)
                try:
                    slots.take_line(line)
                except SlotsMisused:
                    fault = slots.why()
                    self.refused(Status.SLOTS_MISUSED, slots.take_line, line)
                    self.assertEqual(slots.why(), fault)
                    self.assertEqual(fault.place, kept + 1)
                    return kept, fault
                self.assertIsNone(slots.why())
                kept += 1
        return kept, None

    def test_what_no_checker_of_slots_is_made_of(self):
        for area in ((FIRST, 0), (65536, 1), (65535, 2), (2 ** 64 - 1, 1)):
            self.assertIsInstance(self.refused(Status.BAD_AREA, SlotChecker, Config(jobs=0), *area), SlotRefused)
        self.refused(Status.BAD_JOBS, SlotChecker, Config(jobs=0), *SLOTS)
        self.refused(Status.BAD_JOBS, Tracer, Config(jobs=0))
        self.assertRaises(OverflowError, SlotChecker, THREE, -1, 1)
        self.assertRaises(OverflowError, SlotChecker, THREE, 0, 2 ** 32)

    def test_histories_and_blocks_of_a_disk(self):
        disk = Disk(THREE, 1)
        host = disk.host(1, 1)
        self.assertEqual((list(disk.history()), disk.history_count()), ([str(THREE)], 0))
        over(disk, host, host.write(5, A1))
        lines = list(disk.history())
        self.assertEqual((len(lines), disk.history_count()), (7, 6))
        self.assertEqual(list(disk.history(3)), lines[3:])
        self.assertEqual((list(disk.history(7)), list(disk.history(9))), ([], []))
        # a piece that is longer than the first room, and a line that is longer too
        over(disk, host, host.write(0, bytes(range(256)) * 2 * 8))
        self.assertGreater(len(list(disk.history(7))[0]), 8192)
        self.assertEqual((disk.medium(5), disk.medium(7)), (bytes(range(256)) * 2, bytes(range(256)) * 2))
        self.assertIsInstance(self.refused(Status.NO_BLOCK, disk.medium, 8), NoBlock)
        # a line at a time, while the history grows
        lines = disk.history(1)
        first = next(lines)
        over(disk, host, host.read(5))
        self.assertEqual([first, *lines], list(disk.history(1)))
        disk.close()
        for call in (disk.history_count, lambda: disk.medium(0), lambda: list(disk.history())):
            self.assertIsInstance(self.refused(Status.NO_HANDLE, call), NoHandle)

    def test_hosts_of_a_disk_with_slots_keep_their_discipline(self):
        disk = Disk(THREE, 3, slots=SLOTS)
        one, two = disk.slot_host(1, 1), disk.slot_host(2, 2)
        one.claim(0)
        self.assertEqual(over(disk, one).slot, 0)
        one.close()
        two.take_over(0, (1, 1))
        self.assertEqual(over(disk, two).slot, 0)
        two.release(0)
        over(disk, two)
        self.assertEqual(self.kept(disk, *SLOTS), (disk.history_count(), None))
        # (and that of more slots)
        self.assertEqual(self.kept(disk, 0, 8), (disk.history_count(), None))

    def test_rules_that_hosts_break(self):
        disk = Disk(THREE, 2)
        one, two = disk.host(1, 1), disk.host(2, 2)
        over(disk, one, one.compare_and_write(3, FREE, block_of(1, 1)))
        before = disk.history_count()
        self.assertEqual(self.kept(disk, *SLOTS), (before, None))
        over(disk, two, two.compare_and_write(3, block_of(1, 1), FREE))
        words = "a release on another completion queue than its claim"
        self.assertEqual(self.kept(disk, *SLOTS), (before, SlotFault(before + 1, 3, words)))
        before = disk.history_count()
        over(disk, two, two.write(4, A1))
        self.assertEqual(self.kept(disk, 4, 1), (before, SlotFault(before + 1, 4, ALONE)))
        self.assertEqual(self.kept(disk, 5, 1), (disk.history_count(), None))

    def test_lines_that_are_none(self):
        with SlotChecker(THREE, *SLOTS) as slots, Tracer(THREE) as tracer:
            for line in ("", "config 8 1 1 0 0 3 4 4 8", b"\xFF", "fetch 1 1 1 ok "):
                self.assertIsInstance(self.refused(Status.BAD_LINE, slots.take_line, line), BadLine)
                self.refused(Status.BAD_LINE, tracer.take_line, line)
            self.assertIsNone(slots.why())
        for call in ((slots.take_line, ""), (slots.why,), (tracer.take_line, "")):
            self.refused(Status.NO_HANDLE, *call)

    def test_traces(self):
        disk = Disk(THREE, 2)
        one, two = disk.host(1, 1), disk.host(2, 2)
        over(disk, one, one.write(0, bytes(range(256)) * 2 * 3))
        self.assertEqual(over(disk, two, two.read(0, 3)).data, bytes(range(256)) * 2 * 3)
        trace, history = list(disk.trace()), list(disk.history())
        self.assertEqual([line.split(" ")[0] for line in trace], ["config", "publish", "reap", "publish", "reap"])
        self.assertEqual(trace[4].split(" ")[-1], ".".join([(bytes(range(256)) * 2).hex().upper()] * 3))
        texts = ["\n".join(lines) + "\n" for lines in (trace, history)]
        self.assertEqual(certify_text(*texts), "explained\n")
        self.assertEqual(certify_text(texts[0], observe_text(texts[0])), "explained\n")
        with Controller(THREE) as alone:
            alone.publish(1, [Entry.flush(7)])
            self.assertEqual(len(list(alone.trace())), 2)


if __name__ == "__main__":
    unittest.main()
