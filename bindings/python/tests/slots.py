#!/usr/bin/env python3
"""Tests of vandrexu.py: slot hosts, each call with each answer that can be had."""
import sys
import threading
import unittest
from functools import partial

import vandrexu
from vandrexu import (BadConfig, Busy, CallRefused, Config, Disk, Name, NoHandle, Refused, Reply, ReplyKind, SlotHost,
                      SlotRefused, SlotReply, SlotReplyKind, Status)

TWO = Config.of_line("config 8 1 1 0 0 2 4 4 8")
THREE = Config.of_line("config 8 1 1 0 0 3 4 4 8")
# (the blocks 2 to 5)
SLOTS = FIRST, COUNT = 2, 4
LAST = FIRST + COUNT - 1
FREE, TAKEN, RELEASED, PENDING = (SlotReply(it) for it in (
    SlotReplyKind.FREE, SlotReplyKind.TAKEN, SlotReplyKind.RELEASED, SlotReplyKind.PENDING))


def held(slot):
    return SlotReply(SlotReplyKind.HELD, slot=slot)


def of(host, serial):
    return SlotReply(SlotReplyKind.OF_NAME, name=Name(host, serial))


def two_hosts():
    """A disk and two hosts, each with the submission queue of its number."""
    disk = Disk(TWO, 2, slots=SLOTS)
    return disk, disk.slot_host(1, 1), disk.slot_host(2, 2)


def block_of(host, serial):
    """The block of a slot that is held by this name."""
    return host.to_bytes(8, "little") + serial.to_bytes(8, "little") + bytes(496)


def calls_of(host, slot):
    """The calls about a slot, with arguments."""
    return (host.claim, slot), (host.release, slot), (host.take_over, slot, Name(7, 1)), (host.ask_holder, slot)


class Slots(unittest.TestCase):
    def refused(self, status, call, *arguments):
        with self.assertRaises(vandrexu.Error) as caught:
            call(*arguments)
        self.assertEqual(caught.exception.status, status)
        self.assertEqual(str(caught.exception), vandrexu.WORDS[status])
        self.assertEqual(isinstance(caught.exception, SlotRefused), 118 <= status <= 123)
        return caught.exception

    def ended(self, host, *call):
        """Polls until the call of a host is over: of a slot host its only one, else the one of this number."""
        while (reply := host.poll(*call)).kind.name == "PENDING":
            pass
        self.refused(Status.NO_CALL, host.poll, *call)
        return reply

    def over(self, disk, host, *call):
        """Serves a host's queue, and polls until its call is over."""
        disk.serve(host.queue)
        return self.ended(host, *call)

    def test_what_no_disk_with_slots_is_made_of(self):
        bad = Config(jobs=0)
        for area in ((FIRST, 0), (65536, 1), (65535, 2), (0, 65537), (2 ** 64 - 1, 2 ** 32 - 1)):
            for config in (TWO, bad):
                self.refused(Status.BAD_AREA, partial(Disk, config, 1, slots=area))
        self.assertIsInstance(self.refused(Status.BAD_JOBS, partial(Disk, bad, 1, slots=SLOTS)), BadConfig)
        for area in ((-1, COUNT), (2 ** 64, COUNT), (FIRST, -1), (FIRST, 2 ** 32)):
            self.assertRaises(OverflowError, Disk, TWO, 1, slots=area)
        for first, count in ((0, 65536), (65535, 1), (0, 1)):
            with Disk(TWO, 1, slots=(first, count)) as disk, disk.slot_host(1, 1) as host:
                self.assertEqual(disk.slots, (first, count))
                self.refused(Status.NO_SLOT, host.ask_holder, count)
                host.ask_holder(count - 1)
                self.assertEqual(self.over(disk, host).kind.name, "FREE" if first + count <= 8 else "FAILED")

    def test_what_no_slot_host_is_made_of(self):
        with Disk(TWO, 1) as disk:
            # (this disk has no slots)
            for number, queue in ((1, 1), (0, 3)):
                self.refused(Status.BAD_AREA, disk.slot_host, number, queue)
            disk.host(1, 1).close()
            self.refused(Status.BAD_AREA, disk.slot_host, 1, 1)
        self.refused(Status.NO_HANDLE, disk.slot_host, 1, 1)
        with Disk(TWO, 1, slots=SLOTS) as disk:
            self.refused(Status.BAD_NUMBER, disk.slot_host, 0, 3)
            for queue in (0, 3):
                self.assertIsInstance(self.refused(Status.NO_QUEUE, disk.slot_host, 1, queue), Refused)
            for arguments in ((2 ** 32, 1), (-1, 1), (1, 65536)):
                self.assertRaises(OverflowError, disk.slot_host, *arguments)
            host = SlotHost(disk, 1, 1)
            self.assertEqual((host.number, host.queue), (1, 1))
            for make in (disk.slot_host, disk.host):
                self.refused(Status.NO_QUEUE, make, 1, 3)
                self.refused(Status.USED_NUMBER, make, 1, 1)
                self.refused(Status.USED_NUMBER, make, 1, 2)
                self.refused(Status.USED_QUEUE, make, 2, 1)
                self.refused(Status.NO_HOST, make, 2, 2)
            host.close()
            self.refused(Status.NO_HOST, disk.slot_host, 2, 2)

    # ---- what a disk refuses, so that a slot has one holder

    def test_three_slot_hosts_of_one_number(self):
        """The second and the third aren't made, on whichever queue, nor is a plain host of the number."""
        with Disk(THREE, 3, slots=SLOTS) as disk, disk.slot_host(1, 1) as one:
            one.claim(0)
            self.assertEqual(self.over(disk, one), held(0))
            # beside the first, and where it is closed
            for _ in "12":
                for queue in (1, 2, 3):
                    for make in (disk.slot_host, disk.host):
                        self.assertIs(type(self.refused(Status.USED_NUMBER, make, 1, queue)), vandrexu.Error)
                one.close()
            # a plain host's number is no other host's either
            with disk.host(2, 2), disk.slot_host(3, 3) as three:
                for make in (disk.slot_host, disk.host):
                    self.refused(Status.USED_NUMBER, make, 2, 3)
                three.ask_holder(0)
                self.assertEqual(self.over(disk, three), of(1, 1))

    def test_a_queue_that_had_a_host(self):
        """None is made there, of either kind, nor on another queue of the same completion queue."""
        # (the submission queues 1 and 3 have one completion queue, and 2 and 4 the other one)
        with Disk(Config.of_line("config2 8 1 1 0 0 4 4 4 8 2"), 3, slots=SLOTS) as disk, disk.slot_host(1, 3) as one:
            for _ in "12":
                for queue in (3, 1):
                    for make in (disk.slot_host, disk.host):
                        self.assertIs(type(self.refused(Status.USED_QUEUE, make, 2, queue)), vandrexu.Error)
                one.close()
            with disk.host(2, 2) as two:
                for queue in (1, 2, 3, 4):
                    for make in (disk.slot_host, disk.host):
                        self.refused(Status.USED_QUEUE, make, 3, queue)
                self.assertEqual(self.over(disk, two, two.read(FIRST)).kind, ReplyKind.READ)

    def test_a_plain_host_over_a_held_slot(self):
        """It reads what is there, but writes only beside it, though it names what it read."""
        with Disk(TWO, 2, slots=SLOTS) as disk, disk.slot_host(1, 1) as one, disk.host(2, 2) as two:
            for slot in (0, COUNT - 1):
                one.claim(slot)
                self.assertEqual(self.over(disk, one), held(slot))
            # the first slot and the last one, alone and at the end of a range
            for lba, blocks in ((FIRST, 1), (FIRST - 1, 2), (LAST, 1), (LAST, 2)):
                found, zeros = self.over(disk, two, two.read(lba, blocks)).data, bytes(512 * blocks)
                self.assertIn(block_of(1, 1 if lba < LAST else 2), (found[:512], found[-512:]))
                for call, *arguments in ((two.write, zeros), (two.write_zeroes, blocks),
                                         (two.compare_and_write, found, zeros)):
                    self.assertIsInstance(self.refused(Status.CALL_SLOT_AREA, call, lba, *arguments), CallRefused)
            for call, *arguments in ((two.write, bytes(4096)), (two.write_zeroes, 8)):
                self.refused(Status.CALL_SLOT_AREA, call, 0, *arguments)
            self.refused(Status.NO_ENTRY, disk.serve, 2)
            data = b"\xA1" * 512
            for lba in (FIRST - 1, LAST + 1):
                for kind, call, *arguments in ((ReplyKind.WRITTEN, two.write, data),
                                               (ReplyKind.SWAPPED, two.compare_and_write, data, bytes(512)),
                                               (ReplyKind.WRITTEN, two.write_zeroes, 1)):
                    self.assertEqual(self.over(disk, two, call(lba, *arguments)), Reply(kind))
            for slot, serial in ((0, 1), (COUNT - 1, 2)):
                self.refused(Status.HELD, one.claim, slot)
                one.ask_holder(slot)
                self.assertEqual(self.over(disk, one), of(1, serial))
                one.release(slot)
                self.assertEqual(self.over(disk, one), RELEASED)

    def test_a_host_that_would_be_made_again(self):
        """Host 1 publishes its release and is closed before it is served; host 2 takes over from the name that it read.
        Whichever of both takes effect first, host 1 isn't made again, and one host has the slot."""
        for order, *ends in (((2, 1), held(0), TAKEN), ((1, 2), TAKEN, held(0))):
            with Disk(THREE, 4, slots=SLOTS) as disk, disk.slot_host(1, 1) as one, disk.slot_host(2, 2) as two:
                one.claim(0)
                self.assertEqual(self.over(disk, one), held(0))
                one.release(0)
                one.close()
                two.ask_holder(0)
                name = self.over(disk, two).name
                self.assertEqual(name, Name(1, 1))
                two.take_over(0, name)
                for queue in order:
                    disk.serve(queue)
                    for make in (disk.slot_host, disk.host):
                        self.refused(Status.USED_NUMBER, make, 1, 1)
                        self.refused(Status.USED_NUMBER, make, 1, 3)
                        self.refused(Status.USED_QUEUE, make, 3, 1)
                three = disk.slot_host(3, 3)
                two_ends = self.ended(two)
                three.claim(0)
                self.assertEqual([two_ends, self.over(disk, three)], ends)
                # who has it is the one whose name stands there, and the other one has nothing to release
                has, hasnt = (two, three) if two_ends == held(0) else (three, two)
                self.refused(Status.NOT_HELD, hasnt.release, 0)
                hasnt.ask_holder(0)
                self.assertEqual(self.over(disk, hasnt), of(has.number, 1))
                has.release(0)
                self.assertEqual(self.over(disk, has), RELEASED)
                three.close()

    # ---- what slot hosts are answered

    def any(self, disk, host):
        """Claims any slot, each one once it is served."""
        host.claim_any()
        while True:
            self.refused(Status.IN_CALL, host.claim_any)
            try:
                disk.serve(host.queue)
            except Refused as refused:
                self.assertEqual(refused.status, Status.NO_ENTRY)
            if (reply := host.poll()) != PENDING:
                return reply

    def test_of_any_slots_the_first_that_nobody_has(self):
        disk, one, two = two_hosts()
        for slot in range(0, COUNT, 2):
            self.assertEqual(self.any(disk, one), held(slot))
            self.assertEqual(self.any(disk, two), held(slot + 1))
        self.assertEqual(self.any(disk, one), TAKEN)
        two.release(1)
        self.assertEqual(self.over(disk, two), RELEASED)
        self.assertEqual(self.any(disk, one), held(1))
        self.refused(Status.HELD, one.claim, 1)
        two.close()
        one.ask_holder(3)
        one.take_over(3, self.over(disk, one).name)
        self.assertEqual(self.over(disk, one), held(3))
        # behind a takeover, too
        one.release(2)
        self.assertEqual(self.over(disk, one), RELEASED)
        self.assertEqual(self.any(disk, one), held(2))

    def test_one_call_at_a_time(self):
        disk, one, _two = two_hosts()
        self.refused(Status.NO_CALL, one.poll)
        one.claim(1)
        for slot in (1, 2, COUNT):
            for call, *arguments in calls_of(one, slot):
                self.refused(Status.IN_CALL, call, *arguments)
        self.assertEqual(one.poll(), PENDING)
        self.assertEqual(self.over(disk, one), held(1))
        one.ask_holder(0)
        self.refused(Status.IN_CALL, one.release, 1)
        self.assertEqual(self.over(disk, one), FREE)
        one.release(1)
        self.refused(Status.IN_CALL, one.claim, 1)
        self.assertEqual(self.over(disk, one), RELEASED)
        one.take_over(2, Name(2, 1))
        self.refused(Status.IN_CALL, one.take_over, 2, Name(2, 1))
        self.assertEqual(self.over(disk, one), TAKEN)

    def test_there_is_no_such_slot(self):
        _disk, one, _two = two_hosts()
        for slot in (COUNT, 2 ** 32 - 1):
            for call, *arguments in calls_of(one, slot):
                self.refused(Status.NO_SLOT, call, *arguments)
        for slot in (-1, 2 ** 32):
            for call, *arguments in calls_of(one, slot):
                self.assertRaises(OverflowError, call, *arguments)
        for name in (Name(2 ** 32, 1), Name(2, 2 ** 64), Name(-1, 1)):
            self.assertRaises(OverflowError, one.take_over, 0, name)
        self.refused(Status.NO_CALL, one.poll)

    def test_two_hosts_claim_one_slot(self):
        disk, one, two = two_hosts()
        self.refused(Status.NOT_HELD, one.release, 1)
        one.claim(1)
        two.claim(1)
        # who is served first has it
        self.assertEqual(self.over(disk, two), held(1))
        self.assertEqual(self.over(disk, one), TAKEN)
        self.refused(Status.NOT_HELD, one.release, 1)
        self.refused(Status.HELD, two.claim, 1)
        one.ask_holder(1)
        self.assertEqual(self.over(disk, one), of(2, 1))
        # a second slot beside it
        two.claim(3)
        self.assertEqual(self.over(disk, two), held(3))
        two.release(1)
        self.assertEqual(self.over(disk, two), RELEASED)
        self.refused(Status.NOT_HELD, two.release, 1)
        two.ask_holder(1)
        self.assertEqual(self.over(disk, two), FREE)
        one.claim(1)
        self.assertEqual(self.over(disk, one), held(1))
        # (the first of its serials was that of the claim that found the slot taken)
        two.ask_holder(1)
        self.assertEqual(self.over(disk, two), of(1, 2))
        two.ask_holder(3)
        self.assertEqual(self.over(disk, two), of(2, 2))
        two.release(3)
        self.assertEqual(self.over(disk, two), RELEASED)

    def test_the_slots_of_a_closed_host_are_taken_over(self):
        disk, one, two = two_hosts()
        for slot in (0, 2):
            one.claim(slot)
            self.assertEqual(self.over(disk, one), held(slot))
        two.claim(3)
        self.assertEqual(self.over(disk, two), held(3))
        one.close()
        two.ask_holder(0)
        first = self.over(disk, two).name
        self.assertEqual(first, Name(1, 1))
        for bad in (Name(0, 1), Name(1, 0), Name(2, 1)):
            self.refused(Status.BAD_NAME, two.take_over, 0, bad)
        self.refused(Status.HELD, two.take_over, 3, first)
        # (what was refused is no takeover)
        two.claim(1)
        self.assertEqual(self.over(disk, two), held(1))
        two.take_over(0, first)
        self.assertEqual(self.over(disk, two), held(0))
        self.refused(Status.HELD, two.take_over, 0, first)
        self.refused(Status.HELD, two.claim, 0)
        two.release(1)
        self.assertEqual(self.over(disk, two), RELEASED)
        # another name than the slot has, and one of a slot that is free
        for slot in (2, 1):
            two.take_over(slot, first)
            self.assertEqual(self.over(disk, two), TAKEN)
        two.take_over(2, Name(1, 2))
        self.assertEqual(self.over(disk, two), held(2))
        two.ask_holder(2)
        self.assertEqual(self.over(disk, two), of(2, 6))
        # a host that took slots over claims again
        two.claim(1)
        self.assertEqual(self.over(disk, two), held(1))
        two.ask_holder(1)
        self.assertEqual(self.over(disk, two), of(2, 7))
        # what was taken over is released, and what was claimed before and behind
        for slot in (0, 1, 2, 3):
            two.release(slot)
            self.assertEqual(self.over(disk, two), RELEASED)
            self.refused(Status.NOT_HELD, two.release, slot)
            two.ask_holder(slot)
            self.assertEqual(self.over(disk, two), FREE)

    def test_a_block_is_zeros_or_a_name(self):
        with Disk(TWO, 2, slots=SLOTS) as disk, disk.slot_host(1, 1) as one, disk.host(2, 2) as two:
            def has(data):
                self.assertEqual(self.over(disk, two, two.read(FIRST)), Reply(ReplyKind.READ, data))
                self.refused(Status.CALL_SLOT_AREA, two.write, FIRST, b"\xEE" * 512)

            has(bytes(512))
            one.ask_holder(0)
            self.assertEqual(self.over(disk, one), FREE)
            one.claim(0)
            self.assertEqual(self.over(disk, one), held(0))
            has(block_of(1, 1))
            one.release(0)
            self.assertEqual(self.over(disk, one), RELEASED)
            has(bytes(512))
            # (nobody has it by this name)
            one.take_over(0, Name(2, 1))
            self.assertEqual(self.over(disk, one), TAKEN)
            has(bytes(512))

    def test_calls_that_fail(self):
        failed = SlotReply(SlotReplyKind.FAILED, status=(0, 0x80))
        # (slot 6 is block 8, which the volume doesn't have)
        with Disk(TWO, 1, slots=(FIRST, 7)) as disk, disk.slot_host(1, 1) as host:
            host.claim(6)
            self.assertEqual(self.over(disk, host), failed)
            self.refused(Status.NOT_HELD, host.release, 6)
            host.ask_holder(6)
            self.assertEqual(self.over(disk, host), failed)
            host.take_over(6, Name(2, 1))
            self.assertEqual(self.over(disk, host), failed)

    def test_a_queue_without_room_for_a_pair(self):
        # (a queue of two entries takes one at a time)
        with Disk(Config.of_line("config 8 1 1 0 0 1 2 4 8"), 1, slots=SLOTS) as disk, disk.slot_host(1, 1) as host:
            for call, *arguments in ((host.claim, 0), (host.take_over, 0, Name(2, 1))):
                self.assertIsInstance(self.refused(Status.CALL_NO_ROOM, call, *arguments), CallRefused)
            self.refused(Status.NO_CALL, host.poll)
            host.ask_holder(0)
            self.assertEqual(self.over(disk, host), FREE)

    def test_a_completion_queue_with_room_for_one(self):
        with Disk(Config.of_line("config 8 1 1 0 0 1 4 2 8"), 1, slots=SLOTS) as disk, disk.slot_host(1, 1) as host:
            host.claim(0)
            # (what was fetched is kept, and goes on once there is room)
            self.assertIsInstance(self.refused(Status.CQ_FULL, disk.serve, 1), Refused)
            self.assertEqual(host.poll(), PENDING)
            disk.serve(1)
            self.assertEqual(host.poll(), held(0))

    def test_what_is_closed(self):
        disk, one, two = two_hosts()
        one.claim(0)
        self.assertEqual(self.over(disk, one), held(0))
        disk.close()
        self.assertIsInstance(self.refused(Status.NO_HANDLE, disk.slot_host, 1, 1), NoHandle)
        # a host outlives its disk
        one.release(0)
        two.claim(0)
        self.assertEqual((one.poll(), two.poll()), (PENDING, PENDING))
        one.close()
        one.close()
        for call, *arguments in (*calls_of(one, 0), (one.poll,)):
            self.assertIsInstance(self.refused(Status.NO_HANDLE, call, *arguments), NoHandle)

    def test_hosts_never_have_one_slot_at_once(self):
        """Two hosts on threads of their own have slot 0 so often, and never both at once."""
        holders, most, ends, failed = [], [], [], []

        def ask(call, *arguments):
            while True:
                try:
                    return call(*arguments)
                except Busy:
                    pass

        def reply_of(host):
            while (reply := ask(host.poll)) == PENDING:
                pass
            return reply

        def locks(host):
            had = 0
            # (where the other one failed, it may have the slot for ever)
            while had < 40 and not failed:
                ask(host.claim, 0)
                reply = reply_of(host)
                if reply.kind != SlotReplyKind.HELD:
                    ends.append(reply)
                    continue
                had += 1
                holders.append(host)
                most.append(len(holders))
                holders.remove(host)
                ask(host.release, 0)
                ends.append(reply_of(host))

        def tries(host):
            try:
                locks(host)
            except vandrexu.Error as error:
                failed.append(error)

        disk, *hosts = two_hosts()
        threads = [threading.Thread(target=tries, args=(it,)) for it in hosts]
        for thread in threads:
            thread.start()
        while any(it.is_alive() for it in threads):
            for queue in (1, 2):
                try:
                    disk.serve(queue)
                except (Busy, Refused) as error:
                    self.assertIn(error.status, (Status.BUSY, Status.NO_ENTRY))
        self.assertEqual((failed, most), ([], [1] * 80))
        self.assertEqual(ends.count(RELEASED), 80)
        self.assertEqual(ends.count(RELEASED) + ends.count(TAKEN), len(ends))
        hosts[0].ask_holder(0)
        self.assertEqual(self.over(disk, hosts[0]), FREE)


if __name__ == "__main__":
    unittest.main(argv=[sys.argv[0], *sys.argv[1:]])
