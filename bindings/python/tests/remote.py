#!/usr/bin/env python3
"""Tests of vandrexu.py: hosts of a controller that is somewhere else, each call with each answer that can be had. What
they tell is carried to a controller in the same process."""
import sys
import unittest

import vandrexu
from vandrexu import (CallRefused, Completion, Config, Controller, Entry, Name, NoHandle, Outgoing, Refused, RemoteHost,
                      RemoteSlotHost, Reply, ReplyKind, SlotRefused, SlotReply, SlotReplyKind, Status)

THREE = Config.of_line("config 8 1 1 0 0 3 8 8 8")
# (the blocks 2 to 5)
SLOTS = FIRST, COUNT = 2, 4
FREE, A1, B2 = bytes(512), b"\xA1" * 512, b"\xB2" * 512
WRITTEN, EQUAL, DIFFERS, SWAPPED, PENDING = (Reply(ReplyKind[it]) for it in (
    "WRITTEN", "EQUAL", "DIFFERS", "SWAPPED", "PENDING"))
TAKEN, RELEASED, WAITS = (SlotReply(SlotReplyKind[it]) for it in ("TAKEN", "RELEASED", "PENDING"))


def held(slot):
    return SlotReply(SlotReplyKind.HELD, slot=slot)


def block_of(host, serial):
    """The block of a slot that is held by this name."""
    return host.to_bytes(8, "little") + serial.to_bytes(8, "little") + bytes(496)


def success(cid, *changes):
    """A completion with success for the command with this CID of submission queue 1, with these bytes changed."""
    cqe = bytearray([0, 0, 0, 0, 0, 0, 0, 0, 0, 0, 1, 0, cid, 0, 1, 0])
    for place, value in changes:
        cqe[place] = value
    return Completion(cqe)


def carry(disk, host):
    """Carries what the host has begun to the controller, a pair as one batch of two, and the completions back. The
    ticket that was fetched last is served first."""
    batch, tickets = [], []
    while it := host.outgoing():
        batch.append(it.entry)
        if not it.more:
            disk.publish(it.queue, batch)
            batch = []
    try:
        while True:
            tickets.append(disk.fetch(host.queue).ticket)
    except Refused as refused:
        assert refused.status == Status.NO_ENTRY
    for ticket in reversed(tickets):
        for step in (disk.grant, disk.block, disk.post):
            try:
                while True:
                    step(ticket)
            except Refused:
                pass
    for reaped in disk.completions(host.queue):
        host.incoming(*reaped)


class Remote(unittest.TestCase):
    def refused(self, status, call, *arguments, **named):
        with self.assertRaises(vandrexu.Error) as caught:
            call(*arguments, **named)
        self.assertEqual(caught.exception.status, status)
        self.assertEqual(str(caught.exception), vandrexu.WORDS[status])
        return caught.exception

    def over(self, host, call):
        """Polls until the call is over. No call has its number then."""
        while (reply := host.poll(call)) == PENDING:
            pass
        self.refused(Status.NO_CALL, host.poll, call)
        return reply

    def slot_over(self, disk, host):
        """Carries a slot host's call until it is over."""
        carry(disk, host)
        while (reply := host.poll()) == WAITS:
            carry(disk, host)
        self.refused(Status.NO_CALL, host.poll)
        return reply

    def two_hosts(self):
        """A controller and two slot hosts, each on the queue of its number; the first one's serials are above 4,096."""
        return Controller(THREE), RemoteSlotHost(1, 1, SLOTS, 4096), RemoteSlotHost(2, 2, SLOTS)

    # ---- a remote host

    def test_what_is_refused(self):
        for status, number, queue, area in ((Status.BAD_NUMBER, 0, 0, (65537, 0)), (Status.BAD_NUMBER, 0, 1, (0, 0)),
                                            (Status.NO_QUEUE, 1, 0, (65537, 0)), (Status.BAD_AREA, 1, 1, (65537, 0)),
                                            (Status.BAD_AREA, 1, 1, (65536, 1)),
                                            (Status.BAD_AREA, 1, 1, (2 ** 64 - 1, 2 ** 32 - 1))):
            self.refused(status, RemoteHost, number, queue, slots=area)
        for arguments in ((2 ** 32, 1), (-1, 1), (1, 65536), (1, 1, 65536)):
            self.assertRaises(OverflowError, RemoteHost, *arguments)
        RemoteHost(2 ** 32 - 1, 65535, 65535, slots=(65536, 0)).close()
        with RemoteHost(1, 1, 1, slots=SLOTS) as host:
            self.assertEqual((host.number, host.queue), (1, 1))
            for status, call, *arguments in (
                    (Status.CALL_LENGTH, host.read, 0, 0), (Status.CALL_LENGTH, host.write_zeroes, FIRST, 0),
                    (Status.CALL_LENGTH, host.write, FIRST, b""), (Status.CALL_LENGTH, host.compare, 0, bytes(511)),
                    (Status.CALL_LENGTH, host.compare_and_write, 0, bytes(512), bytes(1024)),
                    (Status.CALL_TOO_LONG, host.read, 0, 257), (Status.CALL_TOO_LONG, host.write_zeroes, FIRST, 257),
                    (Status.CALL_TOO_LONG, host.compare_and_write, FIRST, bytes(1536), bytes(1536)),
                    (Status.CALL_SLOT_AREA, host.write, FIRST - 1, bytes(1024)),
                    (Status.CALL_SLOT_AREA, host.write_zeroes, FIRST + 3, 2),
                    (Status.CALL_SLOT_AREA, host.compare_and_write, FIRST, A1, A1)):
                self.assertIsInstance(self.refused(status, call, *arguments), CallRefused)
            self.refused(Status.NO_CALL, host.poll, 0)
            self.assertIsNone(host.outgoing())
            # slots are read and compared
            self.assertNotEqual(host.read(FIRST), host.compare(FIRST, A1))
            self.assertRaises(OverflowError, host.poll, -1)
            self.assertRaises(OverflowError, host.read, -1)
            for size in (15, 17):
                self.assertRaises(ValueError, host.incoming, bytes(size))

    def test_calls_in_flight_are_polled_in_any_order(self):
        with Controller(THREE) as disk, RemoteHost(7, 2, 1) as host:
            before = host.write(0, B2)
            carry(disk, host)
            self.assertEqual(self.over(host, before), WRITTEN)
            wrote, read = host.write(4, A1 + A1), host.read(0)
            late, early = host.compare_and_write(3, FREE, B2), host.compare_and_write(3, FREE, A1)
            compared = host.compare(6, FREE)
            self.assertEqual(len({wrote, read, late, early, compared}), 5)
            self.assertEqual([host.poll(it) for it in (compared, early, late, read, wrote)], [PENDING] * 5)
            carry(disk, host)
            self.assertEqual([self.over(host, it) for it in (late, wrote, compared, early, read)],
                             [DIFFERS, WRITTEN, EQUAL, SWAPPED, Reply(ReplyKind.READ, B2)])
            zeroed = host.write_zeroes(3, 2)
            carry(disk, host)
            self.assertEqual(self.over(host, zeroed), WRITTEN)
            read, compared = host.read(4, 2), host.compare(3, A1)
            carry(disk, host)
            self.assertEqual([self.over(host, it) for it in (compared, read)],
                             [DIFFERS, Reply(ReplyKind.READ, FREE + A1)])
            # LBA Out of Range
            failed = host.compare_and_write(8, FREE, FREE)
            carry(disk, host)
            self.assertEqual(self.over(host, failed), Reply(ReplyKind.FAILED, status=(0, 0x80)))
            self.assertEqual(host.dropped(), 0)

    def test_entries_are_told_in_the_order_of_their_calls(self):
        with RemoteHost(1, 300, 1) as host:
            self.assertIsNone(host.outgoing())
            host.compare_and_write(6, A1 + A1, B2 + B2)
            host.read(0, 256)
            host.write(0, A1 * 256)
            entries = [Entry.compare(0, 6, A1 + A1, 2).first(), Entry.write(1, 6, B2 + B2, 2).second(),
                       Entry.read(2, 0, 256), Entry.write(3, 0, A1 * 256, 256)]
            for place, entry in enumerate(entries):
                self.assertEqual(host.outgoing(), Outgoing(300, entry, place == 0))
            self.assertIsNone(host.outgoing())

    def test_up_to_64_commands_are_in_flight(self):
        with RemoteHost(1, 1) as host:
            calls = {host.read(lba) for lba in range(63)}
            self.refused(Status.CALL_NO_ROOM, host.compare_and_write, 0, FREE, A1)
            last = host.read(63)
            self.assertEqual(len(calls | {last}), 64)
            self.refused(Status.CALL_NO_ROOM, host.read, 0)
            self.assertEqual([host.outgoing().entry.entry[2] for _ in range(64)], list(range(64)))
            host.incoming(success(63), A1)
            self.assertEqual(self.over(host, last), Reply(ReplyKind.READ, A1))
            # its number and its CID are used again
            self.assertEqual((host.read(9), host.outgoing().entry.entry[2]), (last, 63))

    def test_calls_that_are_given_up(self):
        """They have no number, and keep their CIDs until polls took their completions, of each in its turn."""
        with RemoteHost(1, 1) as host:
            calls = [host.read(lba) for lba in range(64)]
            for call in (calls[3], calls[9]):
                host.give_up(call)
                self.refused(Status.NO_CALL, host.give_up, call)
            self.assertEqual(host.waiting(), (62, 2))
            self.refused(Status.CALL_NO_ROOM, host.read, 0)
            for cid, data in ((9, B2), (63, A1)):
                host.incoming(success(cid), data)
            # that of CID 3 has its turn, and takes the completion of CID 9; the call that is polled takes its own
            self.assertEqual((host.poll(calls[63]), host.waiting()), (Reply(ReplyKind.READ, A1), (61, 2)))
            # then that of CID 9, also where no call has the number that is polled
            self.refused(Status.NO_CALL, host.poll, calls[63])
            self.assertEqual(host.waiting(), (61, 1))
            host.read(0), host.read(0)
            self.refused(Status.CALL_NO_ROOM, host.read, 0)
            self.assertEqual((host.waiting(), host.dropped()), ((63, 1), 0))

    def test_completions_that_no_call_is_owed_are_dropped(self):
        with RemoteHost(1, 1) as host:
            one, two = host.read(0), host.read(1)
            # of no command, of another queue, with a bit of the first two dwords, and one above the Status Code Type
            changes = ((12, 9), (13, 1), (10, 2), (11, 1), (0, 1), (7, 0x80), (15, 0x10), (15, 0x80))
            for count, change in enumerate(changes):
                host.incoming(success(1, change))
                self.assertEqual(host.dropped(), count)
                self.assertEqual((host.poll(two), host.dropped()), (PENDING, count + 1))
            # of one that comes twice the first counts
            for cid, data in ((0, A1), (0, B2), (1, B2)):
                host.incoming(success(cid), data)
            self.assertEqual(self.over(host, two), Reply(ReplyKind.READ, B2))
            self.assertEqual(self.over(host, one), Reply(ReplyKind.READ, A1))
            self.assertEqual(host.dropped(), 9)

    def test_hosts_that_are_closed(self):
        host, slots = RemoteHost(1, 1), RemoteSlotHost(1, 1, SLOTS)
        call = host.write(0, A1)
        slots.claim(0)
        for it in (host, slots, host, slots):
            it.close()
        for it, *arguments in ((host.read, 0), (host.write, 0, A1), (host.write_zeroes, 0), (host.compare, 0, A1),
                               (host.compare_and_write, 0, A1, B2), (host.poll, call), (host.give_up, call),
                               (host.waiting,), (host.outgoing,),
                               (host.incoming, success(0)), (host.dropped,), (slots.claim, 0), (slots.claim_any,),
                               (slots.release, 0), (slots.take_over, 0, Name(2, 1)), (slots.ask_holder, 0),
                               (slots.poll,), (slots.outgoing,), (slots.incoming, success(0)), (slots.dropped,)):
            self.assertIsInstance(self.refused(Status.NO_HANDLE, it, *arguments), NoHandle)

    # ---- a remote slot host

    def test_what_no_slot_host_is_made_of(self):
        for status, number, queue, area in ((Status.BAD_AREA, 0, 0, (FIRST, 0)), (Status.BAD_AREA, 1, 1, (65536, 1)),
                                            (Status.BAD_AREA, 1, 1, (65535, 2)), (Status.BAD_NUMBER, 0, 0, SLOTS),
                                            (Status.NO_QUEUE, 1, 0, SLOTS)):
            self.refused(status, RemoteSlotHost, number, queue, area)
        for arguments in ((2 ** 32, 1, SLOTS), (1, -1, SLOTS), (1, 1, (0, 2 ** 32)), (1, 1, SLOTS, 2 ** 64)):
            self.assertRaises(OverflowError, RemoteSlotHost, *arguments)
        with RemoteSlotHost(2 ** 32 - 1, 65535, (0, 65536)) as host:
            self.assertEqual((host.number, host.queue, host.slots), (2 ** 32 - 1, 65535, (0, 65536)))
            self.refused(Status.NO_SLOT, host.claim, 65536)
            host.claim(65535)

    def test_two_hosts_claim_one_slot(self):
        disk, one, two = self.two_hosts()
        for call, *more in ((one.claim,), (one.release,), (one.take_over, Name(7, 1)), (one.ask_holder,)):
            self.assertIsInstance(self.refused(Status.NO_SLOT, call, COUNT, *more), SlotRefused)
        self.refused(Status.NO_CALL, one.poll)
        self.refused(Status.NOT_HELD, one.release, 1)
        self.assertIsNone(one.outgoing())
        one.claim(1)
        for call, *arguments in ((one.claim, 1), (one.claim_any,), (one.release, 1), (one.take_over, 1, Name(7, 1)),
                                 (one.ask_holder, COUNT)):
            self.refused(Status.IN_CALL, call, *arguments)
        self.assertEqual(one.poll(), WAITS)
        # who is served first has it
        two.claim(1)
        self.assertEqual(self.slot_over(disk, two), held(1))
        self.assertEqual(self.slot_over(disk, one), TAKEN)
        self.refused(Status.NOT_HELD, one.release, 1)
        self.refused(Status.HELD, two.claim, 1)
        one.ask_holder(1)
        self.assertEqual(self.slot_over(disk, one).name, Name(2, 1))
        two.release(1)
        self.assertEqual(self.slot_over(disk, two), RELEASED)
        two.ask_holder(1)
        self.assertEqual(self.slot_over(disk, two).kind, SlotReplyKind.FREE)
        one.claim(1)
        self.assertEqual(self.slot_over(disk, one), held(1))
        # (the first of its claims was of a slot that was taken)
        self.assertEqual(disk.medium(FIRST + 1), block_of(1, 4098))

    def test_of_any_slots_the_first_that_nobody_has(self):
        disk, one, two = self.two_hosts()
        for slot in range(COUNT):
            host = (one, two)[slot % 2]
            host.claim_any()
            self.assertEqual(self.slot_over(disk, host), held(slot))
        one.claim_any()
        self.assertEqual(self.slot_over(disk, one), TAKEN)

    def test_the_slots_of_a_closed_host_are_taken_over(self):
        disk, one, two = self.two_hosts()
        for slot in (0, 2):
            one.claim(slot)
            self.assertEqual(self.slot_over(disk, one), held(slot))
        one.close()
        two.ask_holder(0)
        dead = self.slot_over(disk, two).name
        self.assertEqual(dead, Name(1, 4097))
        for bad in (Name(0, 1), Name(1, 0), Name(2, 1)):
            self.refused(Status.BAD_NAME, two.take_over, 0, bad)
        # another name than the slot has
        two.take_over(2, dead)
        self.assertEqual(self.slot_over(disk, two), TAKEN)
        two.take_over(0, dead)
        self.assertEqual(self.slot_over(disk, two), held(0))
        self.assertEqual(disk.medium(FIRST), block_of(2, 2))
        self.refused(Status.HELD, two.take_over, 0, dead)
        two.release(0)
        self.assertEqual(self.slot_over(disk, two), RELEASED)
        # whoever has the dead one's number has names of its own, and nothing of what that one held
        with RemoteSlotHost(1, 3, SLOTS, 4098) as again:
            again.claim(0)
            self.assertEqual(self.slot_over(disk, again), held(0))
            self.assertEqual(disk.medium(FIRST), block_of(1, 4099))
            self.refused(Status.NOT_HELD, again.release, 2)

    def test_what_slot_hosts_alone_bring_about_never(self):
        disk, one, two = self.two_hosts()
        # a block that is no name
        with RemoteHost(3, 3) as writer:
            call = writer.write(FIRST + 1, A1)
            carry(disk, writer)
            self.assertEqual(self.over(writer, call), WRITTEN)
        one.ask_holder(1)
        self.assertEqual(self.slot_over(disk, one).kind, SlotReplyKind.FOREIGN)
        # a slot that was taken over from a host that isn't dead: Compare Failure
        one.claim(0)
        self.assertEqual(self.slot_over(disk, one), held(0))
        two.take_over(0, Name(1, 4097))
        self.assertEqual(self.slot_over(disk, two), held(0))
        one.release(0)
        self.assertEqual(self.slot_over(disk, one), SlotReply(SlotReplyKind.FAILED, status=(2, 0x85)))
        self.refused(Status.NOT_HELD, one.release, 0)
        # slots that there are no blocks for: LBA Out of Range
        with RemoteSlotHost(4, 1, (8, 1)) as beyond:
            for call in (beyond.claim, beyond.ask_holder):
                call(0)
                self.assertEqual(self.slot_over(disk, beyond), SlotReply(SlotReplyKind.FAILED, status=(0, 0x80)))

    def test_no_serial_is_above_the_last(self):
        with Controller(THREE) as disk, RemoteSlotHost(1, 1, SLOTS, 2 ** 64 - 2) as host:
            host.claim(0)
            self.assertEqual(self.slot_over(disk, host), held(0))
            self.assertEqual(disk.medium(FIRST), block_of(1, 2 ** 64 - 1))
            for call, *arguments in ((host.claim, 1), (host.claim_any,), (host.take_over, 1, Name(2, 1))):
                self.assertIsInstance(self.refused(Status.CALL_NO_SERIAL, call, *arguments), CallRefused)
            self.assertIsNone(host.outgoing())
            # (a release draws none)
            host.release(0)
            self.assertEqual(self.slot_over(disk, host), RELEASED)

    def test_completions_that_no_slot_call_is_owed_are_dropped(self):
        with RemoteSlotHost(1, 1, SLOTS) as host:
            host.claim(3)
            for cqe in (success(2), success(1, (4, 1)), success(0), success(0), success(1)):
                host.incoming(cqe)
            self.assertEqual(host.dropped(), 0)
            self.assertEqual([host.poll() for _ in range(4)], [WAITS] * 4)
            self.assertEqual((host.dropped(), host.poll(), host.dropped()), (3, held(3), 3))


if __name__ == "__main__":
    unittest.main(argv=[sys.argv[0], *sys.argv[1:]])
