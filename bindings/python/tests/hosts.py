#!/usr/bin/env python3
"""Tests of vandrexu.py: the lines of histories, and disks and their hosts with each of their answers."""
import sys
import threading
import unittest

import vandrexu
from vandrexu import (BadConfig, Busy, CallRefused, Config, Controller, Disk, Entry, NoHandle, Refused, Reply,
                      ReplyKind, Status)

TWO = Config.of_line("config 8 1 1 0 0 2 4 4 8")
A1 = b"\xA1" * 512


class Hosts(unittest.TestCase):
    def refused(self, status, call, *arguments):
        with self.assertRaises(vandrexu.Error) as caught:
            call(*arguments)
        self.assertEqual(caught.exception.status, status)
        self.assertEqual(str(caught.exception), vandrexu.WORDS[status])
        return caught.exception

    # ---- the lines of a history

    def test_a_history_in_pieces(self):
        with Controller(Config(blocks=1024, awun=255)) as disk:
            self.assertEqual(list(disk.history()), [str(disk.config)])
            self.assertEqual(list(disk.history(1)), [])
            # (lines longer than any piece)
            data = bytes(range(256)) * 128
            for cid in range(3):
                disk.publish(1, [Entry.write(cid, 3, data, 64)])
                disk.fetch(1)
                disk.settle()
                disk.reap(1)
            lines = list(disk.history())
            self.assertEqual(len(lines), disk.history_count() + 1)
            blocks = ".".join(data[at:at + 512].hex().upper() for at in range(0, len(data), 512))
            steps = "".join(f"publish 1 write 0 {cid} 3 63 {blocks}\nfetch 1\nsettle\nreap 1\n" for cid in range(3))
            text = vandrexu.run_text(f"{disk.config}\n{steps}", vandrexu.Lines.HISTORY)
            self.assertEqual(text.splitlines(), lines)
            for start in (1, 2, 69, len(lines) - 1, len(lines), len(lines) + 7, 2 ** 64 - 1):
                self.assertEqual(list(disk.history(start)), lines[start:])
            self.assertRaises(OverflowError, lambda: list(disk.history(-1)))
            # what is made while it is read is told, too
            more = disk.history(len(lines) - 1)
            self.assertEqual(next(more), lines[-1])
            disk.publish(1, [Entry.flush(9)])
            self.assertEqual(len(list(more)), 1)
            # what stands before a place is forgotten, and the places of the rest stay
            for _ in range(2):
                disk.forget(69)
                self.assertEqual(list(disk.history(69)), lines[69:] + list(disk.history(len(lines))))
                head = disk.history()
                self.assertEqual(next(head), lines[0])
                for told in (head, disk.history(1), disk.history(68)):
                    self.assertIsInstance(self.refused(Status.FORGOTTEN, next, told), vandrexu.Forgotten)
            self.assertEqual(disk.history_count(), len(lines))

    # ---- a disk and its hosts

    def over(self, disk, host, call):
        """Serves a host's queue, and polls until the call is over. No call has its number then."""
        disk.serve(host.queue)
        while (reply := host.poll(call)).kind == ReplyKind.PENDING:
            pass
        self.refused(Status.NO_CALL, host.poll, call)
        return reply

    def test_what_hosts_are_refused(self):
        self.assertIsInstance(self.refused(Status.BAD_JOBS, Disk, Config(jobs=0), 1), BadConfig)
        with Disk(TWO, 1) as disk:
            self.refused(Status.BAD_NUMBER, disk.host, 0, 1)
            self.assertIsInstance(self.refused(Status.NO_QUEUE, disk.host, 1, 3), Refused)
            with disk.host(1, 1) as host:
                self.refused(Status.NO_HOST, disk.host, 2, 2)
                self.assertEqual(disk.hosts_left(), 0)
                self.refused(Status.NO_ENTRY, disk.serve, 1)
                self.refused(Status.NO_QUEUE, disk.serve, 3)
                self.refused(Status.NO_ENTRY, disk.fetch, 1)
                self.assertIs(disk.task(), False)
                self.refused(Status.NO_CALL, host.poll, 0)
                self.refused(Status.NO_CALL, host.give_up, 0)
                for status, call, *arguments in (
                        (Status.CALL_LENGTH, host.read, 0, 0), (Status.CALL_TOO_LONG, host.read, 0, 257),
                        (Status.CALL_LENGTH, host.write_zeroes, 0, 0),
                        (Status.CALL_TOO_LONG, host.write_zeroes, 0, 257),
                        (Status.CALL_LENGTH, host.write, 0, b""), (Status.CALL_LENGTH, host.compare, 0, bytes(511)),
                        (Status.CALL_LENGTH, host.compare_and_write, 0, bytes(512), bytes(1024)),
                        (Status.CALL_TOO_LONG, host.compare_and_write, 0, bytes(1536), bytes(1536))):
                    self.assertIsInstance(self.refused(status, call, *arguments), CallRefused)
                write = host.write(0, A1)
                disk.fetch(1)
                self.refused(Status.UNFINISHED, disk.fetch, 2)
                disk.serve(2)
                self.assertEqual(host.poll(write), Reply(ReplyKind.WRITTEN))
                for call, arguments in ((host.read, (-1,)), (host.read, (0, 2 ** 32)), (host.poll, (-1,)),
                                        (host.give_up, (2 ** 32,)), (disk.serve, (65536,)),
                                        (disk.host, (2 ** 32, 1)), (Disk, (TWO, 65536))):
                    self.assertRaises(OverflowError, call, *arguments)
        # a queue of two entries takes one at a time
        with Disk(Config.of_line("config 8 1 1 0 0 1 2 4 8"), 1) as disk, disk.host(1, 1) as host:
            refusal = self.refused(Status.CALL_NO_ROOM, host.compare_and_write, 0, A1, A1)
            self.assertIsInstance(refusal, CallRefused)

    def test_a_number_and_a_queue_that_were_had(self):
        last = 2 ** 32 - 1
        with Disk(TWO, 1) as disk:
            # (a host that isn't made has neither)
            self.refused(Status.NO_QUEUE, disk.host, last, 3)
            host = disk.host(last, 2)
            # of one that is open, and of one that is closed
            for _ in "12":
                self.refused(Status.BAD_NUMBER, disk.host, 0, 3)
                self.refused(Status.NO_QUEUE, disk.host, last, 3)
                for queue in (1, 2):
                    refusal = self.refused(Status.USED_NUMBER, disk.host, last, queue)
                    self.assertIs(type(refusal), vandrexu.Error)
                self.assertIs(type(self.refused(Status.USED_QUEUE, disk.host, 1, 2)), vandrexu.Error)
                self.refused(Status.NO_HOST, disk.host, 1, 1)
                host.close()
        with Disk(TWO, 2) as disk, disk.host(1, 2), disk.host(2, 1) as host:
            self.assertEqual((host.number, host.queue, disk.slots), (2, 1, None))

    def test_a_host_that_ends_and_is_made_again(self):
        with Disk(TWO, 1) as disk, Disk(TWO, 1) as other, other.host(2, 2) as stranger:
            host = disk.host(7, 2)
            self.refused(Status.OTHER_HOST, disk.again, 7)
            self.refused(Status.OTHER_HOST, disk.end, stranger)
            for life in range(100):
                call = host.write(3, bytes([life]) * 512)
                self.assertIs(type(self.refused(Status.IN_CALL, disk.end, host)), vandrexu.Error)
                host.give_up(call)
                disk.end(host)
                self.refused(Status.NO_HANDLE, host.read, 3)
                self.refused(Status.NO_HANDLE, disk.end, host)
                self.refused(Status.USED_NUMBER, disk.host, 7, 1)
                disk.serve(2)
                host = disk.again(7)
                self.assertEqual((host.number, host.queue, disk.hosts_left()), (7, 2, 0))
                self.refused(Status.OTHER_HOST, disk.again, 7)
                self.assertEqual(host.waiting(), vandrexu.Waiting(0, 1))
                self.refused(Status.NO_CALL, host.poll, call)
                self.assertEqual(host.waiting(), vandrexu.Waiting(0, 0))
            call = host.read(3)
            disk.serve(2)
            self.assertEqual(host.poll(call).data, bytes([99]) * 512)
            self.assertRaises(OverflowError, disk.again, -1)

    def writes(self, host, lba, blocks):
        """The calls that write zeros to so many blocks, with arguments."""
        zeros = bytes(512 * blocks)
        return (host.write, lba, zeros), (host.write_zeroes, lba, blocks), (host.compare_and_write, lba, zeros, zeros)

    def test_a_host_that_would_write_to_slots(self):
        # (the slots are the blocks 2 to 5)
        with Disk(TWO, 1, slots=(2, 4)) as disk, disk.host(1, 1) as host:
            for lba, blocks in ((2, 1), (3, 2), (5, 1), (1, 2), (5, 2)):
                for call, *arguments in self.writes(host, lba, blocks):
                    self.assertIsInstance(self.refused(Status.CALL_SLOT_AREA, call, *arguments), CallRefused)
            self.refused(Status.CALL_SLOT_AREA, host.write_zeroes, 0, 256)
            # what is wrong with the call itself is told first
            for status, call, *arguments in (
                    (Status.CALL_LENGTH, host.write, 2, bytes(511)), (Status.CALL_LENGTH, host.write_zeroes, 2, 0),
                    (Status.CALL_LENGTH, host.compare_and_write, 2, bytes(512), bytes(1024)),
                    (Status.CALL_TOO_LONG, host.write_zeroes, 2, 257),
                    (Status.CALL_TOO_LONG, host.compare_and_write, 2, bytes(1536), bytes(1536))):
                self.refused(status, call, *arguments)
            self.refused(Status.NO_ENTRY, disk.serve, 1)
            # they are read and compared, and the blocks on both sides are written
            read = host.read(1, 6)
            self.refused(Status.CALL_SLOT_AREA, host.write, 2, A1)
            self.assertEqual(self.over(disk, host, read), Reply(ReplyKind.READ, bytes(3072)))
            self.assertEqual(self.over(disk, host, host.compare(1, bytes(3072))), Reply(ReplyKind.EQUAL))
            for lba, blocks in ((0, 2), (1, 1), (6, 1), (6, 2)):
                for call, *arguments in self.writes(host, lba, blocks):
                    self.assertIn(self.over(disk, host, call(*arguments)).kind, (ReplyKind.WRITTEN, ReplyKind.SWAPPED))
        # a queue of two entries takes one at a time
        with Disk(Config.of_line("config 8 1 1 0 0 1 2 4 8"), 1, slots=(2, 4)) as disk, disk.host(1, 1) as host:
            self.refused(Status.CALL_SLOT_AREA, host.compare_and_write, 5, A1, A1)
            self.refused(Status.CALL_NO_ROOM, host.compare_and_write, 6, A1, A1)

    def test_slots_behind_the_volume(self):
        with Disk(TWO, 1, slots=(65535, 1)) as disk, disk.host(1, 1) as host:
            for call, *arguments in self.writes(host, 65535, 1):
                self.refused(Status.CALL_SLOT_AREA, call, *arguments)
            # (these are begun, and fail)
            for lba in (65534, 65536, 2 ** 64 - 1):
                for call, *arguments in self.writes(host, lba, 1):
                    self.assertEqual(self.over(disk, host, call(*arguments)), Reply(ReplyKind.FAILED, status=(0, 0x80)))

    def test_each_reply(self):
        disk = Disk(TWO, 2)
        one, two = disk.host(1, 1), disk.host(2, 2)
        call = one.compare_and_write(3, bytes(1024), A1 + A1)
        self.assertEqual(one.poll(call), Reply(ReplyKind.PENDING))
        self.assertEqual(self.over(disk, one, call), Reply(ReplyKind.SWAPPED))
        for reply, ask, *arguments in ((Reply(ReplyKind.DIFFERS), two.compare_and_write, 3, bytes(512), bytes(512)),
                                       (Reply(ReplyKind.EQUAL), two.compare, 4, A1),
                                       (Reply(ReplyKind.DIFFERS), two.compare, 4, bytes(512)),
                                       (Reply(ReplyKind.WRITTEN), two.write_zeroes, 4),
                                       (Reply(ReplyKind.READ, A1 + bytes(512)), two.read, 3, 2),
                                       (Reply(ReplyKind.FAILED, status=(0, 0x80)), two.read, 8)):
            self.assertEqual(self.over(disk, two, ask(*arguments)), reply)
        disk.close()
        self.assertEqual(one.poll(one.write(0, A1)), Reply(ReplyKind.PENDING))
        one.close()
        for call, arguments in ((disk.serve, (1,)), (disk.fetch, (1,)), (disk.task, ()),
                                (disk.forget, ()), (disk.hosts_left, ()), (disk.host, (1, 1)),
                                (one.read, (0,)), (one.write, (0, A1)), (one.write_zeroes, (0,)),
                                (one.compare, (0, A1)), (one.compare_and_write, (0, A1, A1)), (one.poll, (0,)),
                                (one.give_up, (0,)), (one.waiting, ())):
            self.assertIsInstance(self.refused(Status.NO_HANDLE, call, *arguments), NoHandle)

    def test_many_calls_of_one_host(self):
        """64 commands are in flight, polled in another order than they were begun."""
        with Disk(Config(blocks=8, sq_size=80, cq_size=80, jobs=80), 1) as disk, disk.host(7, 1) as host:
            swap = host.compare_and_write(3, bytes(512), A1)
            reads = [host.read(3) for _ in range(62)]
            self.assertEqual(host.waiting(), (63, 0))
            self.refused(Status.CALL_NO_ROOM, host.read, 3)
            for _ in range(63):
                disk.serve(1)
            for read in reversed(reads):
                while (reply := host.poll(read)).kind == ReplyKind.PENDING:
                    pass
                self.assertEqual(reply, Reply(ReplyKind.READ, A1))
                self.refused(Status.NO_CALL, host.poll, read)
            self.assertEqual((host.poll(swap), host.waiting()), (Reply(ReplyKind.SWAPPED), (0, 0)))

    def test_calls_that_are_given_up(self):
        """They have no number, and keep their CIDs until polls have reaped their completions."""
        with Disk(Config(blocks=8, sq_size=80, cq_size=80, jobs=80), 1) as disk, disk.host(7, 1) as host:
            swap = host.compare_and_write(3, bytes(512), A1)
            reads = [host.read(3) for _ in range(62)]
            host.give_up(swap)
            for ask in (host.give_up, host.poll):
                self.refused(Status.NO_CALL, ask, swap)
            for _ in range(2):
                self.assertEqual(host.waiting(), (62, 1))
                self.refused(Status.CALL_NO_ROOM, host.read, 3)
                disk.serve(1)
            # the pair has its turn at each poll, and reaps a completion; the call that is polled reaps another
            self.assertEqual(host.poll(reads[61]).kind, ReplyKind.PENDING)
            self.assertEqual(host.poll(reads[0]), Reply(ReplyKind.READ, A1))
            self.assertEqual(host.waiting(), (61, 0))
            for _ in range(3):
                host.read(3)
            self.refused(Status.CALL_NO_ROOM, host.read, 3)
            self.assertEqual(host.waiting(), (64, 0))

    def test_hosts_count_together(self):
        """Two hosts on threads of their own add to one block by Compare and Write, and no turn is lost."""
        def ask(call, *arguments):
            while True:
                try:
                    return call(*arguments)
                except Busy:
                    pass

        def reply_of(host, call):
            while (reply := ask(host.poll, call)).kind == ReplyKind.PENDING:
                pass
            return reply

        def adds(host):
            old, added = bytes(512), 0
            while added < 40:
                new = (int.from_bytes(old[:2], "little") + 1).to_bytes(2, "little") + bytes(510)
                if reply_of(host, ask(host.compare_and_write, 0, old, new)).kind == ReplyKind.SWAPPED:
                    old, added = new, added + 1
                else:
                    old = reply_of(host, ask(host.read, 0)).data

        with Disk(TWO, 2) as disk:
            hosts = [disk.host(queue, queue) for queue in (1, 2)]
            threads = [threading.Thread(target=adds, args=(it,)) for it in hosts]
            for thread in threads:
                thread.start()
            while any(it.is_alive() for it in threads):
                for queue in (1, 2):
                    try:
                        disk.serve(queue)
                    except (Busy, Refused) as error:
                        self.assertIn(error.status, (Status.BUSY, Status.NO_ENTRY))
            self.assertEqual(self.over(disk, hosts[0], hosts[0].read(0)).data, (80).to_bytes(2, "little") + bytes(510))


if __name__ == "__main__":
    unittest.main(argv=[sys.argv[0], *sys.argv[1:]])
