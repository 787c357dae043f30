#!/usr/bin/env python3
"""Tests of vandrexu.py: each call with each of its answers, what lies below it, and the headers."""
import ctypes
import os
import pickle
import re
import sys
import threading
import unittest
from ctypes import byref, c_size_t, c_uint8, c_uint64, sizeof

import vandrexu
from vandrexu import (BadConfig, BadLine, Blocked, Checker, Completion, Config, Controller, Disk, Entry, Found, Granted,
                      Host, Kind, Mode, NoBlock, NoHandle, NoMemory, NotLegal, Op, OtherEntry, Refused, RemoteHost,
                      RemoteSlotHost, ReplyKind, SlotHost, SlotReplyKind, Status, Step, StepKind, Work, library)

TOP = os.path.join(os.path.dirname(os.path.abspath(__file__)), "../../..")
TWO = Config.of_line("config 8 1 1 0 0 2 4 4 8")
SMALL = Config.of_line("config 8 1 1 0 0 1 4 2 2")
A1 = b"\xA1" * 512
FLUSH = "publish 1 0000070001" + "0" * 118 + " -"


def read(path):
    with open(os.path.join(TOP, path), encoding="utf-8") as it:
        return it.read()


def headers():
    """The headers, without their comments."""
    text = "".join(read(f"include/vandrexu{it}.h") for it in ("", "_hosts", "_slots", "_remote"))
    return re.sub(r"/\*.*?\*/", "", text, flags=re.S)


class Calls(unittest.TestCase):
    def refused(self, status, call, *arguments):
        with self.assertRaises(vandrexu.Error) as caught:
            call(*arguments)
        self.assertEqual(caught.exception.status, status)
        self.assertEqual(str(caught.exception), vandrexu.WORDS[status])
        return caught.exception

    # ---- configurations

    def test_each_fault_of_a_configuration(self):
        rows = [
            ("config 8 256 1 0 0 2 4 4 8", Status.AWUN_TOO_LARGE),
            ("config 8 1 256 0 0 2 4 4 8", Status.ACWU_TOO_LARGE),
            ("config 8 3 1 2 0 2 4 4 8", Status.BOUNDARY_BELOW_UNIT),
            ("config 8 1 1 3 4 2 4 4 8", Status.OFFSET_PAST_BOUNDARY),
            ("config 0 1 1 0 0 2 4 4 8", Status.BAD_BLOCKS), ("config 65537 1 1 0 0 2 4 4 8", Status.BAD_BLOCKS),
            ("config 8 1 1 0 0 17 4 4 8", Status.BAD_PAIRS), ("config 8 1 1 0 0 2 1 4 8", Status.BAD_SQ_SIZE),
            ("config 8 1 1 0 0 2 4 1025 8", Status.BAD_CQ_SIZE), ("config 8 1 1 0 0 2 4 4 0", Status.BAD_JOBS),
            ("config2 8 1 1 0 0 2 4 4 8 3", Status.BAD_CQS)]
        self.assertIsNone(TWO.fault())
        for line, fault in rows:
            config = Config.of_line(line)
            self.assertEqual(config.fault(), fault)
            for made in (Controller, Checker):
                self.assertIsInstance(self.refused(fault, made, config), BadConfig)

    def test_the_line_of_a_configuration(self):
        for line in ("config 8 1 1 0 0 2 4 4 8", "config2 8 1 1 0 0 2 4 4 8 1",
                     "config 65536 0 0 7 3 16 1024 1024 256"):
            self.assertEqual(str(Config.of_line(line)), line)
        for line in ("", "config", "config 8 1 1 0 0 2 4 4", "config 8 1 1 0 0 2 4 4 8 2", "config2 8 1 1 0 0 2 4 4 8",
                     "config2 8 1 1 0 0 2 4 4 8 2", "config 8  1 1 0 0 2 4 4 8", "config 08 1 1 0 0 2 4 4 8",
                     "config +8 1 1 0 0 2 4 4 8", "config 8 65536 1 0 0 2 4 4 8", "config 4294967296 1 1 0 0 2 4 4 8",
                     "config 8 1 1 0 0 2 4 4 8 ", "config \u0668 1 1 0 0 2 4 4 8", "Config 8 1 1 0 0 2 4 4 8"):
            self.refused(Status.BAD_LINE, Config.of_line, line)

    # ---- a controller

    def test_a_pair_that_wins(self):
        with Controller(TWO) as disk:
            disk.reserve(16)
            self.assertIsInstance(self.refused(Status.NO_MEMORY, disk.reserve, 2 ** 64 - 1), MemoryError)
            self.assertIsNone(disk.ready())
            pair = [Entry.compare(7, 3, bytes(512)).first(), Entry.write(8, 3, A1).second()]
            self.assertIsInstance(self.refused(Status.NO_QUEUE, disk.publish, 0, pair), Refused)
            self.refused(Status.BAD_BATCH, disk.publish, 1, [])
            self.refused(Status.NO_ENTRY, disk.fetch, 1)
            disk.publish(1, iter(pair))
            self.refused(Status.NO_ROOM, disk.publish, 1, pair)
            self.refused(Status.NO_TICKET, disk.grant, 1)
            self.assertEqual(disk.fetch(1), Work(1, Kind.PAIR, 3, 1, None, 0))
            self.refused(Status.WRONG_STATE, disk.block, 1)
            self.assertEqual(disk.ready(), Step(StepKind.GRANT, 1))
            self.assertEqual(disk.grant(1), Granted(0, 3, 1, Mode.EXCLUSIVE))
            self.assertEqual(disk.step(Step(StepKind.BLOCK, 1)), Blocked(3, Found.EQUAL, True, False))
            self.assertEqual(disk.block(1), Blocked(3, Found.WRITTEN, False, True))
            self.assertEqual(disk.medium(3), A1)
            self.assertIsInstance(self.refused(Status.NO_BLOCK, disk.medium, 8), NoBlock)
            self.assertEqual(disk.post(1).hex(), "00000000000000000200010007000100")
            disk.settle()
            self.refused(Status.NO_TICKET, disk.post, 1)
            self.refused(Status.NO_COMPLETION, disk.reap, 2)
            self.assertEqual([it.completion.cid for it in disk.completions(1)], [7, 8])
            disk.publish(1, [Entry.read(9, 3)])
            self.assertEqual(disk.fetch(1).op, Op.READ)
            self.assertEqual(sum(1 for _ in disk.steps()), 3)
            self.assertEqual(disk.reap(1).data, A1)
            self.assertEqual(disk.history_count(), 15)

    def test_lines_are_made_once_more(self):
        with Controller(TWO) as disk:
            for line in ("", FLUSH + "\n", "fetch 1 1 1"):
                self.assertIsInstance(self.refused(Status.BAD_LINE, disk.replay, line), BadLine)
            self.assertIsInstance(self.refused(Status.NO_ENTRY, disk.replay, "fetch 1 1 1 ok"), Refused)
            self.assertEqual(disk.history_count(), 0)
            disk.replay(FLUSH)
            self.assertIsInstance(self.refused(Status.OTHER_ENTRY, disk.replay, b"fetch 1 2 1 ok"), OtherEntry)
            self.assertEqual(list(disk.history(2)), ["fetch 1 1 1 ok"])
            disk.replay("post 1 00000000000000000100010007000100 -")
            self.assertEqual(disk.reap(1).completion.cid, 7)
        self.refused(Status.NO_HANDLE, disk.replay, FLUSH)

    def test_limits(self):
        with Controller(SMALL) as disk:
            disk.publish(1, [Entry.write(1, 0, A1), Entry.write(2, 0, A1), Entry.flush(3)])
            self.assertEqual([disk.fetch(1).op, disk.fetch(1).ticket], [Op.WRITE, 2])
            self.refused(Status.JOBS_FULL, disk.fetch, 1)
            disk.grant(1)
            self.refused(Status.CONFLICT, disk.grant, 2)
            disk.block(1)
            disk.post(1)
            disk.grant(2)
            disk.block(2)
            self.refused(Status.CQ_FULL, disk.post, 2)
            self.assertIsNone(disk.ready())
            self.assertEqual(disk.reap(1).completion.cid, 1)
            disk.settle()
            self.assertEqual(disk.fetch(1), Work(3, Kind.FLUSH, 0, 0, None, 0))
            disk.publish(1, [Entry.write_zeroes(4, 8), Entry.compare(5, 1, A1)])
            self.assertEqual(disk.fetch(1), Work(4, Kind.FAILED, 0, 0, None, 1))
            self.refused(Status.NO_QUEUE, disk.reap, 2)
            self.refused(Status.NO_QUEUE, lambda: list(disk.completions(2)))

    def test_arguments_that_are_none(self):
        with Controller(TWO) as disk:
            for call, arguments in ((disk.fetch, (65536,)), (disk.fetch, (-1,)), (disk.grant, (2 ** 64,)),
                                    (disk.medium, (-1,)), (Entry.read, (65536, 0)), (Entry.read, (1, 0, 0)),
                                    (Config, (-1,))):
                self.assertRaises(OverflowError, call, *arguments)
            self.assertRaises(ValueError, disk.publish, 1, [Entry(bytes(63))])
            self.assertEqual(disk.history_count(), 0)

    # ---- a checker

    def test_lines(self):
        with Checker(TWO) as checker:
            for line in ("", "config 8 1 1 0 0 2 4 4 8", "fetch 1 1 1 ok\n", "medium 3 00", "\udcff", b"\xff\0"):
                self.assertIsInstance(self.refused(Status.BAD_LINE, checker.take_line, line), ValueError)
                self.refused(Status.BAD_LINE, checker.why, line)
            for line in (FLUSH, "fetch 1 1 1 ok", b"post 1 00000000000000000100010007000100 -",
                         "reap 1 00000000000000000100010007000100"):
                self.assertIsNone(checker.why(line))
                checker.take_line(line)
            self.assertEqual(checker.why("fetch 1 1 1 ok"), "refused 3: no entry to fetch")
            for line in ("fetch 1 1 1 ok", FLUSH):
                self.assertIsInstance(self.refused(Status.NOT_LEGAL, checker.take_line, line), NotLegal)
            self.refused(Status.BAD_LINE, checker.take_line, "")

    # ---- handles

    def test_a_handle_that_owns_nothing(self):
        for _ in range(2):
            disk, checker = Controller(TWO), Checker(TWO)
            disk.close()
            disk.close()
            checker.close()
            checker.close()
            for call, arguments in ((disk.reserve, (1,)), (disk.publish, (1, [Entry.flush(1)])), (disk.fetch, (1,)),
                                    (disk.grant, (1,)), (disk.block, (1,)), (disk.post, (1,)), (disk.reap, (1,)),
                                    (disk.ready, ()), (disk.settle, ()), (disk.medium, (0,)), (disk.history_count, ()),
                                    (lambda: next(disk.history()), ()), (disk.forget, (1,)),
                                    (checker.take_line, (FLUSH,)), (checker.why, (FLUSH,))):
                self.assertIsInstance(self.refused(Status.NO_HANDLE, call, *arguments), NoHandle)

    def test_below_the_classes(self):
        """What the classes never ask: handles in use, freed twice, too small rooms, data of other entries."""
        raw, judge = vandrexu.RawController(), vandrexu.RawChecker()
        config, count, room = TWO._raw(), c_size_t(7), (c_uint8 * 512)(*[7] * 512)
        self.assertEqual(library.vandrexu_controller_data(byref(raw), room, 512, byref(count)), Status.NO_HANDLE)
        self.assertEqual(count.value, 7)
        for handle, new, free in ((raw, library.vandrexu_controller_new, library.vandrexu_controller_free),
                                  (judge, library.vandrexu_checker_new, library.vandrexu_checker_free)):
            self.assertEqual([new(byref(config), byref(handle)), new(byref(config), byref(handle))], [0, Status.IN_USE])
            free(byref(handle))
            free(byref(handle))
            self.assertEqual((handle.at, handle.live), (None, 0))
            self.assertEqual(new(byref(config), byref(handle)), Status.DONE)
        entry = vandrexu.RawEntry(count=512)
        entry.bytes[:] = Entry.write(1, 0, A1).entry
        publish = library.vandrexu_controller_publish
        self.assertEqual([publish(byref(raw), 1, byref(entry), 1, A1, it) for it in (511, 0, 512)],
                         [Status.BAD_ENTRY, Status.BAD_ENTRY, Status.DONE])
        words = c_size_t(7)
        line = b"fetch 1 1 1 ok"
        why = lambda size: library.vandrexu_checker_why(byref(judge), line, len(line), room, size, byref(words))
        self.assertEqual((why(4), words.value, bytes(room)), (Status.TOO_SMALL, 28, b"\7" * 512))
        self.assertEqual((why(512), bytes(room)[:29]), (Status.NOT_LEGAL, b"refused 3: no entry to fetch\7"))
        library.vandrexu_controller_free(byref(raw))
        library.vandrexu_checker_free(byref(judge))

    def test_data_that_has_no_room(self):
        disk = Controller(TWO)
        disk.publish(1, [Entry.read(1, 0)])
        disk.fetch(1)
        disk.settle()
        cqe, count, room = (c_uint8 * 16)(), c_size_t(), (c_uint8 * 512)(*[7] * 512)
        self.assertEqual(library.vandrexu_controller_reap(byref(disk._raw), 1, cqe, byref(count)), Status.DONE)
        data = lambda size: library.vandrexu_controller_data(byref(disk._raw), room, size, byref(count))
        self.assertEqual((data(511), count.value, bytes(room)), (Status.TOO_SMALL, 512, b"\7" * 512))
        self.assertEqual((data(512), bytes(room)), (Status.DONE, bytes(512)))

    @unittest.skipUnless(os.path.exists("/proc/self/statm"), "no system here that says how much memory there is")
    def test_what_is_closed_or_forgotten_gives_its_memory_back(self):
        def pages():
            with open("/proc/self/statm", encoding="ascii") as it:
                return int(it.read().split()[1])
        before = pages()
        for _ in range(10000):
            Controller(SMALL).close()
            Checker(SMALL).close()
            Controller(SMALL)
            Checker(SMALL)
            with Disk(TWO, 2, slots=(0, 8)) as disk:
                Host(disk, 1, 1)
                SlotHost(disk, 2, 2)
            RemoteHost(1, 1).read(0)
            RemoteSlotHost(1, 1, (0, 8)).claim(0)
        # (each has a page at least)
        self.assertLess(pages(), before + 5000)

    def test_threads_take_turns(self):
        with Controller(Config(pairs=4, jobs=256)) as disk:
            def host(queue):
                for cid in range(200):
                    disk.publish(queue, [Entry.write(cid, queue, bytes([cid]) * 512)])
                    disk.fetch(queue)
                    while not any(it.completion.cid == cid for it in disk.completions(queue)):
                        step = disk.ready()
                        try:
                            _ = step and disk.step(step)
                        except Refused:
                            pass  # (another thread made it)
            threads = [threading.Thread(target=host, args=(queue,)) for queue in range(1, 5)]
            for thread in threads:
                thread.start()
            for thread in threads:
                thread.join()
            self.assertEqual([disk.medium(queue)[0] for queue in range(1, 5)], [199] * 4)
            self.assertEqual(disk.history_count(), 4 * 200 * 6)

    # ---- the texts and the header

    def test_an_error_is_pickled(self):
        error = pickle.loads(pickle.dumps(self.refused(Status.BAD_LINE, Config.of_line, "")))
        self.assertEqual((type(error), error.status), (BadLine, Status.BAD_LINE))
        self.assertTrue(issubclass(NoMemory, MemoryError))
        self.assertEqual(Completion(16).status, (0, 0))

    # ---- whole texts

    def test_each_answer_about_a_text(self):
        lines, head, other = vandrexu.Lines, "config 8 1 1 0 0 1 4 4 8\n", "config 8 1 1 0 0 17 4 4 8\n"
        flush = head + "publish 1 flush 0 7 0 0 -\nfetch 1\nsettle\nreap 1\n"
        history = vandrexu.run_text(flush, lines.HISTORY)
        self.assertEqual(history.splitlines()[1:3], [FLUSH, "fetch 1 1 1 ok"])
        reap = "reap 1 00000000000000000100010007000100"
        self.assertEqual(history.splitlines()[-1], reap)
        trace = f"{head}{FLUSH}\n{reap} -\n"
        wrong = trace.replace("07000100 -", "07000500 -")
        self.assertGreater(len(vandrexu.run_text(flush + "medium 3\n" * 900)), 8192)
        self.assertEqual(vandrexu.check_text(history), "legal\n")
        self.assertEqual(vandrexu.certify_text(trace, history), "explained\n")
        self.assertEqual(vandrexu.check_text(vandrexu.observe_text(trace)), "legal\n")
        rows = [
            (Status.BAD_LINE, 3, head + "refused 3\n", vandrexu.run_text, head + "fetch 1\nfetch it\n"),
            (Status.BAD_PAIRS, None, "", vandrexu.run_text, other),
            (Status.NOT_LEGAL, None, "bad at 1\n", vandrexu.check_text, head + "fetch 1 1 1 ok\n"),
            (Status.BAD_LINE, 2, "", vandrexu.check_text, head + "none\n"),
            (Status.BAD_PAIRS, None, "", vandrexu.check_text, other),
            (Status.NOT_EXPLAINED, None, "seen 2: the completion\n", vandrexu.certify_text, wrong, history),
            (Status.BAD_LINE, 2, "", vandrexu.certify_text, head + "none\n", history),
            (Status.BAD_PAIRS, None, "", vandrexu.certify_text, other, history),
            (Status.BAD_HISTORY, 2, "", vandrexu.certify_text, trace, head + "none\n"),
            (Status.BAD_HISTORY, 1, "", vandrexu.certify_text, trace, other),
            (Status.OTHER_CONFIG, None, "", vandrexu.certify_text, trace, "config 9 1 1 0 0 1 4 4 8\n"),
            (Status.NOT_REFUTED, None, "not refuted: line 2 may be right\n", vandrexu.refute_text, trace, "refutation\nlines 2\n"),
            (Status.BAD_LINE, 2, "", vandrexu.refute_text, head + "none\n", "refutation\nlines 2\n"),
            (Status.BAD_HISTORY, 1, "", vandrexu.refute_text, trace, "none\n"),
            (Status.GAVE_UP, None, "gave up\n", vandrexu.observe_text, trace, 0),
            (Status.BAD_LINE, 2, "", vandrexu.observe_text, head + "none\n"),
            (Status.BAD_PAIRS, None, "", vandrexu.observe_text, other),
        ]
        for status, line, text, call, *arguments in rows:
            error = self.refused(status, call, *arguments)
            self.assertEqual((error.line, error.text), (line, text), arguments)
        error = self.refused(Status.NOT_EXPLAINED, vandrexu.observe_text, wrong)
        self.assertTrue(error.text.startswith("refuted: "))
        self.assertEqual(error.refutation, "refutation\nlines 2\n")
        self.assertEqual(vandrexu.refute_text(wrong, error.refutation), "refuted: the first 2 lines\n")

    def test_the_words_are_those_of_the_pages(self):
        checking, scripts = read("docs/CHECKING.md"), read("docs/SCRIPTS.md")
        self.assertEqual(set(vandrexu.WORDS), set(Status))
        for status, words in vandrexu.WORDS.items():
            if 1 <= status <= 10:
                self.assertIn(f"| {status:d} | `{words}` |", checking)
            if 21 <= status <= 30:
                self.assertIn(f"| {status:d} | {words} |", scripts)

    def test_the_numbers_are_those_of_the_header(self):
        header = headers()
        enums = {name: dict(re.findall(r"VANDREXU_(\w+) = (\d+)", members))
                 for name, members in re.findall(r"enum vandrexu_(\w+) \{(.*?)\}", header, flags=re.S)}
        mine = {"status": (Status, ""), "kind": (Kind, ""), "op": (Op, ""), "mode": (Mode, ""),
                "found": (Found, "FOUND_"), "step_kind": (StepKind, "STEP_"), "reply_kind": (ReplyKind, "REPLY_"),
                "slot_reply_kind": (SlotReplyKind, "SLOT_")}
        enums["status"] |= enums.pop("host_status") | enums.pop("slot_status")
        lines = {it: int(value) for it, value in enums.pop("lines").items()}
        kinds = vandrexu.Lines.__members__.items()
        self.assertEqual(lines, {f"{it}_LINES": int(kind) for it, kind in kinds if it != "HISTORY"})
        self.assertEqual(set(enums), set(mine))
        for name, (enum, prefix) in mine.items():
            self.assertEqual({it.name: int(it) for it in enum},
                             {it.removeprefix(prefix): int(value) for it, value in enums[name].items()})

    def test_the_layouts_and_functions_are_those_of_the_header(self):
        header = headers()
        pointer = ctypes.c_void_p
        kinds = {"uint8_t": c_uint8, "uint16_t": ctypes.c_uint16, "uint32_t": ctypes.c_uint32, "uint64_t": c_uint64,
                 "size_t": c_size_t, "void *": pointer}
        structs = re.findall(r"typedef struct vandrexu_(\w+) \{(.*?)\}", header, flags=re.S)
        self.assertEqual(len(structs), 18)
        for name, members in structs:
            made = []
            for kind, field, many in re.findall(r"(\w+ \*?)(\w+)(?:\[(\d+)\])?;", members):
                kind = kinds[kind.strip()]
                made.append((field, kind * int(many) if many else kind))
            raw = getattr(vandrexu, "Raw" + "".join(it.capitalize() for it in name.split("_")))
            wanted = type("Wanted", (ctypes.Structure,), {"_fields_": made})
            self.assertEqual([it[0] for it in raw._fields_], [it[0] for it in made], name)
            self.assertEqual(sizeof(raw), sizeof(wanted), name)
            for field, _ in made:
                mine, due = getattr(raw, field), getattr(wanted, field)
                self.assertEqual((mine.offset, mine.size), (due.offset, due.size), f"{name}.{field}")
        functions = dict(re.findall(r"^(?:uint32_t|size_t|void) (vandrexu_\w+)\((?:void|([^)]*))\);", header, flags=re.M))
        self.assertEqual(set(functions), set(vandrexu._ARGUMENTS))
        for name, arguments in functions.items():
            wide = [sizeof(pointer if "*" in it else kinds[it.split()[0]]) for it in filter(None, arguments.split(","))]
            self.assertEqual([sizeof(it) for it in vandrexu._ARGUMENTS[name]], wide, name)


if __name__ == "__main__":
    unittest.main(argv=[sys.argv[0], *sys.argv[1:]])
