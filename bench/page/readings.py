"""What the lines of a history say, for bench/page/look, read by plain code that no page shares."""
import itertools
import runpy
from pathlib import Path

JUDGE = runpy.run_path(str(Path(__file__).resolve().parent.parent / "slots/judge"))
NAMES = {0: "Flush", 1: "Write", 2: "Read", 5: "Compare", 8: "Write Zeroes"}


def cid_of(hexadecimal, place):
    return int(hexadecimal[2 * place + 2 : 2 * place + 4] + hexadecimal[2 * place : 2 * place + 2], 16)


class Entry:
    """An entry of a submission queue."""

    def __init__(self, text, data, step):
        self.bytes, self.data, self.step, self.cid = bytes.fromhex(text), data, step, cid_of(text, 2)
        self.operation, self.slba = self.bytes[0], int.from_bytes(self.bytes[40:48], "little")
        many = int.from_bytes(self.bytes[48:50], "little") + 1
        self.blocks = range(self.slba, self.slba + (many if self.operation else 0))

    def __str__(self):
        name = NAMES.get(self.operation, f"opcode {self.operation:02X}h") + ["", " (first)", " (second)", ""][self.bytes[1] & 3]
        many, first = len(self.blocks), self.slba
        where = f" of block {first}" if many == 1 else f" of blocks {first} to {first + many - 1}" if many else ""
        return f"{name}{where}, CID {self.cid}"

    def words_of(self, unit):
        """The words of blocks of its data."""
        words = dict(zip(itertools.count(self.slba), self.data.split(".")))
        return {lba: "00" if self.operation == 8 else words[lba] for lba in unit}


class Lines:
    """What waits in queues and is in flight behind some lines of a history, what observers see of blocks, and the steps of things."""

    def __init__(self, config):
        numbers = list(map(int, config.split()[1:]))
        self.pairs, self.cqs = numbers[5], numbers[9] if config.startswith("config2") else numbers[5]
        self.waiting, self.posted = [[[] for _ in range(many)] for many in (self.pairs, self.cqs)]
        self.flying, self.owner, self.posts, self.seen, self.units = {}, {}, {}, {}, {}
        self.step, self.steps_of = 0, {}

    def note(self, what, number):
        """This step has to do with this."""
        steps = self.steps_of.setdefault((what, number), [])
        if steps[-1:] != [self.step]:
            steps.append(self.step)

    def take(self, line):
        self.step += 1
        self.steps_of["line", self.step + 1] = [self.step]
        kind, first, *words = line.split(" ")
        queue, entries, blocks = int(first) - 1, [], ()
        if kind == "publish":
            entries = [Entry(text, data, self.step) for text, data in zip(words[::3], words[1::3])]
            self.waiting[queue] += entries
            blocks = [lba for it in entries for lba in it.blocks]
        elif kind == "fetch":
            many = int(words[1])
            entries, self.waiting[queue] = self.waiting[queue][:many], self.waiting[queue][many:]
            self.flying[words[0]], self.owner[words[0]] = first, entries
        elif kind == "grant":
            entries, self.units[first] = self.owner[first], range(int(words[1]), int(words[1]) + int(words[2]))
            blocks = self.units[first]
        elif kind == "block":
            entries, blocks = self.owner[first], [int(words[1])]
            if words[3] == "*":
                self.mark(self.units[first], entries)
        elif kind == "post":
            entries = [self.owner[first][self.posts.get(first, 0)]]
            self.posts[first] = self.posts.get(first, 0) + 1
            self.posted[(int(self.flying[first]) - 1) % self.cqs].append((entries[0], self.flying[first], words[0]))
            if self.posts[first] == len(self.owner[first]):
                del self.flying[first]
        elif kind == "reap":
            entries = [self.posted[queue].pop(0)[0]]
        for it in entries:
            self.note("cid", it.cid)
        for lba in blocks:
            self.note("block", lba)

    def mark(self, unit, entries):
        """A unit takes effect: observers see what it writes, unless it compares with something else."""
        data = {it.operation: it.words_of(unit) for it in entries if it.operation in (1, 5, 8)}
        if all(self.seen.get(lba, "00") == word for lba, word in data.get(5, {}).items()):
            self.seen.update(data.get(1, data.get(8, {})))


def asked_of(lines, places, blocks):
    """A history's lines as a script that makes the same steps, with the blocks behind each of these places."""
    yield lines[0]
    for place, it in enumerate(lines[1:], 1):
        kind, first, *words = it.split(" ")
        batch = " + ".join(f"raw {entry} {data}" for entry, data in zip(words[::3], words[1::3]))
        yield f"{kind} {first} {batch}" if kind == "publish" else f"{kind} {first}"
        yield from (f"medium {lba}" for lba in (range(blocks) if place in places else ()))


def slots_of(lines, hosts, slots, crashed):
    """Who holds each slot of a race and who is believed to, as a page tells it, by the judge of races."""
    reading = JUDGE["Slots"](slots, hosts) if crashed is None else JUDGE["CrashedSlots"](slots, hosts, crashed)
    holders = [None] * slots
    for line in lines:
        reading.take(line)
        kind, ticket, *words = line.split(" ")
        if kind == "block" and words[2:] == ["equal", "*"]:
            # (a pair that finds what it wants takes effect at its mark, and then a name that it takes over is believed no more)
            call = reading.fetched[ticket]
            holders[call.slot] = call.new
            if call.is_takeover and reading.believers[call.slot] == call.old:
                reading.believers[call.slot] = None
    named = [[f"host {it[0]}, claim {it[1]}" if it else "" for it in who] for who in (holders, reading.believers)]
    return {str(slot): [holder or "free", believer or "nobody"] for slot, (holder, believer) in enumerate(zip(*named))}
