#!/usr/bin/env python3
"""A toy controller, to be tested by random scripts: toy.py [--fault NAME] FILE

It runs a script as `casdisk run` does, and prints the same. With a fault it does one thing wrong. docs/TESTING-YOURS.md
finds each fault by random scripts and makes the script small that shows it."""
import sys

FAULTS = {
    "phase": "the phase bit doesn't change where a completion queue wraps",
    "head": "SQHD counts on behind the end of its queue",
    "full": "a submission queue takes one entry more than it holds",
    "loser": "a pair that differs writes its blocks all the same",
    "boundary": "a unit goes on over a boundary",
    "range": "a command may end one block past the volume",
    "reader": "a Write may begin beside an open Read of its blocks",
    "cid": "a command identifier is free as soon as the ticket's units are done",
    "order": "the second of a failed pair is told the status of the first",
    "zeroes": "Write Zeroes leaves the last of its blocks",
}

NAMES = {"flush": 0, "write": 1, "read": 2, "compare": 5, "zeroes": 8}
WRITES = ("write", "zeroes", "pair")
ZEROS = bytes(512)


def data_of(word):
    """The bytes of a word of data."""
    if word == "-":
        return b""
    if word[0] == "x":
        return bytes.fromhex(word[1:])
    return b"".join(bytes.fromhex(part) * (512 if len(part) == 2 else 1) for part in word.split("."))


def word_of(data):
    """The word of some data."""
    if not data:
        return "-"
    if len(data) % 512:
        return "x" + data.hex().upper()
    blocks = [data[at:at + 512] for at in range(0, len(data), 512)]
    return ".".join((b[:1] if b == b[:1] * 512 else b).hex().upper() for b in blocks)


def entries_of(words):
    """The entries of a publish line: 64 bytes and data each."""
    entries, at = [], 0
    while at < len(words):
        if words[at] == "raw":
            entries.append((bytes.fromhex(words[at + 1]), data_of(words[at + 2])))
            at += 4
        else:
            fuse, cid, slba, nlb = map(int, words[at + 1:at + 5])
            entry = bytearray(64)
            entry[0:8] = bytes([NAMES[words[at]], fuse]) + cid.to_bytes(2, "little") + (1).to_bytes(4, "little")
            entry[40:50] = slba.to_bytes(8, "little") + nlb.to_bytes(2, "little")
            entries.append((bytes(entry), data_of(words[at + 5])))
            at += 7
    return entries


class Command:
    """The fields of an entry."""
    def __init__(self, entry, data):
        number = lambda at, size: int.from_bytes(entry[at:at + size], "little")
        self.data, self.opcode, self.fuse, self.cid, self.nsid = data, entry[0], entry[1] % 4, number(2, 2), number(4, 4)
        self.slba, self.blocks = number(40, 8), number(48, 2) + 1
        self.bad_field = entry[1] > 3 or any(entry[8:40]) or any(entry[50:64]) or self.fuse == 3 \
            or self.opcode == 0 and any(entry[40:50])
        self.needs = 512 * self.blocks if self.opcode in (1, 5) else 0


class Toy:
    def __init__(self, config, fault):
        names = "blocks awun acwu nabsn nabo pairs sq cq jobs".split()
        self.__dict__.update(zip(names, config))
        self.cqs = config[9] if len(config) > 9 else self.pairs
        self.fault, self.medium, self.tickets, self.flying = fault, {}, 0, {}
        self.waiting = [[] for _ in range(self.pairs + 1)]
        self.fetched, self.cids = [0] * (self.pairs + 1), [[] for _ in range(self.pairs + 1)]
        self.posted, self.unreaped = [0] * (self.cqs + 1), [[] for _ in range(self.cqs + 1)]

    # ---- checks

    def command_fault(self, c, queue):
        past = c.slba + c.blocks > self.blocks + (self.fault == "range")
        rows = [(c.opcode not in NAMES.values(), "0/01"), (c.bad_field, "0/02"), (c.cid in self.cids[queue], "0/03"),
                (c.nsid != 1, "0/0B"), (c.opcode and c.blocks > 256, "0/02"), (c.opcode and past, "0/80"),
                (len(c.data) != c.needs, "0/04")]
        return next((status for holds, status in rows if holds), None)

    def pair_fault(self, a, b, queue):
        if (a.opcode, b.opcode) != (5, 1):
            return ["0/02", "0/02"]
        if a.cid == b.cid or a.cid in self.cids[queue] or b.cid in self.cids[queue]:
            return ["0/03", "0/03"]
        one, other = self.command_fault(a, queue), self.command_fault(b, queue)
        if one or other:
            other = other if not one else None
            return [one or "0/09", other or (one if self.fault == "order" else "0/09")]
        if (a.slba, a.blocks) != (b.slba, b.blocks):
            return ["0/02", "0/02"]
        if a.blocks > self.acwu + 1 or self.unit(a.slba, a.blocks, 65536) < a.blocks:
            return ["0/14", "0/14"]
        return None

    def unit(self, slba, blocks, most):
        """How many of these blocks are in the first unit."""
        blocks = min(blocks, most)
        if self.nabsn and not (self.fault == "boundary" and most <= self.awun + 1):
            size = self.nabsn + 1
            blocks = min(blocks, self.nabo - slba if slba < self.nabo else size - (slba - self.nabo) % size)
        return blocks

    # ---- steps: each gives its line, or the number of its refusal

    def publish(self, queue, words):
        entries = entries_of(words)
        if not 1 <= queue <= self.pairs:
            return 1
        if len(self.waiting[queue]) + len(entries) > self.sq - 1 + (self.fault == "full"):
            return 2
        self.waiting[queue] += [Command(*entry) for entry in entries]
        return "publish %d %s" % (queue, " + ".join(e.hex().upper() + " " + word_of(d) for e, d in entries))

    def fetch(self, queue):
        if not 1 <= queue <= self.pairs:
            return 1
        if not self.waiting[queue]:
            return 3
        if len(self.flying) == self.jobs:
            return 4
        a, *others = self.waiting[queue]
        b = others[0] if others and a.fuse == 1 and others[0].fuse == 2 else None
        if b:
            statuses, taken = self.pair_fault(a, b, queue), [a, b]
        else:
            one = "0/0A" if a.fuse in (1, 2) else self.command_fault(a, queue)
            statuses, taken = one and [one], [a]
        del self.waiting[queue][:len(taken)]
        self.fetched[queue] += len(taken)
        self.cids[queue] += [c.cid for c in taken]
        self.tickets += 1
        op = "pair" if b else {code: name for name, code in NAMES.items()}.get(a.opcode)
        owed = statuses or (["0/00"] if op == "flush" else None)
        self.flying[self.tickets] = {
            "queue": queue, "commands": taken, "op": op, "owed": owed, "posted": 0, "next": a.slba, "unit": -1,
            "left": 0 if owed else a.blocks, "open": None, "read": b"", "failed": bool(statuses)}
        return "fetch %d %d %d %s" % (queue, self.tickets, len(taken), " ".join(statuses or ["ok"]))

    def grant(self, number):
        t = self.flying.get(number)
        if not t:
            return 5
        if t["open"] or not t["left"]:
            return 7
        blocks = t["left"] if t["op"] == "pair" else self.unit(t["next"], t["left"], self.awun + 1)
        first, end, writes = t["next"], t["next"] + blocks, t["op"] in WRITES
        for o in self.flying.values():
            both = o["open"] and o["open"][0] < end and first < o["open"][1]
            if both and (writes and self.fault != "reader" or o["op"] in WRITES):
                return 6
        t["open"], t["made"], t["next"], t["left"] = (first, end), 0, end, t["left"] - blocks
        t["unit"] += 1
        return "grant %d %d %d %d %s" % (number, t["unit"], first, blocks, "w" if writes else "r")

    def block(self, number):
        t = self.flying.get(number)
        if not t:
            return 5
        if not t["open"]:
            return 7
        (first, end), made, op, a = t["open"], t["made"], t["op"], t["commands"][0]
        t["made"] += 1
        many = end - first
        lba = first + made % many
        at = 512 * (lba - a.slba)
        here = self.medium.get(lba, ZEROS)
        last = made + 1 == many
        if op == "read":
            t["read"] += here
            found, effect = "read", last
        elif op == "compare" or op == "pair" and made < many:
            found = "equal" if here == a.data[at:at + 512] else "differs"
            effect = last or found == "differs"
        else:
            data = ZEROS if op == "zeroes" else t["commands"][-1].data[at:at + 512]
            if not (op == "zeroes" and self.fault == "zeroes" and a.blocks > 1 and lba == a.slba + a.blocks - 1):
                self.medium[lba] = data
            found, effect = "written", made == 0 and op != "pair"
        if found == "differs":
            if op == "pair" and self.fault == "loser":
                self.medium[lba] = t["commands"][1].data[at:at + 512]
            t["open"], t["left"], t["owed"] = None, 0, ["2/85"] + ["0/09"] * (op == "pair")
        elif made + 1 == many * (1 + (op == "pair")):
            t["open"] = None
            if not t["left"]:
                t["owed"] = ["0/00"] * len(t["commands"])
                if self.fault == "cid":
                    self.cids[t["queue"]].remove(a.cid)
        return "block %d %d %d %s %s" % (number, t["unit"], lba, found, "*" if effect else "-")

    def post(self, number):
        t = self.flying.get(number)
        if not t:
            return 5
        if not t["owed"]:
            return 7
        queue = t["queue"]
        cq = (queue - 1) % self.cqs + 1
        if len(self.unreaped[cq]) == self.cq - 1:
            return 8
        c, status = t["commands"][t["posted"]], t["owed"][t["posted"]]
        phase = 1 if self.fault == "phase" else 1 - self.posted[cq] // self.cq % 2
        head = self.fetched[queue] % (65536 if self.fault == "head" else self.sq)
        code = 2 * int(status[2:], 16) + 512 * int(status[0]) + phase
        cqe = bytes(8) + b"".join(n.to_bytes(2, "little") for n in (head, queue, c.cid, code))
        self.posted[cq] += 1
        self.unreaped[cq].append(cqe)
        if c.cid in self.cids[queue]:
            self.cids[queue].remove(c.cid)
        t["posted"] += 1
        data = b""
        if t["posted"] == len(t["commands"]):
            data = t["read"] if status == "0/00" else b""
            del self.flying[number]
        return "post %d %s %s" % (number, cqe.hex().upper(), word_of(data))

    def reap(self, queue):
        if not 1 <= queue <= self.cqs:
            return 1
        if not self.unreaped[queue]:
            return 9
        return "reap %d %s" % (queue, self.unreaped[queue].pop(0).hex().upper())

    # ---- lines

    def step(self, kind, numbers):
        answer = getattr(self, kind)(*numbers)
        return "refused %d" % answer if isinstance(answer, int) else answer

    def settle(self):
        """A Grant, Block or Post of the lowest ticket that can make one, again and again."""
        while True:
            for number, kind in ((n, k) for n in sorted(self.flying) for k in ("grant", "block", "post")):
                answer = getattr(self, kind)(number)
                if not isinstance(answer, int):
                    yield answer
                    break
            else:
                return

    def line(self, text):
        kind, *words = text.split(" ")
        if text.startswith("#"):
            return []
        if kind == "settle":
            return list(self.settle())
        if kind == "medium":
            block = int(words[0])
            return ["medium %d %s" % (block, word_of(self.medium.get(block, ZEROS)) if block < self.blocks else "none")]
        if kind == "publish":
            return [self.step(kind, (int(words[0]), words[1:]))]
        return [self.step(kind, map(int, words))]


def run(text, fault=None):
    """What the toy prints of a script."""
    first, *lines = text.splitlines()
    toy = Toy([int(word) for word in first.split(" ")[1:]], fault)
    return "\n".join([first] + [out for line in lines for out in toy.line(line)]) + "\n"


if __name__ == "__main__":
    fault = sys.argv[2] if sys.argv[1] == "--fault" else None
    sys.stdout.write(run(open(sys.argv[-1]).read(), fault))
