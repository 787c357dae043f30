#!/usr/bin/env python3
"""Runs a script over a controller by vandrexu.py, and prints what `casdisk run --show grant,block,reap,refused,medium`
prints: run.py FILE. A line that is none ends it with an error."""
import os
import sys

from vandrexu import Config, Controller, Entry, Found, Mode, NoBlock, Refused, StepKind

sys.path.append(os.path.join(os.path.dirname(os.path.abspath(__file__)), "../../../bench/yours"))
from toy import entries_of, word_of  # noqa: E402 (the words of a script are read as the toy reads them)

WORDS = {Found.READ: "read", Found.EQUAL: "equal", Found.DIFFERS: "differs", Found.WRITTEN: "written"}


class Runner:
    """Runs the lines of a script."""
    def __init__(self, disk):
        self.disk, self.units = disk, {}

    def granted(self, ticket, it):
        self.units[ticket] = it.unit
        return f"grant {ticket} {it.unit} {it.slba} {it.blocks} {'r' if it.mode == Mode.SHARED else 'w'}"

    def blocked(self, ticket, it):
        return f"block {ticket} {self.units[ticket]} {it.lba} {WORDS[it.found]} {'*' if it.effect else '-'}"

    def settled(self):
        """The lines of the steps that are ready."""
        for step, made in self.disk.steps():
            if step.kind == StepKind.GRANT:
                yield self.granted(step.ticket, made)
            elif step.kind == StepKind.BLOCK:
                yield self.blocked(step.ticket, made)

    def medium(self, lba):
        try:
            return word_of(self.disk.medium(lba))
        except NoBlock:
            return "none"

    def line(self, line):
        """The lines that a line prints."""
        kind, *words = line.split(" ")
        if kind == "settle":
            return list(self.settled())
        if kind == "publish":
            self.disk.publish(int(words[0]), [Entry(*it) for it in entries_of(words[1:])])
            return []
        number, = map(int, words)
        if kind == "medium":
            return [f"medium {number} {self.medium(number)}"]
        if kind == "grant":
            return [self.granted(number, self.disk.grant(number))]
        if kind == "block":
            return [self.blocked(number, self.disk.block(number))]
        if kind == "reap":
            return [f"reap {number} {self.disk.reap(number).completion.hex().upper()}"]
        {"fetch": self.disk.fetch, "post": self.disk.post}[kind](number)
        return []


def run(text):
    """The text that a script prints."""
    first, *lines = text.splitlines()
    with Controller(Config.of_line(first)) as disk:
        runner, out = Runner(disk), [first]
        for line in lines:
            try:
                out += [] if line.startswith("#") else runner.line(line)
            except Refused as error:
                out.append(f"refused {error.status:d}")
        return "".join(f"{it}\n" for it in out)


if __name__ == "__main__":
    with open(sys.argv[1], encoding="latin-1", newline="\n") as script:
        sys.stdout.write(run(script.read()))
