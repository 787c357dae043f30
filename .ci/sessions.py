"""The command lines of scenes/sessions/ and of pages, each with what has to come of it: scenes/README.md says how a session
is written. Each command has a session of processes and a folder for temporary files of its own, and may leave neither."""
import contextlib
import glob
import os
import re
import subprocess
import tempfile
import time

from rows import Differs, same

TOP = os.path.normpath(f"{os.path.dirname(os.path.abspath(__file__))}/..")
SIGNS = re.compile(r"(\$|>|<|!=|=|!|~|\?|\^D)(?: (.*))?")
# A file that a page has its reader save.
SAVED = re.compile(r"(?m)^Save this as `([\w.]+)`.*:\n\n((?:    .*\n)+)")
# So many seconds a command may take, and what it started may outlive it; the exit status that leaves out the rest of a file.
PATIENCE, GRACE, CANT = 300, 10, 80


class Row:
    """A command, and the lines below it, by their signs ('' of an output)."""

    def __init__(self, number, command):
        self.number, self.command, self.lines = number, command, []

    def signed(self, *signs):
        return [it for it in self.lines if it[0] in signs]


def rows_of(text):
    """The rows of a session. (A line above the first of them is wanted of a command that does nothing.)"""
    rows = [Row(1, ":")]
    for number, line in enumerate(text.split("\n"), 1):
        at = SIGNS.fullmatch(line)
        sign, rest = (at[1], at[2] or "") if at else ("", line)
        if sign == "$":
            rows.append(Row(number, rest))
        elif sign == ">":
            rows[-1].command += f"\n{rest}"
        elif line and not line.startswith("#"):
            rows[-1].lines.append((sign, rest))
    return rows if rows[0].lines else rows[1:]


def session_of(page):
    """A session with a page's line numbers: the commands that it shows, and some that save its files."""
    page = SAVED.sub(lambda at: f"    $ cat > {at[1]} << 'END'\n{re.sub('(?m)^ {4}', '    > ', at[2])}    > END\n", page)
    lines, shown = page.split("\n"), False
    for at, line in enumerate(lines):
        shown = line.startswith("    $ ") or shown and line.startswith("    ")
        lines[at] = line[4:] if shown else ""
    return "\n".join(lines)


def until(holds, seconds=PATIENCE):
    """Waits until something holds, for so many seconds at most."""
    end = time.monotonic() + seconds
    while not holds() and time.monotonic() < end:
        time.sleep(0.002)


def in_session(session):
    """The names of the processes of a session that haven't ended, by their numbers."""
    found = {}
    for stat in glob.glob("/proc/[0-9]*/stat"):
        with contextlib.suppress(OSError), open(stat, encoding="utf-8", errors="replace") as it:
            at = re.match(r"(?s)(\d+) \((.*)\) (\S+) \S+ \S+ (\S+)", it.read())
            if at and at[4] == str(session) and at[3] != "Z":
                found[int(at[1])] = at[2]
    return found


def so_far(file):
    """What was written to a file so far; whoever writes has the place in it."""
    return os.pread(file.fileno(), os.fstat(file.fileno()).st_size, 0).decode("utf-8", "surrogateescape")


def converse(one, output, row):
    """Writes each line of standard input when all that has to be printed before it came, and nothing else did."""
    due = ""
    for sign, text in row.signed("", "<", "^D"):
        if not sign:
            due += f"{text}\n"
            continue
        until(lambda: len(so_far(output)) >= len(due) or one.poll() is not None)
        same(f"{due} before '{sign} {text}'", f"{so_far(output)} before '{sign} {text}'")
        if sign == "<":
            with contextlib.suppress(BrokenPipeError):
                one.stdin.write(f"{text}\n".encode())
    one.stdin.close()


def carry_out(row, room, output, words):
    """Runs a row's command, and returns its exit status. Whatever it leaves is ended."""
    aside = tempfile.mkdtemp(dir=room)
    env = {**os.environ, "PATH": f"{room}/bin:{os.environ['PATH']}", "TMPDIR": aside, "LC_ALL": "C"}
    one = subprocess.Popen(["bash", "-c", row.command], cwd=f"{room}/here", env=env, start_new_session=True, bufsize=0,
                           stdin=subprocess.PIPE if row.signed("<") else subprocess.DEVNULL, stdout=output, stderr=words)
    try:
        if one.stdin:
            converse(one, output, row)
        status = one.wait(PATIENCE)
        until(lambda: not in_session(one.pid), GRACE)
        left = ", ".join([*in_session(one.pid).values(), *os.listdir(aside)])
        same("no process and no file is left", left or "no process and no file is left")
        return status
    except subprocess.TimeoutExpired:
        raise Differs(f"an end within {PATIENCE} seconds", "none") from None
    finally:
        if left := in_session(one.pid):
            subprocess.run(["kill", "-KILL", *map(str, left)], stderr=subprocess.DEVNULL, check=False)
        one.wait()


def compare(lines, came, folder):
    """Compares what came with the lines, the patterns and the files that are wanted."""
    wanted = pattern = ""
    for sign, text in lines:
        some = f"{text}\n"
        if sign.endswith("="):
            with open(f"{folder}/{text}", encoding="utf-8", errors="surrogateescape", newline="") as it:
                some = it.read()
        wanted += some
        pattern += f"(?:{some})+" if sign == "~" else re.escape(some)
    same(wanted, wanted if re.fullmatch(pattern, came) else came)


def try_row(row, room, is_page):
    """Tries a row; returns why the rest of its file can't be tried, if that is so."""
    with tempfile.TemporaryFile() as output, tempfile.TemporaryFile() as words:
        status = carry_out(row, room, output, words)
        came, said = so_far(output), so_far(words)
    if status == CANT:
        return f"not tried from here on: {came.strip()}"
    compare(row.signed("", "~", "="), came, f"{room}/here")
    if not is_page:
        compare(row.signed("!", "!="), said, f"{room}/here")
        same(*(f"exit status {it}" for it in ((row.signed("?") or [("?", "0")])[0][1], status)))
    return ""


def tried(rows, program, shown, is_page):
    """Tries rows in a folder of their own over a program, which pages show as `shown`. Yields the number of each, what is
    said of it, and whether it differs."""
    with tempfile.TemporaryDirectory() as room:
        for folder in ("bin", "here"):
            os.mkdir(f"{room}/{folder}")
        links = {"bin/casdisk": program, "here/casdisk": shown, "here/examples": f"{TOP}/examples", "here/texts": f"{TOP}/scenes/texts"}
        for link, path in links.items():
            os.symlink(path, f"{room}/{link}")
        for row in rows:
            try:
                said, differs = try_row(row, room, is_page), False
            except (Differs, OSError, re.error) as it:
                said, differs = str(it), True
            yield row.number, said, differs
            if said and not differs:
                return
