"""The rows of the files in scenes/: what each directive wants of the program. scenes/README.md says how a row is written."""
import itertools
import json
import os
import re
import tempfile

CONFIG = "config 8 1 1 0 0 2 4 4 8"
# What is told of it.
TOLD = "config: blocks 8, AWUN 1, ACWU 1, NABSN 0, NABO 0, submission queues 2 of 4 slots, completion queues 2 of 4 slots, tickets in flight at most 8"
STEPS = "publish,fetch,grant,block,post,reap"
KINDS = [*STEPS.split(","), "refused", "medium"]
# What is said of a name that is none of a kind.
NO_KIND = "error: no kind of lines is called '{}' in '--show': there are publish, fetch, grant, block, post, reap, refused and medium\n"
# The bytes of `write 0 1 3 0` and of its completion, and the lines of its history.
ENTRY = "0100010001" + "00" * 35 + "03" + "00" * 23
DONE = "00" * 8 + "0100010001000100"
WRITE = [CONFIG, f"publish 1 {ENTRY} A1", *"fetch 1 1 1 ok/grant 1 0 3 1 w/block 1 0 3 written *".split("/"), f"post 1 {DONE} -", f"reap 1 {DONE}"]
# What stands above a line that is none, and below it.
AROUND = {"run": [([CONFIG], [])], "tell": [([CONFIG], [])], "check": [([CONFIG], []), ([CONFIG, "fetch 3 1 1 ok"], ["fetch 3 1 1 ok"]), (WRITE, [])]}
# Each opcode, and each bit of an entry: a byte's place, and its value or a mask.
CHANGES = {"opcodes": frozenset((0, value) for value in range(256)),
           "bits": frozenset((place, 1 << bit) for place in range(64) for bit in range(8))}
# What is said of a configuration that is refused, by docs/SCRIPTS.md: which number of its line, and what is due there. In braces stands a
# number of the line, from 1.
REFUSED = {
    21: "2: AWUN is {2}, due is 0 to 255", 22: "3: ACWU is {3}, due is 0 to 255",
    23: "4: NABSN is {4}, due is 0, or no less than AWUN, {2}, and ACWU, {3}", 24: "5: NABO is {5}, due is 0 to NABSN, {4}",
    25: "1: BLOCKS is {1}, due is 1 to 65536", 26: "6: PAIRS is {6}, due is 1 to 16", 27: "7: SQ is {7}, due is 2 to 1024",
    28: "8: CQ is {8}, due is 2 to 1024", 29: "9: JOBS is {9}, due is 1 to 256",
    30: "10: CQS is {10}, due is 1 or more, and less than PAIRS, {6}"}
# What may be done with the line at a place.
EDITS = {
    "left out": lambda lines, at: lines[:at] + lines[at + 1 :],
    "doubled": lambda lines, at: lines[: at + 1] + lines[at:],
    "swapped": lambda lines, at: lines[:at] + [lines[at + 1], lines[at]] + lines[at + 2 :],
}


class Differs(Exception):
    """What was wanted, and what came; told from where they differ on."""

    def __str__(self):
        wanted, came = map(repr, self.args)
        start = max(0, len(os.path.commonprefix([wanted, came])) - 80)
        front = ".." if start else ""
        return f"wanted {front}{wanted[start : start + 240]}, came {front}{came[start : start + 240]}"


def same(wanted, came):
    if wanted != came:
        raise Differs(wanted, came)


def text_of(lines):
    return "".join(f"{line}\n" for line in lines)


def lines_in(text):
    return text.split("\n")[:-1]


def file_of(lines):
    """The file of lines that ` / ` parts, CONFIG the first where they have no configuration line."""
    return (lines if lines.startswith("config") else f"{CONFIG} / {lines}").replace(" / ", "\n") + "\n"


def printed(program, text, kinds=None):
    """The output of a script that runs to its end."""
    status, output, words = program(("run", "--show", kinds) if kinds else ("run",), text)
    same((0, ""), (status, words))
    return output


def of_kinds(output, kinds):
    """The first line of a whole output, and its lines of these kinds."""
    lines = lines_in(output)
    return text_of(lines[:1] + [line for line in lines[1:] if line.split(" ")[0] in kinds.split(",")])


def history_of(program, text):
    """The lines of the history that a script prints: a legal one, which explains what the script prints with --trace."""
    output = printed(program, text, STEPS)
    same(of_kinds(printed(program, text), STEPS), output)
    same(lines_in(text)[:1], lines_in(output)[:1])
    ends(program, "check", output, "legal")
    certifies(program, lines_in(output))
    same((0, text_of(trace_of(lines_in(output))), ""), program(("run", "--trace"), text))
    return lines_in(output)


def trace_of(history):
    """What hosts saw of a legal history, by docs/OBSERVING.md: a `reap` has the data of the `post` with its number in its
    completion queue, which the submission queue's number in its bytes says."""
    numbers, posted = history[0].split(" ")[1:], {}
    count, trace = int(numbers[9] if len(numbers) > 9 else numbers[5]), history[:1]
    for kind, line in ((line.split(" ")[0], line) for line in history[1:]):
        if kind == "post":
            cqe, data = line.split(" ")[2:]
            queue = (int.from_bytes(bytes.fromhex(cqe)[10:12], "little") - 1) % count + 1
            posted.setdefault(queue, []).append(data)
        elif kind == "reap":
            trace.append(f"{line} {posted[int(line.split(' ')[1])].pop(0)}")
        elif kind == "publish":
            trace.append(line)
    return trace


def changed(line):
    """A line of a completion that is reaped with other things in it, first its phase tag, and what is said of each."""
    queue, cqe, data = line.split(" ")[1:]
    for place, mask in ((14, 1), (14, 2), (8, 1)):  # the phase tag, the status, SQHD
        other = bytearray.fromhex(cqe)
        other[place] ^= mask
        yield f"reap {queue} {other.hex().upper()} {data}", "the completion"
    yield f"reap {queue} {cqe} {'A1.B2' if data == '-' else '-'}", "the data"
    yield f"reap {int(queue) + 1} {cqe} {data}", "the queue"


def certifies(program, history):
    """A legal history explains what was seen of it, but not with a line more or less or another last completion. One is
    found for what was seen, also with all options, and none where the last completion has another phase tag."""
    trace = trace_of(history)
    number, last = len(trace), max((at for at, line in enumerate(trace) if line.startswith("reap ")), default=0)
    head = ["observe contents unknown", "observe statuses any", "observe ignore DNR MORE CRD DW0 DW1 SQHD"]
    head = head[trace[0].split(" ")[6] == "16" :]  # (unknown contents need a queue pair more)
    more = trace[-1] if number > 1 else f"publish 1 {ENTRY} A1"
    beside = [(trace, 0, "explained"), ([*trace, more], 1, f"seen {number}: the history ends before it")]
    alone = [(trace, 0, "explained"), (trace[:1] + head + trace[1:], 0, "explained")]
    if number > 1:
        beside.append((trace[:-1], 1, f"seen {number - 1}: the trace ends before it"))
    if last:
        others = [([*trace[:last], other, *trace[last + 1 :]], 1, f"seen {last}: {what}") for other, what in changed(trace[last])]
        beside += others
        alone.append((others[0][0], 1, f"refuted: up to line {last + 1}: the phase tag isn't the one that is due"))
    for lines, status, said in beside:
        with tempfile.NamedTemporaryFile() as it:
            it.write(text_of(lines).encode("latin-1"))
            it.flush()
            same((status, f"{said}\n", ""), program(("certify", it.name), text_of(history)))
            says(program, ("certify", it.name), text_of(history), (status, f"{said}\n", ""))
    for lines, status, said in alone:
        same((status, f"{said}\n", ""), program(("observe",), text_of(lines)))
        says(program, ("observe",), text_of(lines), (status, f"{said}\n", ""))


def shown(output):
    """The lines of an output behind its first, of a completion whose first eight bytes are zero the other eight alone."""
    return " / ".join(re.sub("^reap [0-9]+ 0{16}(.{8})(.{8})$", r"\1 \2", line) for line in lines_in(output)[1:])


def ends(program, command, text, end, output=""):
    """That a text's run ends well, its check or explanation with this answer, or any with what is wrong with it."""
    if end.startswith(("bad line ", "bad config ")):
        why = ""
        if end.startswith("bad config "):
            why = f"line 1, number {REFUSED[int(end.split(' ')[2])].format(*lines_in(text)[0].split(' '))}\n"
        wanted = 2, output, f"{end}\n{why}"
    elif command in ("run", "tell"):
        same("ok", end)
        wanted = 0, output, ""
    else:
        wanted = int(end != "legal"), f"{end}\n", ""
    if command == "explain" and ": " in end:
        wanted = 1, f"{with_line(end)}\n", ""
    same(wanted, program((command,), text))
    if command != "run":
        says(program, (command,), text, wanted)


def fields_of(command, line):
    """The fields of the object in place of a line, by docs/CHECKING.md: what is answered, its place, and the file's line."""
    if command == "tell":
        return "told", None, None
    if at := re.fullmatch(r"((?:slots )?bad) at (\d+)(?: .*)?", line):
        return at[1], int(at[2]), int(at[2]) + 1
    if at := re.fullmatch(r"(seen) (\d+): .*", line):
        return at[1], int(at[2]), None
    if at := re.fullmatch(r"(refuted|not found): up to line (\d+): .*", line):
        return at[1], None, int(at[2])
    return line, None, None


def rule_alone(words):
    """What an explanation says of a rule, without the step before that has to do with it."""
    return re.sub(r": (unit \d+ (ended|of)|byte \d+ is \w+ since|it holds what|that of block|block \d+ differs, at) .*", "", words)


def numbers_in(line):
    """The numbers that an explanation says of a rule, of a status its type and its code."""
    words = re.sub(r" \((?!block )[^)]*\)", "", line.partition(": ")[2])
    parts = re.findall(r"(\d+)(?:/([0-9A-F]{2}))?", words)
    return [int(it, base) for part in parts for it, base in zip(part, (10, 16)) if it]


def says(program, words, text, wanted):
    """That a command with `--json` says in objects what it says in lines, and ends in the same way."""
    status, output, said = program((*words, "--json"), text)
    lines = lines_in(wanted[1])
    same((wanted[0], wanted[2], len(lines)), (status, said, len(lines_in(output))))
    for line, told in zip(lines, lines_in(output)):
        it = json.loads(told)
        same(["answer", "place", "line", "rule", "numbers", "words"], list(it))
        same((*fields_of(words[0], line), line), (it["answer"], it["place"], it["line"], it["words"]))
        if not re.search(": (?:byte|DNR|More|CRD) ", rule_alone(line)):
            same(numbers_in(rule_alone(line)) if words[0] == "explain" else [], it["numbers"])


def with_line(end):
    """The words of an explanation with the line of the file behind the place."""
    return re.sub(r"^((?:slots )?bad at (\d+)): ", lambda at: f"{at[1]} (line {int(at[2]) + 1}): ", end)


def follows(program, text):
    """That a check that follows a text says what a check says; of a bad step before a bad line it says the place."""
    said, followed = program(("check",), text), program(("check", "--follow"), text)
    if said[2].startswith("bad line ") and followed[0] == 1:
        place = int(followed[1].removeprefix("bad at "))
        same(True, place + 1 < int(said[2].removeprefix("bad line ")))
        said = program(("check",), text_of(lines_in(text)[: place + 1]))
    same(said, followed)


def bad_place(program, lines):
    """The first bad place of a history; 0 where it is legal."""
    status, output, words = program(("check",), text_of(lines))
    at = re.fullmatch(r"legal\n|bad at ([1-9]\d*)\n", output)
    same((True, int(output != "legal\n"), ""), (bool(at), status, words))
    return int(at[1] or 0)


def run(program, section, script, lines):
    """A script, and all that it prints behind its configuration line, or its lines of some kinds alone and among all."""
    text = file_of(script)
    whole = printed(program, text)
    if section.kinds:
        some = printed(program, text, section.kinds)
        same(lines, shown(some))
        same(of_kinds(whole, section.kinds), some)
    else:
        same(text_of(lines_in(text)[:1] + [it for it in lines.split(" / ") if it]), whole)
    history_of(program, text)


def file(program, section, text, end, output=""):
    """A file and how it ends, and all that its run prints; a first line is a file of one line, printed where it is ok."""
    command, _, what = section.directive.partition(" ")
    if what == "first line":
        text = f"{text}\n"
        output = text if end == "ok" else ""
    ends(program, command, text, end, output)
    if command == "check":
        follows(program, text)


def told(program, _, line, words):
    """A line of a history, in words; coloured, the same between two codes."""
    text = text_of([CONFIG, line])
    ends(program, "tell", text, "ok", text_of([TOLD, words]))
    status, output, said = program(("tell", "--color=always"), text)
    bare = re.sub(r"\x1b\[(?:3[1-7]|0)m", "", output)
    same((0, text_of([TOLD, words]), "", 4), (status, bare, said, output.count("\x1b")))


def bad_line(program, section, line):
    """A line that is none, behind the configuration, and in a history also between two others and behind the last."""
    command = section.directive.split(" ")[0]
    for above, below in AROUND[command]:
        text = text_of([*above, line, *below])
        if command == "check":
            follows(program, text)
        ends(program, command, text, f"bad line {len(above) + 1}", {"run": f"{CONFIG}\n", "tell": f"{TOLD}\n"}.get(command, ""))


def cut(program, section, lines):
    """A script each of whose lines prints one, or a legal history, cut behind each of its bytes."""
    command, text = section.directive.split(" ")[0], file_of(lines)
    well, whole = ("ok", lines_in(printed(program, text))) if command == "run" else ("legal", [])
    same(text.count("\n") if whole else 0, len(whole))
    for length in range(len(text) + 1):
        feeds = text.count("\n", 0, length)
        end = well if text[:length].endswith("\n") else f"bad line {feeds + 1}"
        ends(program, command, text[:length], end, text_of(whole[:feeds]))


def kinds(program, section, text):
    """A script that prints lines of each kind, by each set of kinds; or names that are no kinds."""
    if section.directive == "no kinds":
        unknown = next(it for it in text.split(",") if it not in KINDS)
        same((2, "", NO_KIND.format(unknown)), program(("run", f"--show={text}"), f"{CONFIG}\n"))
        return
    whole = printed(program, file_of(text))
    same({"config", *KINDS}, {line.split(" ")[0] for line in lines_in(whole)})
    for number in range(1, 1 << len(KINDS)):
        names = ",".join(kind for at, kind in enumerate(KINDS) if number >> at & 1)
        same(of_kinds(whole, names), printed(program, file_of(text), names))


def chosen(section, which):
    """The changes of an entry that a row is about and no row above it."""
    if which == "others":
        return section.left
    if section.directive == "opcodes":
        return section.left & {(0, int(it, 16)) for it in which.split()}
    places, _, masks = which.partition(":")
    first, _, last = places.partition("-")
    masks = [int(it, 16) for it in masks.split()] or [1 << bit for bit in range(8)]
    return section.left & {(place, mask) for place in range(int(first), int(last or first) + 1) for mask in masks}


def entry(program, section, which, status):
    """The status of each of these changes of the Write's entry."""
    changes = chosen(section, which)
    same((which, True), (which, bool(changes)))
    section.left -= changes
    for place, value in sorted(changes):
        changed = bytearray.fromhex(ENTRY)
        changed[place] = value if section.directive == "opcodes" else changed[place] ^ value
        script = file_of(f"publish 1 raw {changed.hex().upper()} A1 / fetch 1 / settle / reap 1")
        wanted = f"01000100 {changed[2]:02X}{changed[3]:02X}{status}"
        same((place, value, wanted), (place, value, shown(printed(program, script, "reap"))))


def lines_of(program, section, left):
    """The lines of the history that a row is about: its own, or those of the one above with others at some places."""
    if not left.startswith("with "):
        is_script = section.directive == "slots" or section.directive.endswith(" script")
        section.history = history_of(program, file_of(left)) if is_script else lines_in(file_of(left))
        return section.history
    lines = list(section.history)
    for edit in left.removeprefix("with ").split(" / "):
        place, _, line = edit.partition(" ")
        same((edit, True), (edit, int(place) <= len(lines)))
        lines[int(place) : int(place) + 1] = [line]
    return lines


def history(program, section, left, answer):
    """A history, and what is said of it, of itself with other lines, or with each of its lines edited."""
    if left.startswith("each line "):
        edit, places, lines = left.removeprefix("each line "), answer.split(" "), section.history
        same(len(lines) - 1 - (edit == "swapped"), len(places))
        for at, place in enumerate(places, 1):
            same((at, int(place)), (at, bad_place(program, EDITS[edit](lines, at))))
        return
    text = text_of(lines_of(program, section, left))
    ends(program, "check", text, answer.partition(": ")[0])
    follows(program, text)
    if section.directive.startswith("explain"):
        ends(program, "explain", text, answer)


def beside_slots(program, section, left, answer):
    """What is said of a history beside an area of slots, and without the area, but for what that alone has wrong."""
    text, area, end = text_of(lines_of(program, section, left)), section.kinds.split(" "), answer.partition(": ")[0]
    asks = answer.startswith(("the slots ", "there is no slot "))
    said = explained = 2, "", f"{answer}\n"
    if not asks and not answer.startswith("bad line "):
        said = int(answer != "legal"), f"{end}\n", ""
        explained = said[0], f"{with_line(answer)}\n", ""
    for command, due in (("check", said), ("explain", explained)):
        same(due, program((command, "--slots", *area), text))
        says(program, (command, "--slots", *area), text, due)
    same((0, "legal\n", "") if asks or answer.startswith("slots ") else said, program(("check",), text))


def sweep(program, _, script):
    """A script whose history is legal, and each beginning of it. Each edit of a line is found at the first place behind
    which a beginning isn't legal, and that is there or later, if it is at all."""
    lines = history_of(program, file_of(script))
    for count in range(1, len(lines) + 1):
        ends(program, "check", text_of(lines[:count]), "legal")
    for at, edit in itertools.product(range(1, len(lines)), EDITS):
        last = at + 1 == len(lines)
        edited = lines if last and edit == "swapped" else EDITS[edit](lines, at)
        if bad := bad_place(program, edited):
            same((edit, at, True), (edit, at, bad >= at + (edit == "doubled")))
            ends(program, "check", text_of(edited[:bad]), "legal")
            same((edit, at, bad), (edit, at, bad_place(program, edited[: bad + 1])))


ROWS = {
    "run": run, "show": run, "kinds": kinds, "no kinds": kinds, "opcodes": entry, "bits": entry, "sweep": sweep,
    "check": history, "check script": history, "explain": history, "explain script": history, "slots": beside_slots,
    "run file": file, "check file": file, "explain file": file, "tell file": file, "run cut": cut, "check cut": cut,
    "run bad line": bad_line, "check bad line": bad_line, "tell bad line": bad_line, "run first line": file, "tell line": told,
}
