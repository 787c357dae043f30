"""What both timers of this folder share: the program, entries and completions as text, and the measuring of a process."""
import os
import subprocess
import time

TOP = os.path.normpath(f"{os.path.dirname(os.path.abspath(__file__))}/../..")
PRODUCT = f"{TOP}/crates/casdisk/out/casdisk"


def entry(opcode, fuse, cid, slba, nlb=0):
    """The 64 bytes of a command of namespace 1."""
    return (bytes([opcode, fuse]) + cid.to_bytes(2, "little") + b"\x01" + bytes(35) + slba.to_bytes(8, "little") + nlb.to_bytes(2, "little") + bytes(14)).hex().upper()


def completion(sqhd, sqid, cid, posted, size, status=0):
    """The 16 bytes of a completion, the one behind so many on a queue of this size."""
    word = status | (1 if posted // size % 2 == 0 else 0)
    return (bytes(8) + b"".join(it.to_bytes(2, "little") for it in (sqhd, sqid, cid, word))).hex().upper()


def most_memory(process):
    """The most kilobytes that a process has had so far; 0 where it has ended."""
    try:
        with open(f"/proc/{process}/status", encoding="ascii") as it:
            return max([int(line.split()[1]) for line in it if line.startswith("VmHWM:")], default=0)
    except OSError:
        return 0


def timed(words, out, given=None):
    """The processor's seconds and the megabytes of a command whose output goes to a file, and which may be given an input."""
    child = subprocess.Popen(words, stdin=given, stdout=out)
    kilobytes = ended = 0
    while not ended:
        kilobytes = max(kilobytes, most_memory(child.pid))
        ended, status, used = os.wait4(child.pid, os.WNOHANG)
        time.sleep(0.001)
    child.returncode = os.waitstatus_to_exitcode(status)
    return used.ru_utime + used.ru_stime, kilobytes / 1024


def prove():
    """Proves and builds the program, where it isn't."""
    subprocess.run([f"{TOP}/casdisk", "--proved", "--version"], check=True, stdout=subprocess.DEVNULL)
