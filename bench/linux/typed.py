"""Types the commands of docs/TARGET.md, as they stand there, in the folder of a release: rows of bench/linux/run."""
import io
import os
import re
import socket
import subprocess
import tarfile
import time
from concurrent.futures import ThreadPoolExecutor
from pathlib import Path
from threading import Lock, Thread

BUILT = "bindings/rust/target/release"
# Where the folder of the release lies in a guest, and what is on the way there to its programs.
PLACE = "/release"
LISTENS = "i=0; until grep -q ':1144 .* 0A' /proc/net/tcp || [ $i -gt 120 ]; do sleep 1; i=$((i+1)); done"
MOUNTS, LOCKS = "From a release to a mounted file system", "A lock between two machines"
FINDS = "See it found out: a target that is wrong on purpose"


def shown(folder, heading):
    """The commands that a part of the page shows, block by block."""
    parts = re.split(r"(?m)^## (.*)\n", (folder / "docs/TARGET.md").read_text("utf-8"))
    part = dict(zip(parts[1::2], parts[2::2]))[heading]
    return [re.findall(r"(?m)^    (.*)$", it) for it in re.findall(r"(?m)(?:^    .*\n)+", part)]


def typed(folder, *lines):
    """What a shell of this machine says to these lines, in the folder of the release."""
    ours = {name: value for name, value in os.environ.items() if name not in ("VANDREXU_LIB_DIR", "CARGO_TARGET_DIR")}
    done = subprocess.run(["bash", "-c", "\n".join(lines)], cwd=folder, env=ours, stdout=subprocess.PIPE, stderr=subprocess.STDOUT, text=True, check=False)
    return done.stdout


def built(folder):
    """Types the command that builds the programs: what it says."""
    return typed(folder, shown(folder, MOUNTS)[0][0])


def listener(serve):
    """The port at which each connection is served by this."""
    server = socket.create_server(("127.0.0.1", 0))

    def loop():
        while True:
            with server.accept()[0] as it:
                serve(it)

    Thread(target=loop, daemon=True).start()
    return server.getsockname()[1]


def give(guest, folder, scripts):
    """Gives a guest the release's programs with their libraries, and these scripts."""
    out = io.BytesIO()
    with tarfile.open(fileobj=out, mode="w") as archive:
        for program in ("vandrexu-target", "vandrexu-lock"):
            path = folder / BUILT / program
            archive.add(path, f"{PLACE}/{BUILT}/{program}".lstrip("/"))
            told = subprocess.run(["ldd", path], stdout=subprocess.PIPE, text=True, check=True).stdout
            for library in re.findall(r"(/\S+) \(0x", told):
                archive.add(Path(library).resolve(), library.lstrip("/"))
        for name, text in scripts.items():
            info = tarfile.TarInfo(name.lstrip("/"))
            info.mode, info.size = 0o755, len(text)
            archive.addfile(info, io.BytesIO(text.encode()))
    port = listener(lambda it: it.sendall(out.getvalue()))
    return guest.run(f"mkdir -p /srv; nc 10.0.2.2 {port} < /dev/null | tar -x -C /; ln -sf mke2fs /sbin/mkfs.ext4; ls {PLACE}/{BUILT}")


def to_a_mount(guest, folder, disk):
    """The commands from a release to a mounted file system; the first, which builds, is typed where Rust is."""
    ((_, serve, connect, make, mount),) = shown(folder, MOUNTS)
    said = built(folder) + give(guest, folder, {})
    waits = f"i=0; while [ ! -b {disk} -a $i -lt 60 ]; do sleep 1; i=$((i+1)); done"
    lines = [f"cd {PLACE}", serve, LISTENS, connect, waits, make, mount, "grep ext4 /proc/mounts; nvme list"]
    lines += ["echo kept > /mnt/file; umount /mnt; echo 3 > /proc/sys/vm/drop_caches", mount, "cat /mnt/file; cd /; umount /mnt"]
    lines += [f"e2fsck -fn {disk} > /dev/null && echo fsck clean", "nvme discover -t tcp -a 127.0.0.1 -s 4420"]
    return said + guest.run("\n".join([*lines, "nvme disconnect-all > /dev/null; kill $!; sleep 1; rm /srv/*"]))


class Counter:
    """How many commands run under one lock, as they say themselves."""

    def __init__(self):
        self.lock, self.now, self.most, self.all = Lock(), 0, 0, 0
        self.port = listener(self.take)

    def take(self, stream):
        word = stream.recv(64)
        with self.lock:
            self.now += 1 if word.startswith(b"in") else -1
            self.all += word.startswith(b"in")
            self.most = max(self.most, self.now)


def between_machines(two, folder, boot):
    """The commands of a lock: a machine that has the disk, and two hosts, of which one dies while it holds a slot."""
    ((serve, *claims), (status, take_over)) = shown(folder, LOCKS)
    said = built(folder)
    disk, one, counter = boot(4420), boot(None), Counter()
    say = f"echo $1 | nc 10.0.2.2 {counter.port}"
    make = f"#!/bin/sh\nset -- in; {say}; [ ! -e /tmp/hangs ] || sleep 1000; sleep 3; set -- out; {say}\n"
    for machine in (disk, one, two):
        said += give(machine, folder, {"/bin/make": make, f"{PLACE}/{BUILT}/repair": "#!/bin/sh\necho repaired\n", "/etc/hosts": "10.0.2.2 disk\n", "/etc/nsswitch.conf": "hosts: files\n"})
    there = f"cd {PLACE}/{BUILT}; export PATH=$PWD:$PATH"
    said += disk.run(f"{there}\n{serve}\n{LISTENS}\necho served")
    with ThreadPoolExecutor() as threads:
        said += "".join(threads.map(lambda it: it[0].run(f"{there}\n{it[1]}\necho status $?"), zip((one, two), claims)))
    said += f"{counter.all} commands ran, {counter.most} at once\n"
    said += one.run(f"{there}\ntouch /tmp/hangs\n({claims[0]}) > /dev/null 2>&1 &\nsleep 1")
    end = time.monotonic() + 300
    while "slot 3: host 1," not in (told := two.run(f"{there}\n{status}")) and time.monotonic() < end:
        time.sleep(1)
    # (its machine dies, and nothing of it reaches the target any more)
    one.process.kill()
    one.process.wait()
    said += told + two.run(f"{there}\n{take_over}\n{status}")
    disk.process.kill()
    return said


def found_out(folder):
    """The commands with which a target that serves a pair as two commands is found out, and the same with one that doesn't."""
    serve, race, observe = shown(folder, FINDS)[0]
    naive = built(folder) + typed(folder, serve, LISTENS, race, observe, "kill $!; wait")
    return naive + typed(folder, serve.replace(" --naive", ""), LISTENS, race, observe, "kill $!; wait; rm seen")
