"""What the scripts beside this file share: the program, a folder of its files, and small inputs for its commands."""
import collections
import os
import shutil
import subprocess
import sys
import tempfile

HERE = os.path.dirname(os.path.abspath(__file__))
TOP = os.path.dirname(HERE)
# The program itself, and not the script that builds it: some scripts start it with little stack or with closed descriptors. Another
# build of it is tried by its path in the variable SSU.
SSU = os.environ.get("SSU") or os.path.join(TOP, "crates", "ssu", "out", "ssu")

# The exit codes that the scripts speak of.
DONE, USAGE, BOX_REFUSED, PLAN_REFUSED, FOREIGN, NOTHING, INCOMPLETE, BAD_MODULE, ABSENT, READ_FAULT = 0, 2, 3, 4, 5, 6, 7, 8, 9, 10
WRITE_FAULT, FLASH_FAULT, WORN, TOO_LONG, NO_MEMORY, NO_FIT, GEOMETRY, SHELF_FAULT, UNSETTLED, BUILD_REFUSED, AUDIT_REFUSED = range(11, 22)

# A file system in memory, where there is one: a flash in a file is synced at each write.
MEMORY = "/dev/shm"

BLOCK = 4096
BOX = """oui = 4660
model = 7
version = 1
rule = "newer"
software_model = 1
software_version = 1
"""
PLAN = """ts = 1
network = 2
service = 3
oui = 4660
time = "2024-03-05T02:00:00"
pmt_pid = 256
data_pid = 258
turns = 60
[[group]]
model = 7
version = 1
software_model = 1
software_version = 2
block_size = 1000
modules = ["first.bin", "second.bin"]
"""

SCRIPT = """set = [[3, 20, 255]]
swap = [5]
drop = [8]
repeat = [9]
drop_every = 30
drop_until = 40
"""

Ended = collections.namedtuple("Ended", "status out err")


def image(length, start):
    return bytes((i + start) % 256 for i in range(length))


# The two files of PLAN, an image to format with, and what is printed of them.
FIRST, SECOND, OLD = image(3000, 0), image(2500, 77), image(700, 9)
INSTALLED = "installed group 2147483650 software 1.2 bytes %d\n" % len(FIRST + SECOND)
BOOT_OLD = "boot bank 0 number 1 software 1.1 bytes %d\n" % len(OLD)
BOOT_NEW = "boot bank 1 number 2 software 1.2 bytes %d\n" % len(FIRST + SECOND)


class Folder:
    """A folder of the program, and its commands."""

    def __init__(self, path):
        self.path = path

    def file(self, name):
        return os.path.join(self.path, name)

    def write(self, name, data):
        with open(self.file(name), "wb") as file:
            file.write(data.encode() if isinstance(data, str) else data)

    def read(self, name):
        with open(self.file(name), "rb") as file:
            return file.read()

    def has(self, name):
        return os.path.exists(self.file(name))

    def files(self):
        """The bytes of each file by its name."""
        return {name: self.read(name) for name in sorted(os.listdir(self.path)) if os.path.isfile(self.file(name))}

    def clear(self):
        for name in os.listdir(self.path):
            path = self.file(name)
            if os.path.isdir(path) and not os.path.islink(path):
                shutil.rmtree(path)
            else:
                os.remove(path)

    def answer(self, *words, before=(), **how):
        """The status of a command, and its texts on standard output and error. `how` is handed to subprocess.run."""
        how = {"stdout": subprocess.PIPE, "stderr": subprocess.PIPE, "timeout": 100, **how}
        done = subprocess.run([*before, SSU, self.path, *words], check=False, **how)
        return Ended(done.returncode, (done.stdout or b"").decode(errors="replace"), (done.stderr or b"").decode(errors="replace"))

    def run(self, *words, before=()):
        return self.answer(*words, before=before)[:2]

    def must(self, *words):
        """A command that a script needs done."""
        ended = self.answer(*words)
        if ended.status != DONE:
            sys.exit("%s ended with %d: %s" % (" ".join(words), ended.status, ended.err.strip()))

    def prepare(self, blocks=6):
        """A folder in which each command has what it wants: a box, a plan with its files, a script, the stream, a flash with an image."""
        self.clear()
        for name, data in (("box.toml", BOX), ("plan.toml", PLAN), ("script.toml", SCRIPT), ("old.bin", OLD), ("first.bin", FIRST), ("second.bin", SECOND)):
            self.write(name, data)
        self.must("build")
        self.must("blank", str(blocks))
        self.must("format", "old.bin")

    def store_front(self, packets):
        """A replay of so many packets of the stream alone, which must store a part of its group."""
        whole = self.read("air.ts")
        self.write("air.ts", whole[:188 * packets])
        status, line = self.run("replay")
        if status != INCOMPLETE:
            sys.exit("replay of %d packets ended with %d and %r" % (packets, status, line))
        self.write("air.ts", whole)

    def run_killed(self, at, *words):
        """Kills the command at its write to flash.bin of that number, from 1. Gives None where it was killed, else its status."""
        calls = "write,pwrite64,writev"
        strace = ["strace", "-f", "-qq", "-o", os.devnull, "-P", self.file("flash.bin"), "-e", "trace=" + calls,
                  "-e", "inject=%s:signal=KILL:when=%d" % (calls, at)]
        status, _ = self.run(*words, before=strace)
        return None if status < 0 or status == 137 else status

    def boot(self, *spares):
        """The status of `boot`, with `spares S` or without, the image that it gave, and what it printed."""
        if self.has("image.bin"):
            os.remove(self.file("image.bin"))
        status, line = self.run("boot", *spares)
        return status, self.read("image.bin") if self.has("image.bin") else b"", line


class Tally:
    """Counts what was tried, and says what was not as it must be."""

    def __init__(self):
        self.tried, self.wrong = 0, 0

    def same(self, what, found, wanted):
        self.tried += 1
        if found != wanted:
            self.wrong += 1
            print("%s: %s, and not %s" % (what, short(found), short(wanted)))

    def end(self, what):
        """Says how many agreed, and gives the exit status of the script."""
        print("%s: %d of %d as stated" % (what, self.tried - self.wrong, self.tried))
        return 1 if self.wrong or not self.tried else 0


def short(value):
    text = repr(value)
    return text if len(text) <= 200 else text[:200] + ".."


def is_missing(tool):
    """Whether a tool is not there, which is said."""
    if shutil.which(tool):
        return False
    print("%s is not installed: skipped" % tool)
    return True


def in_folder(work):
    """Does the work in a folder of its own, and gives its status. The program is built where that is still to be done."""
    if not os.access(SSU, os.X_OK):
        if "SSU" in os.environ:
            sys.exit("%s is no program" % SSU)
        subprocess.run([os.path.join(TOP, "ssu"), "--version"], stdout=subprocess.DEVNULL, check=True)
    with tempfile.TemporaryDirectory(dir=MEMORY if os.access(MEMORY, os.W_OK) else None) as path:
        return work(Folder(path))
