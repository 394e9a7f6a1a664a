#!/usr/bin/env python3
"""Finds the least stack with which each command does its work, and compares it with the 128 KiB that docs/INTEGRATION.md states.

The stack is limited as by `ulimit -s`, in steps of 4 KiB, by bisection; the environment is empty. With that much the command must end
as it does with a usual stack, with the same output and the same files, in each of 24 runs: the system begins a stack at a random place of up to
8 KiB. The broadcast has all that the way to an update knows: a BAT, a notice with a schedule, two modules. The flash has 8 blocks, and 520 where
`layout 2` is said: as `format` left it; with a download that was cut off, one place of it lost (`half`); and as the replay behind that left it,
with that place in a slot (`slot`).

usage: outside/stack.py            exits with 0 where no command needs more than 128 KiB
"""
import resource
import sys

from kill_migrate import layout_one
from kill_replay import Places
from program import DONE, PLAN, in_folder

MOST, USUAL, STEP = 128, 8192, 4
RUNS = 24
BLOCKS = 520
MORE = """bouquet = 9
notice_pid = 257
[schedule]
start = "2024-03-01T01:00:00"
end = "2024-04-01T01:00:00"
period_hours = 24
duration_hours = 2
"""
SPARES = ("spares", "1")
# The words of each command, and the flash that it is given.
COMMANDS = [(("hear", "258"), ""), (("load", "258"), ""), (("find",), ""), (("show",), ""), (("build",), ""), (("blank", "8"), ""),
            (("format", "first.bin"), ""), (("format", "first.bin"), "layout 2"), (("format", "first.bin", *SPARES), ""),
            (("boot",), ""), (("boot",), "layout 2, slot"), (("boot", *SPARES), ""), (("migrate",), "layout 1"),
            (("replay",), ""), (("replay",), "layout 2"), (("replay",), "layout 2, half"), (("replay", *SPARES), ""), (("replay", *SPARES), "layout 2"),
            (("air",), ""), (("audit", "258", "257"), ""), (("sample", "0"), "")]


def run(folder, words, kibibytes):
    """What the command answers with so much stack, and the files after it."""
    def limit():
        resource.setrlimit(resource.RLIMIT_STACK, (kibibytes * 1024,) * 2)
        resource.setrlimit(resource.RLIMIT_CORE, (0, 0))
    return folder.answer(*words, preexec_fn=limit, env={}), folder.files()


def least(folder, words, before):
    """The least stack in KiB, in steps, with which all is as with a usual one."""
    def again(kibibytes):
        for name, data in before.items():
            folder.write(name, data)
        return run(folder, words, kibibytes)
    wanted = again(USUAL)
    low, high = 0, USUAL
    while high - low > STEP:
        middle = (low + high) // 2 // STEP * STEP
        try:
            fits = all(again(middle) == wanted for _ in range(RUNS))
        except OSError:
            # so little that the program cannot be started
            fits = False
        low, high = (low, middle) if fits else (middle, high)
    return wanted[0].status, high


def flashes(folder):
    """The flashes by what is said of them. Leaves the folder with the first."""
    small = folder.read("flash.bin")
    folder.must("blank", str(BLOCKS))
    folder.must("format", "old.bin")
    made = {"": small, "layout 1": layout_one(), "layout 2": folder.read("flash.bin")}
    # The first blocks are stored, and the first place that is not has a byte that is not blank.
    folder.store_front(40)
    places, half = Places(BLOCKS), bytearray(folder.read("flash.bin"))
    stored = [number for number in range(6) if half[places.journal + 8448 + 2 * number] == 0]
    if stored != list(range(len(stored))) or not 0 < len(stored) < 6:
        sys.exit("the download that is cut off has the marks %s" % stored)
    half[places.area + 1000 * len(stored)] = 0
    made["layout 2, half"] = bytes(half)
    folder.write("flash.bin", half)
    folder.must("replay")
    made["layout 2, slot"] = folder.read("flash.bin")
    if made["layout 2, slot"][places.slots:places.slots + 4] != b"S\xacP\xaf":
        sys.exit("the place that was lost is in no slot")
    folder.write("flash.bin", small)
    return made


def work(folder):
    folder.prepare(8)
    folder.write("plan.toml", PLAN.replace("[[group]]", MORE + "[[group]]", 1))
    folder.must("build")
    flash = flashes(folder)
    before = folder.files()
    print("%-42s least stack" % "command")
    most = 0
    for words, kind in COMMANDS:
        folder.clear()
        name = " ".join(words) + (" (%s)" % kind if kind else "")
        status, kibibytes = least(folder, words, {**before, "flash.bin": flash[kind]})
        if status != DONE:
            sys.exit("%s ended with %d" % (name, status))
        print("%-42s %5d KiB" % (name, kibibytes))
        most = max(most, kibibytes)
    print("the most is %d KiB, of at most %d" % (most, MOST))
    return 0 if most <= MOST else 1


if __name__ == "__main__":
    sys.exit(in_folder(work))
