#!/usr/bin/env python3
"""Measures the memory of each command: its greatest resident size, as /usr/bin/time tells it.

`replay` is measured on a flash of 22 blocks, which has layout 1, on one of 520, and on one of 32,768 blocks (128 MiB) with an update that fills a
bank, on the last two also where half of the group is stored already. `find` is measured also with a box.toml of 5 MB, since a file that is read whole
takes memory by its length. What docs/PERFORMANCE.md states is compared: each command takes at most 3 MiB, and besides it a file that is read whole
twice its length, `load` the image of its group, `replay` a map of the blocks of its group, and `build` not much more than three times the length of
its files.

Of `replay` it is found, too, how much memory that it may write the system has to grant it for its data, its heap among them and its stack
not: the same replay under a limit (RLIMIT_DATA) that is found by bisection, to a page. With a stack of at most 256 KiB besides, it is compared with the
bound of docs/INTEGRATION.md: the map and under 1 MiB, on every size of flash.

Without /usr/bin/time the script says so and ends with 0.

usage: outside/memory.py            exits with 0 where no command takes more than is stated
"""
import resource
import subprocess
import sys
import tempfile

from kill_migrate import layout_one
from kill_replay import Places
from program import BLOCK, BOX, DONE, FIRST, PLAN, SECOND, in_folder, is_missing

MIB = 1024 * 1024
# What a command may take whatever its input.
SMALL = 3 * MIB
# A map of the blocks of a group has at most so many bytes.
BLOCK_MAP = 4145152
# What `sample 0` may take: its files, its stream and its flash are in memory.
SAMPLE = 12 * MIB
STACK = 256 * 1024
PAGE = 4096
LARGE_BLOCKS = 32768
LARGE = Places(LARGE_BLOCKS)
BANK = LARGE.journal - LARGE.area
LARGE_PLAN = PLAN.replace('"first.bin", "second.bin"', '"large.bin"').replace("block_size = 1000", "block_size = 4066").replace(
    "turns = 60", "turns = 17000")


def peak(folder, words):
    """The greatest resident size of a command, in bytes."""
    with tempfile.NamedTemporaryFile("r") as told:
        # `time` starts the program from a process of its own, so that the size of this one is not counted
        ended = folder.answer(*words, before=("/usr/bin/time", "-q", "-f", "%M", "-o", told.name))
        if ended.status != DONE:
            sys.exit("%s ended with %d: %s" % (" ".join(words), ended.status, ended.err))
        return int(told.read()) * 1024


def least_data(folder):
    """With how many bytes of data `replay` ends as it does without a limit. All memory is taken before the first packet, so a short stream will do."""
    air = folder.read("air.ts")
    folder.write("air.ts", air[:188])
    def run(most):
        def limit():
            resource.setrlimit(resource.RLIMIT_DATA, (most, most))
        try:
            return folder.answer("replay", preexec_fn=limit)[:2]
        except (OSError, subprocess.SubprocessError):
            # so little that the program cannot be started
            return None
    wanted = folder.run("replay")
    low, high = 0, 256 * MIB
    while high - low > PAGE:
        middle = (low + high) // 2 // PAGE * PAGE
        low, high = (low, middle) if run(middle) == wanted else (middle, high)
    folder.write("air.ts", air)
    if run(high)[0] != DONE:
        sys.exit("replay of the whole stream does not end with %d bytes of data" % high)
    return high


class Table:
    """The lines of what was measured, each with what it may be."""

    def __init__(self):
        self.over = 0

    def line(self, what, size, most):
        print("%-46s %9.1f MiB, at most %.1f" % (what, size / MIB, most / MIB))
        self.over += size > most


def work(folder):
    table = Table()
    group = len(FIRST + SECOND)
    folder.prepare(22)
    for words in (("hear", "258"), ("find",), ("show",), ("air",), ("blank", "22"), ("format", "old.bin"), ("boot",), ("build",)):
        table.line(" ".join(words), peak(folder, words), SMALL)
    table.line("load 258", peak(folder, ("load", "258")), SMALL + group)
    table.line("audit 258", peak(folder, ("audit", "258")), SMALL + 2 * group)
    table.line("sample 0", peak(folder, ("sample", "0")), SAMPLE)
    table.line("replay, 22 blocks", peak(folder, ("replay",)), SMALL)
    for words in (("format", "old.bin", "spares", "4"), ("replay", "spares", "4"), ("boot", "spares", "4")):
        table.line(" ".join(words), peak(folder, words), SMALL)
    folder.must("format", "old.bin")
    table.line("replay, 22 blocks, its data alone", least_data(folder), MIB - STACK + 22 * BLOCK // 16)
    folder.must("blank", "520")
    folder.must("format", "old.bin")
    table.line("replay, 520 blocks", peak(folder, ("replay",)), SMALL)
    folder.must("format", "old.bin")
    folder.store_front(24)
    half = folder.read("flash.bin")
    table.line("replay, 520 blocks, half of it stored", peak(folder, ("replay",)), SMALL)
    folder.write("flash.bin", half)
    table.line("the same, its data alone", least_data(folder), MIB - STACK + 520 * BLOCK // 16)
    folder.write("flash.bin", layout_one())
    table.line("migrate, 514 blocks", peak(folder, ("migrate",)), SMALL)
    folder.write("box.toml", BOX + "#" * 5000000 + "\n")
    table.line("find, box.toml of 5 MB", peak(folder, ("find",)), SMALL + 2 * 5000000)

    folder.prepare()
    folder.write("large.bin", bytes(BANK))
    folder.write("plan.toml", LARGE_PLAN)
    table.line("build, a file of %d bytes" % BANK, peak(folder, ("build",)), SMALL + 3 * BANK + BANK // 8)
    folder.must("blank", str(LARGE_BLOCKS))
    folder.must("format", "old.bin")
    table.line("load 258, a group of %d bytes" % BANK, peak(folder, ("load", "258")), SMALL + BANK)
    table.line("audit 258, that group", peak(folder, ("audit", "258")), SMALL + BANK + BANK // 8)
    table.line("replay, %d blocks" % LARGE_BLOCKS, peak(folder, ("replay",)), SMALL + BLOCK_MAP)
    folder.must("format", "old.bin")
    table.line("replay, %d blocks, its data alone" % LARGE_BLOCKS, least_data(folder), MIB - STACK + BLOCK_MAP)
    folder.must("format", "old.bin")
    folder.store_front(len(folder.read("air.ts")) // 376)
    table.line("replay, %d blocks, half of it stored" % LARGE_BLOCKS, peak(folder, ("replay",)), SMALL + BLOCK_MAP)
    return 1 if table.over else 0


if __name__ == "__main__":
    sys.exit(0 if is_missing("/usr/bin/time") else in_folder(work))
