#!/usr/bin/env python3
"""Compares `replay` of 4 MB over the journal of layout 2 with the same over the bank alone, which is layout 1.

A group of 4,194,304 bytes in blocks of 4,066 is replayed to two flashes of 2,100 blocks of 4,096 bytes with the same old image: one whose record says
layout 1, and one that `format` made, which has layout 2; then to that one with half of the group stored already. Files are in memory where the
system has /dev/shm. They take turns, and of each the least processor time and the least time by the clock of 40 runs are printed, and how many times
those of layout 1 that is; then how often each calls the system (strace, where there is one). The aim is at most 1.5 times.

usage: bench/journal.py [ROUNDS]
"""
import os
import resource
import shutil
import sys
import time

TOP = os.path.dirname(os.path.dirname(os.path.abspath(__file__)))
sys.path.insert(0, os.path.join(TOP, "outside"))

from kill_replay import record
from program import BLOCK, BOX, DONE, PLAN, image, in_folder

BLOCKS, LENGTH, SIZE = 2100, 4194304, 4066
OLD = image(5000, 9)


def flashes(folder):
    """The contents of each flash by what is said of it: the same image under a record of software 1.0."""
    folder.write("box.toml", BOX.replace("software_version = 1", "software_version = 0"))
    folder.write("old.bin", OLD)
    folder.must("blank", str(BLOCKS))
    blank = folder.read("flash.bin")
    folder.must("format", "old.bin")
    one = record(1, 1, 0, len(OLD)) + blank[64:2 * BLOCK] + OLD
    made = {"layout 1": one + blank[len(one):], "layout 2": folder.read("flash.bin")}
    folder.store_front(len(folder.read("air.ts")) // 376)
    return {**made, "half stored": folder.read("flash.bin")}


def replay(folder, held, before=()):
    """Processor time and time by the clock of a replay from these contents, in milliseconds."""
    folder.write("flash.bin", held)
    used, began = resource.getrusage(resource.RUSAGE_CHILDREN), time.monotonic()
    ended = folder.answer("replay", before=before)
    took, after = time.monotonic() - began, resource.getrusage(resource.RUSAGE_CHILDREN)
    if ended.status != DONE:
        sys.exit("replay ended with %d: %s%s" % ended)
    return 1000 * (after.ru_utime + after.ru_stime - used.ru_utime - used.ru_stime), 1000 * took


def work(folder):
    rounds = int(sys.argv[1]) if len(sys.argv) > 1 else 40
    folder.write("a.bin", bytes((i + i // 251) % 256 for i in range(LENGTH)))
    sections = 6 + -(-LENGTH // SIZE)
    folder.write("plan.toml", PLAN.replace('"first.bin", "second.bin"', '"a.bin"').replace("block_size = 1000", "block_size = %d" % SIZE).replace(
        "turns = 60", "turns = %d" % (sections + sections // 4)))
    folder.must("build")
    held = flashes(folder)
    times = {name: [] for name in held}
    for _ in range(rounds):
        for name in held:
            times[name].append(replay(folder, held[name]))
    least = {name: [min(column) for column in zip(*rows)] for name, rows in times.items()}
    one = least["layout 1"]
    print("%-12s %10s %8s %10s %8s   (least of %d)" % ("", "processor", "times", "clock", "times", rounds))
    for name, (processor, clock) in least.items():
        print("%-12s %7.1f ms %8.2f %7.1f ms %8.2f" % (name, processor, processor / one[0], clock, clock / one[1]))
    if shutil.which("strace"):
        print("%-12s %s" % ("", "".join("%10s" % call for call in CALLS)))
        for name in held:
            replay(folder, held[name], ("strace", "-f", "-c", "-o", folder.file("calls.txt")))
            print("%-12s %s" % (name, "".join("%10d" % calls(folder.read("calls.txt").decode(), call) for call in CALLS)))
    return 0


CALLS = ("read", "write", "lseek", "fsync", "fdatasync")


def calls(table, name):
    """How often a call stands in the table of `strace -c`."""
    for line in table.splitlines():
        words = line.split()
        if words and words[-1] == name:
            return int(words[3])
    return 0


if __name__ == "__main__":
    sys.exit(in_folder(work))
