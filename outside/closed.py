#!/usr/bin/env python3
"""Runs every command with standard input, output and error closed, alone and together, and compares all files.

Each command runs in a folder that is made anew. Whatever is closed, the files of the folder must be afterwards what they are where
nothing is closed: no file comes under the number of a closed descriptor, so no line goes into one. Without standard output a command
that has something to print must end with 11 and `ssu: write failed`; all else must be as ever.

usage: outside/closed.py            exits with 0 where every run was as it must be
"""
import itertools
import os
import subprocess
import sys

from program import DONE, NOTHING, NO_FIT, USAGE, WRITE_FAULT, Ended, Tally, in_folder

# Each command, how it ends where nothing is closed, and whether it writes to standard output then.
COMMANDS = [
    (("hear", "258"), DONE, True),
    (("hear", "5000"), DONE, False),
    (("load", "258"), DONE, True),
    (("find",), DONE, True),
    (("show",), DONE, True),
    (("build",), DONE, True),
    (("blank", "8"), DONE, True),
    (("format", "first.bin"), DONE, True),
    (("boot",), DONE, True),
    (("migrate",), NO_FIT, False),
    (("replay",), DONE, True),
    (("format", "first.bin", "spares", "1"), DONE, True),
    (("boot", "spares", "1"), DONE, True),
    (("replay", "spares", "1"), NOTHING, True),
    (("air",), DONE, True),
    (("audit", "258"), DONE, True),
    (("sample", "0"), DONE, True),
    (("hear", "007"), USAGE, False),
    ((), USAGE, False),
]


def run(folder, words, closed):
    """How the command ends with these descriptors closed."""
    streams = {name: subprocess.DEVNULL if number in closed else subprocess.PIPE
               for number, name in ((1, "stdout"), (2, "stderr"))}
    return folder.answer(*words, stdin=subprocess.DEVNULL, preexec_fn=lambda: [os.close(number) for number in closed], **streams)


def work(folder):
    tally = Tally()
    for words, status, prints in COMMANDS:
        folder.prepare()
        usual = run(folder, words, ())
        files = folder.files()
        tally.same("%s with nothing closed" % " ".join(words), (usual.status, bool(usual.out)), (status, prints))
        for closed in itertools.chain.from_iterable(itertools.combinations((0, 1, 2), count) for count in (1, 2, 3)):
            what = "%s without %s" % (" ".join(words), ", ".join(map(str, closed)))
            folder.prepare()
            wanted = usual
            if 1 in closed:
                wanted = Ended(WRITE_FAULT, "", "ssu: write failed\n") if prints else usual._replace(out="")
            if 2 in closed:
                wanted = wanted._replace(err="")
            tally.same(what, run(folder, words, closed), wanted)
            found = folder.files()
            tally.same(what + ", the files", sorted(found), sorted(files))
            for name in files:
                tally.same(what + ", " + name, found.get(name), files[name])
    return tally.end("closed descriptors")


if __name__ == "__main__":
    sys.exit(in_folder(work))
