#!/usr/bin/env python3
"""Refuses memory to a command: each request for it in turn, in a run of its own, until a run meets no more of them.

`build`, `air`, `replay`, `audit` and `sample 0` are run so, with a library before the C library's that refuses one call of malloc or realloc; `replay` on a
flash of 6 blocks, and on one of 520 with half of its group stored already. A run must end with 15, `ssu: out of memory` and nothing printed, and
leave every file as it was and make none; or, where it can do without, as it does with ample memory. Without a C compiler the script says so and
ends with 0.

usage: outside/no_memory.py            exits with 0 where every run ended as it may
"""
import os
import subprocess
import sys
import tempfile

from program import HERE, NO_MEMORY, Ended, Tally, in_folder, is_missing

SMALL, LARGE = 6, 520
# Each command, the file that it makes, and the blocks of the flash.
COMMANDS = [(("build",), "air.ts", SMALL), (("air",), "aired.ts", SMALL), (("replay",), None, SMALL), (("replay",), None, LARGE),
            (("audit", "258"), None, SMALL), (("sample", "0"), None, SMALL)]
# More requests than any of them makes.
MOST = 5000


def refuse_each(folder, library, words, made, blocks, tally):
    """Each request of the command refused in turn. The library tells by the file `refused` that one was."""
    name = " ".join(words) + (" (%d blocks)" % blocks if words == ("replay",) else "")
    folder.prepare(blocks)
    if blocks == LARGE:
        folder.store_front(24)
    if made and folder.has(made):
        os.remove(folder.file(made))
    before = folder.files()
    whole = folder.answer(*words)
    after = folder.files()
    for at in range(1, MOST):
        folder.clear()
        for file, data in before.items():
            folder.write(file, data)
        with tempfile.NamedTemporaryFile() as told:
            ended = folder.answer(*words, env={"LD_PRELOAD": library, "FAIL_AT": str(at), "TELL": told.name})
            is_refused = bool(told.read())
        what = "%s, request %d" % (name, at)
        if ended == whole:
            tally.same(what + ": the files", folder.files(), after)
            if not is_refused:
                print("%s: %d requests" % (name, at - 1))
                return
        else:
            tally.same(what, ended, Ended(NO_MEMORY, "", "ssu: out of memory\n"))
            tally.same(what + ": the files", folder.files(), before)
    tally.same(name, "more requests", "fewer than %d" % MOST)


def work(folder):
    tally = Tally()
    with tempfile.TemporaryDirectory() as path:
        library = os.path.join(path, "no_memory.so")
        subprocess.run(["cc", "-shared", "-fPIC", "-O1", "-o", library, os.path.join(HERE, "no_memory.c"), "-ldl"], check=True)
        for words, made, blocks in COMMANDS:
            refuse_each(folder, library, words, made, blocks, tally)
    return tally.end("runs without memory")


if __name__ == "__main__":
    sys.exit(0 if is_missing("cc") else in_folder(work))
