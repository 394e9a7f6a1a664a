#!/usr/bin/env python3
"""Has writes to flash.bin fail under `replay spares 4`: each write in turn, whole or half done, and then five in a row from each on.

A flash in a file, so the writes are those of the real program, by a library before the C library's. Where one fails, a spare takes its place: the
update is installed, and `boot spares 4` takes it. Where five in a row fail, no spare is left: the replay ends with 12, and `boot spares 4` takes the
former image; a later replay, with nothing failing, installs. The flash has 27 blocks, and then 525, where it has layout 2. Without a C compiler the
script says so and ends with 0.

usage: outside/spares.py            exits with 0 where every run ended as it must
"""
import os
import subprocess
import sys
import tempfile

from program import (BOOT_NEW, BOOT_OLD, DONE, FIRST, FLASH_FAULT, GEOMETRY, HERE, INSTALLED, OLD, SECOND, USAGE, Ended, Tally, in_folder, is_missing)

SPARES = ("spares", "4")
BLOCKS = (27, 525)


def boot(folder):
    """The status of `boot spares 4`, the image that it gave, and what it printed."""
    if folder.has("image.bin"):
        os.remove(folder.file("image.bin"))
    ended = folder.answer("boot", *SPARES)
    return ended.status, folder.read("image.bin") if folder.has("image.bin") else b"", ended.out


def failing(folder, library, first, last, half=False):
    """`replay spares 4` where the writes to flash.bin of these numbers fail."""
    how = {"LD_PRELOAD": library, "FAIL_FILE": folder.file("flash.bin"), "FAIL_FROM": str(first), "FAIL_TO": str(last), "FAIL_HALF": "1" if half else "0"}
    return folder.answer("replay", *SPARES, env=how)


def writes_of(folder, library):
    """How many writes to flash.bin a replay makes."""
    with tempfile.NamedTemporaryFile() as told:
        how = {"LD_PRELOAD": library, "FAIL_FILE": folder.file("flash.bin"), "TELL": told.name}
        folder.answer("replay", *SPARES, env=how)
        return len(told.read())


def fail_each(folder, library, blocks, tally):
    """Each write of a replay to a flash of so many blocks fails."""
    folder.prepare(blocks)
    folder.must("format", "old.bin", *SPARES)
    tally.same("formatted", boot(folder), (DONE, OLD, BOOT_OLD))
    flash = folder.read("flash.bin")
    writes = writes_of(folder, library)
    tally.same("installed", boot(folder), (DONE, FIRST + SECOND, BOOT_NEW))
    for at in range(1, writes + 1):
        for half in (False, True):
            what = "%d blocks, write %d%s" % (blocks, at, ", half done" if half else "")
            folder.write("flash.bin", flash)
            tally.same(what, failing(folder, library, at, at, half), Ended(DONE, INSTALLED, ""))
            tally.same(what + ": boot", boot(folder), (DONE, FIRST + SECOND, BOOT_NEW))
            what = "%d blocks, writes %d to %d%s" % (blocks, at, at + 4, ", half done" if half else "")
            folder.write("flash.bin", flash)
            tally.same(what, failing(folder, library, at, at + 4, half), Ended(FLASH_FAULT, "", "ssu: flash failed\n"))
            tally.same(what + ": boot", boot(folder), (DONE, OLD, BOOT_OLD))
            tally.same(what + ": again", folder.answer("replay", *SPARES), Ended(DONE, INSTALLED, ""))
            tally.same(what + ": boot again", boot(folder), (DONE, FIRST + SECOND, BOOT_NEW))
    folder.write("flash.bin", flash)
    print("%d blocks: %d writes" % (blocks, writes))


def work(folder):
    tally = Tally()
    with tempfile.TemporaryDirectory() as path:
        library = os.path.join(path, "failing_writes.so")
        subprocess.run(["cc", "-shared", "-fPIC", "-O1", "-o", library, os.path.join(HERE, "failing_writes.c"), "-ldl"], check=True)
        for blocks in BLOCKS:
            fail_each(folder, library, blocks, tally)
    folder.must("blank", str(BLOCKS[0]))
    tally.same("too many spares", folder.answer("boot", "spares", "23"), Ended(GEOMETRY, "", "ssu: flash has a wrong geometry\n"))
    for words in (("find", *SPARES), ("boot", "spares", "0"), ("boot", "spares", "256"), ("boot", "spares", "04"), ("boot", "spares"), SPARES):
        tally.same(" ".join(words), folder.answer(*words), Ended(USAGE, "", "ssu: usage\n"))
    return tally.end("runs with failing writes")


if __name__ == "__main__":
    sys.exit(0 if is_missing("cc") else in_folder(work))
