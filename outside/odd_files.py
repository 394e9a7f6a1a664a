#!/usr/bin/env python3
"""What a user meets on a bad day: a folder, a pipe or nothing at all where a file is expected, files that may not be read, a flash of an odd
length, words that are far too long or no text.

Every outcome must be a stated status with its text, printed output must be empty, and no file may change. A named pipe as air.ts must serve as a
file does. Files that may not be read are tried as another user where the script runs as root.

usage: outside/odd_files.py            exits with 0 where every outcome is as it must be
"""
import os
import shutil
import stat
import subprocess
import sys
import threading

import program
from program import (ABSENT, BLOCK, DONE, FIRST, FLASH_FAULT, FOREIGN, GEOMETRY, INSTALLED, READ_FAULT, SECOND, SHELF_FAULT, USAGE, WRITE_FAULT, Ended,
                     Folder, Tally, in_folder)

READ, WRITE, FLASH, SHELF = "read failed", "write failed", "flash failed", "file could not be read"
# Where this file is a folder, a command ends so.
FOLDERS = [
    ("air.ts", ("hear", "258"), READ_FAULT, READ),
    ("air.ts", ("load", "258"), READ_FAULT, READ),
    ("air.ts", ("find",), READ_FAULT, READ),
    ("air.ts", ("replay",), READ_FAULT, READ),
    ("air.ts", ("air",), READ_FAULT, READ),
    ("air.ts", ("audit", "258"), READ_FAULT, READ),
    ("air.ts", ("build",), WRITE_FAULT, WRITE),
    ("box.toml", ("find",), SHELF_FAULT, SHELF),
    ("box.toml", ("replay",), SHELF_FAULT, SHELF),
    ("box.toml", ("format", "old.bin"), SHELF_FAULT, SHELF),
    ("plan.toml", ("build",), SHELF_FAULT, SHELF),
    ("first.bin", ("build",), SHELF_FAULT, SHELF),
    ("old.bin", ("format", "old.bin"), SHELF_FAULT, SHELF),
    ("flash.bin", ("boot",), FLASH_FAULT, FLASH),
    ("flash.bin", ("migrate",), FLASH_FAULT, FLASH),
    ("flash.bin", ("replay",), FLASH_FAULT, FLASH),
    ("flash.bin", ("format", "old.bin"), FLASH_FAULT, FLASH),
    ("flash.bin", ("boot", "spares", "1"), GEOMETRY, "flash has a wrong geometry"),
    ("flash.bin", ("blank", "6"), WRITE_FAULT, WRITE),
    ("group.bin", ("load", "258"), WRITE_FAULT, WRITE),
    ("image.bin", ("boot",), WRITE_FAULT, WRITE),
    ("script.toml", ("air",), SHELF_FAULT, SHELF),
    ("aired.ts", ("air",), WRITE_FAULT, WRITE),
]
# Where this file is missing, or may not be read.
ABSENCES = [
    ("air.ts", ("hear", "258"), READ_FAULT, READ),
    ("air.ts", ("find",), READ_FAULT, READ),
    ("air.ts", ("replay",), READ_FAULT, READ),
    ("box.toml", ("find",), ABSENT, "box.toml is absent"),
    ("plan.toml", ("build",), ABSENT, "plan.toml is absent"),
    ("second.bin", ("build",), ABSENT, "second.bin is absent"),
    ("old.bin", ("format", "old.bin"), ABSENT, "old.bin is absent"),
    ("script.toml", ("air",), ABSENT, "script.toml is absent"),
    ("air.ts", ("air",), READ_FAULT, READ),
    ("air.ts", ("audit", "258"), READ_FAULT, READ),
    ("flash.bin", ("boot",), GEOMETRY, "flash has a wrong geometry"),
    ("flash.bin", ("migrate",), GEOMETRY, "flash has a wrong geometry"),
    ("flash.bin", ("replay",), GEOMETRY, "flash has a wrong geometry"),
    ("flash.bin", ("format", "old.bin"), GEOMETRY, "flash has a wrong geometry"),
    ("flash.bin", ("boot", "spares", "1"), GEOMETRY, "flash has a wrong geometry"),
    ("flash.bin", ("format", "old.bin", "spares", "1"), GEOMETRY, "flash has a wrong geometry"),
]
FORBIDDEN = [
    ("air.ts", ("hear", "258"), READ_FAULT, READ),
    ("box.toml", ("find",), SHELF_FAULT, SHELF),
    ("first.bin", ("build",), SHELF_FAULT, SHELF),
    ("flash.bin", ("boot",), FLASH_FAULT, FLASH),
    ("flash.bin", ("migrate",), FLASH_FAULT, FLASH),
    ("flash.bin", ("replay",), FLASH_FAULT, FLASH),
    ("flash.bin", ("format", "old.bin"), FLASH_FAULT, FLASH),
    ("flash.bin", ("blank", "6"), WRITE_FAULT, WRITE),
    ("image.bin", ("boot",), WRITE_FAULT, WRITE),
]


def refused(tally, folder, what, words, status, text, closed=None, **how):
    """The command must be refused so, and no file may change. The file of the name `closed` may not be opened meanwhile."""
    files = folder.files()
    what = "%s, %s" % (" ".join(words), what)
    if closed:
        os.chmod(folder.file(closed), 0)
    tally.same(what, folder.answer(*words, **how), Ended(status, "", "ssu: %s\n" % text))
    if closed:
        os.chmod(folder.file(closed), 0o644)
    tally.same(what + ": the files", folder.files(), files)


def folders_and_absences(tally, folder):
    for name, words, status, text in FOLDERS:
        folder.prepare()
        if folder.has(name):
            os.remove(folder.file(name))
        os.mkdir(folder.file(name))
        refused(tally, folder, name + " is a folder", words, status, text)
    for name, words, status, text in ABSENCES:
        folder.prepare()
        os.remove(folder.file(name))
        refused(tally, folder, name + " is missing", words, status, text)
    folder.clear()
    for words, status, text in ((("hear", "0"), READ_FAULT, READ), (("find",), ABSENT, "box.toml is absent"), (("blank", "4"), WRITE_FAULT, WRITE),
                                (("boot",), GEOMETRY, "flash has a wrong geometry")):
        nowhere = Folder(folder.file("none"))
        tally.same("%s in a folder that is missing" % " ".join(words), nowhere.answer(*words), Ended(status, "", "ssu: %s\n" % text))


def forbidden(tally, folder):
    """Files without leave to read or write, as a user who is not root."""
    folder.prepare()
    folder.write("image.bin", b"")
    os.chmod(folder.path, 0o755)
    how = {"user": 65534, "group": 65534, "extra_groups": ()} if os.getuid() == 0 else {}
    # the program is copied to a place that every user may reach
    program.SSU, kept = shutil.copy(program.SSU, folder.file("program")), program.SSU
    os.chmod(program.SSU, 0o755)
    try:
        if subprocess.run([program.SSU, "--version"], capture_output=True, check=False, **how).returncode:
            print("the program cannot be run as another user: files that may not be read are skipped")
            return
        for name, words, status, text in FORBIDDEN:
            refused(tally, folder, name + " may not be opened", words, status, text, closed=name, **how)
    finally:
        program.SSU = kept


def pipes(tally, folder):
    folder.prepare()
    air = folder.read("air.ts")
    os.remove(folder.file("air.ts"))
    os.mkfifo(folder.file("air.ts"))

    def feed():
        try:
            with open(folder.file("air.ts"), "wb") as pipe:
                pipe.write(air)
        except BrokenPipeError:
            # `replay` stops reading at its verdict
            pass

    for words, printed in ((("find",), None), (("replay",), INSTALLED)):
        # where the command does not open the pipe, the feeder waits for ever, and ends with the script
        feeder = threading.Thread(target=feed, daemon=True)
        feeder.start()
        ended = folder.answer(*words)
        feeder.join(10)
        tally.same("%s from a pipe" % " ".join(words), (ended.status, ended.out if printed else ended.out.count("\n")), (DONE, printed or 7))
    folder.must("boot")
    tally.same("the image that came through a pipe", folder.read("image.bin"), FIRST + SECOND)
    os.remove(folder.file("air.ts"))
    os.symlink("/dev/stdin", folder.file("air.ts"))
    with open(folder.file("stream"), "wb") as file:
        file.write(air)
    with open(folder.file("stream"), "rb") as given:
        tally.same("find from standard input", folder.answer("find", stdin=given).out.count("\n"), 7)
    os.remove(folder.file("box.toml"))
    os.mkfifo(folder.file("box.toml"))
    tally.same("find, box.toml is a pipe", folder.answer("find"), Ended(SHELF_FAULT, "", "ssu: %s\n" % SHELF))
    tally.same("it still is one", stat.S_ISFIFO(os.stat(folder.file("box.toml")).st_mode), True)
    folder.prepare()
    os.remove(folder.file("flash.bin"))
    os.mkfifo(folder.file("flash.bin"))
    for words in (("boot",), ("replay",), ("format", "old.bin")):
        tally.same("%s, flash.bin is a pipe" % " ".join(words), folder.answer(*words), Ended(FLASH_FAULT, "", "ssu: %s\n" % FLASH))


def lengths_of_a_flash(tally, folder):
    folder.prepare()
    whole = folder.read("flash.bin")
    for length in (0, 1, BLOCK, 3 * BLOCK, 6 * BLOCK - 1, 6 * BLOCK + 1, 65537 * BLOCK, 1 << 32):
        with open(folder.file("flash.bin"), "wb") as file:
            file.write(whole[:length])
            file.truncate(length)
        for words in (("boot",), ("replay",), ("format", "old.bin")):
            ended = folder.answer(*words)
            tally.same("%s of %d bytes" % (" ".join(words), length), ended, Ended(GEOMETRY, "", "ssu: flash has a wrong geometry\n"))
            tally.same("its length", os.path.getsize(folder.file("flash.bin")), length)
    with open(folder.file("flash.bin"), "wb") as file:
        file.truncate(65536 * BLOCK)
    tally.same("boot of the largest flash, of zeros", folder.answer("boot"), Ended(FOREIGN, "", "ssu: flash is foreign\n"))
    with open(folder.file("flash.bin"), "wb") as file:
        file.truncate(65539 * BLOCK)
    tally.same("boot of the largest flash with 2 spares, of zeros", folder.answer("boot", "spares", "2"), Ended(FOREIGN, "", "ssu: flash is foreign\n"))
    tally.same("boot of it with 1 spare", folder.answer("boot", "spares", "1"), Ended(GEOMETRY, "", "ssu: flash has a wrong geometry\n"))


def words(tally, folder):
    folder.prepare()
    files = folder.files()
    for what, given in (("a command that is no text", (b"\xff",)), ("a name that is no text", ("format", b"\xff\xfe")),
                        ("a number without end", ("hear", "9" * 100000)), ("a name without end", ("format", "x" * 100000)),
                        ("a thousand words", ("find",) * 1000)):
        tally.same(what, folder.answer(*given), Ended(USAGE, "", "ssu: usage\n"))
    tally.same("a folder that is no text", Folder(b"\xff").answer("find"), Ended(USAGE, "", "ssu: usage\n"))
    long = Folder("x" * 100000)
    for given, status, text in ((("find",), SHELF_FAULT, SHELF), (("hear", "0"), READ_FAULT, READ), (("boot",), FLASH_FAULT, FLASH),
                                (("blank", "4"), WRITE_FAULT, WRITE)):
        tally.same("%s in a folder without end" % " ".join(given), long.answer(*given), Ended(status, "", "ssu: %s\n" % text))
    tally.same("the files", folder.files(), files)
    here = Folder("")
    tally.same("an empty folder is the current one", here.answer("boot", cwd=folder.path).status, DONE)
    tally.same("the image stands there", folder.has("image.bin"), True)
    other = Folder(folder.file("é ü"))
    os.mkdir(other.path)
    tally.same("a folder with blanks and letters", other.answer("blank", "4"), Ended(DONE, "blank 4\n", ""))


def work(folder):
    tally = Tally()
    for cases in (folders_and_absences, forbidden, pipes, lengths_of_a_flash, words):
        cases(tally, folder)
    return tally.end("odd files and words")


if __name__ == "__main__":
    sys.exit(in_folder(work))
