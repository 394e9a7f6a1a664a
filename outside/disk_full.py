#!/usr/bin/env python3
"""Runs the commands that write while the disk is full, and looks at what is left.

The disk is full after n blocks of 4,096 bytes of a file, for n from 0 until the command has room: the limit on the size of a file stands in for
it, and its signal is ignored, so that a write past it fails. Where the script may mount one, a small file system in memory is tried too.

A command that makes a file must end with 11 and `ssu: write failed`, print nothing, and leave a prefix of the file; after `blank` no later
command may take what is left for a smaller flash. `format` and `replay` must end with 12 and `ssu: flash failed`; after `replay` boot must give
the old image, and with room again a second `replay` must install. No other file may change.

usage: outside/disk_full.py            exits with 0 where every run ended as it must
"""
import os
import resource
import shutil
import signal
import subprocess
import sys

from program import (BLOCK, BOOT_OLD, DONE, FLASH_FAULT, GEOMETRY, INSTALLED, OLD, WRITE_FAULT, Ended, Folder, Tally, in_folder)

BLOCKS = 9
# Each command, and the file that it makes.
MAKING = [(("build",), "air.ts"), (("load", "258"), "group.bin"), (("boot",), "image.bin"), (("blank", str(BLOCKS)), "flash.bin")]
WRITING = [("format", "first.bin"), ("replay",)]


def limited(folder, words, blocks):
    """The command with room for so many blocks in a file."""
    def limit():
        signal.signal(signal.SIGXFSZ, signal.SIG_IGN)
        resource.setrlimit(resource.RLIMIT_FSIZE, (blocks * BLOCK,) * 2)
    return folder.answer(*words, preexec_fn=limit)


def makes(tally, folder, words, name):
    """A command that makes a file, with more and more room."""
    for blocks in range(1000):
        folder.prepare(BLOCKS)
        usual = folder.files()
        folder.must(*words)
        whole = folder.read(name)
        for other in [other for other in folder.files() if other not in usual]:
            os.remove(folder.file(other))
        for other, data in usual.items():
            folder.write(other, data)
        what = "%s with room for %d blocks" % (" ".join(words), blocks)
        ended = limited(folder, words, blocks)
        if ended.status == DONE:
            tally.same(what + ", what was made", folder.read(name), whole)
            return
        tally.same(what, ended, Ended(WRITE_FAULT, "", "ssu: write failed\n"))
        found = folder.files()
        left = found.pop(name, b"")
        usual.pop(name, None)
        tally.same(what + ", the other files", found, usual)
        tally.same(what + ", a prefix of the file", left, whole[:len(left)])
        if words[0] == "blank":
            tally.same(what + ", format takes it", folder.answer("format", "old.bin").status, GEOMETRY)


def writes(tally, folder, words):
    """A command that changes the flash, with more and more room."""
    for blocks in range(1000):
        folder.prepare(BLOCKS)
        usual = folder.files()
        what = "%s with room for %d blocks" % (" ".join(words), blocks)
        ended = limited(folder, words, blocks)
        if ended.status == DONE:
            return
        tally.same(what, ended, Ended(FLASH_FAULT, "", "ssu: flash failed\n"))
        found = folder.files()
        tally.same(what + ", the length of the flash", len(found.pop("flash.bin")), len(usual.pop("flash.bin")))
        tally.same(what + ", the other files", found, usual)
        if words[0] == "replay":
            tally.same(what + ", boot", folder.boot(), (DONE, OLD, BOOT_OLD))
            tally.same(what + ", a second replay", folder.run("replay"), (DONE, INSTALLED))
        else:
            tally.same(what + ", a second format", folder.run(*words), (DONE, "formatted bytes 3000\n"))


def on_a_small_disk(tally, path):
    """`blank` of more blocks than a file system in memory has, where it may be mounted."""
    os.mkdir(path)
    mount = ["mount", "-t", "tmpfs", "-o", "size=%d" % (20 * BLOCK), "tmpfs", path]
    if not shutil.which("mount") or subprocess.run(mount, capture_output=True, check=False).returncode:
        print("no file system can be mounted: a full disk is tried by the limit on the size of a file alone")
        return
    try:
        folder = Folder(path)
        tally.same("blank on a small disk", folder.answer("blank", "64"), Ended(WRITE_FAULT, "", "ssu: write failed\n"))
        tally.same("boot after it", folder.answer("boot").status, GEOMETRY)
        tally.same("room after it", folder.answer("blank", "16"), Ended(DONE, "blank 16\n", ""))
    finally:
        subprocess.run(["umount", path], check=False)


def work(folder):
    tally = Tally()
    for words, name in MAKING:
        makes(tally, folder, words, name)
    for words in WRITING:
        writes(tally, folder, words)
    folder.clear()
    on_a_small_disk(tally, folder.file("disk"))
    return tally.end("a full disk")


if __name__ == "__main__":
    sys.exit(in_folder(work))
