#!/usr/bin/env python3
"""Kills the program within `format`, and looks at what comes after.

`format a.bin` is killed at its n-th write to flash.bin, with n from 1 on, until a run ends by itself. Nothing is promised of what
an interrupted `format` leaves: `boot` may take an image or answer that the flash is foreign, and must end by itself. A later
`format b.bin` must succeed, and `boot` must give the bytes of b.bin. The same is done with `spares 2` behind the words, on three blocks more.

The kills are made by strace, which stops the program as it enters the call. Without strace the script says so and ends with 0.

usage: outside/kill_format.py [BLOCKS]   on a flash of so many blocks of 4,096 bytes, 6 if none is given; from 514 on it gets layout 2
                                         exits with 0 where every run ended as it must
"""
import sys

from program import BOX, DONE, FOREIGN, image, in_folder, is_missing


def look_after_format(folder, second, spares):
    """What must hold after an interrupted `format`, with these words behind it."""
    status, _, _ = folder.boot(*spares)
    if status not in (DONE, FOREIGN):
        return "boot ended with %d" % status
    status, line = folder.run("format", "b.bin", *spares)
    if (status, line) != (DONE, "formatted bytes %d\n" % len(second)):
        return "the later format ended with %d and %r" % (status, line)
    status, booted, line = folder.boot(*spares)
    if (status, line) != (DONE, "boot bank 0 number 1 software 1.1 bytes %d\n" % len(second)):
        return "boot ended with %d and %r" % (status, line)
    if booted != second:
        return "boot gave another image"
    return None


def sweep(folder, prepare, words, look):
    """Kills the command at each of its writes, from a fresh start each time. Gives the number of kills, or None where one failed."""
    at = 1
    while True:
        prepare()
        status = folder.run_killed(at, *words)
        if status is not None and status != DONE:
            print("write %d: %s ended with %d" % (at, " ".join(words), status))
            return None
        wrong = look()
        if wrong:
            print("write %d: %s" % (at, wrong))
            return None
        if status == DONE and at == 1:
            print("%s ended with no write seen: nothing was killed" % " ".join(words))
            return None
        if status == DONE:
            return at - 1
        at += 1


def work(folder):
    first, second = image(5000, 0), image(700, 9)
    folder.write("box.toml", BOX)
    folder.write("a.bin", first)
    folder.write("b.bin", second)
    blocks = int(sys.argv[1]) if len(sys.argv) > 1 else 6
    for spares, more in (((), 0), (("spares", "2"), 3)):
        # what is formatted anew held an image before
        folder.must("blank", str(blocks + more))
        folder.must("format", "b.bin", *spares)
        formatted = folder.read("flash.bin")
        kills = sweep(folder, lambda: folder.write("flash.bin", formatted), ("format", "a.bin", *spares), lambda: look_after_format(folder, second, spares))
        if kills is None:
            return 1
        print("%s: killed at each of its %d writes, and formatted again each time" % (" ".join(("format", *spares)), kills))
    return 0


if __name__ == "__main__":
    sys.exit(0 if is_missing("strace") else in_folder(work))
