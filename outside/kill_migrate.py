#!/usr/bin/env python3
"""Kills the program within `migrate`, and looks at what boot takes then.

`migrate` of a flash of layout 1, with other bytes in all that it erases, is killed at its n-th write to flash.bin, with n from 1 on, until a
run ends by itself. Each write is an erase or a program. After each kill that left something new, and after the same kill with the write torn
as the model of a flash says, each byte of it at some place between what it was and what it was to be, three things are looked at. `boot` must
give the image that it gave before, under the old record or the new one. A second `migrate` must do what is not done yet. `boot` must give that
image under the new record then. It is a try on the real program and a real file, and no proof.

The kills are made by strace, which stops the program as it enters the call, so the write that it enters is not made. Without strace the
script says so and ends with 0.

usage: outside/kill_migrate.py            exits with 0 where every run ended as it must
"""
import sys

from kill_replay import TEARS, Places, changes, record, torn
from program import BLOCK, DONE, image, in_folder, is_missing

# The least flash with layout 2.
BLOCKS = 514
IMAGE = image(5000, 9)
OLD, NEW = 7, 8


def boot_line(number):
    return "boot bank 0 number %d software 1.0 bytes %d\n" % (number, len(IMAGE))


def layout_one():
    """A flash of layout 1 with an image in the first area and another one, taken before, in the second."""
    places = Places(BLOCKS)
    held = bytearray(image(BLOCKS * BLOCK, 5))
    held[:2 * BLOCK] = b"\xff" * (2 * BLOCK)
    held[:64] = record(1, OLD, 0, len(IMAGE))
    held[BLOCK:BLOCK + 64] = record(1, OLD - 1, 1, 100)
    held[2 * BLOCK:2 * BLOCK + len(IMAGE)] = IMAGE
    # What stands where the journals come is no journal, and not even whole pairs.
    first = places.journal - (places.end - places.area)
    held[first:places.area] = bytes(places.area - first)
    held[places.journal:places.end] = bytes(places.end - places.journal)
    return bytes(held)


class Sweep:
    """The kills of a migration."""

    def __init__(self, folder):
        self.folder = folder
        self.before = layout_one()
        self.taken = {OLD: 0, NEW: 0}

    def look(self, what):
        """What must hold of the flash as it is now."""
        status, booted, line = self.folder.boot()
        number = NEW if line == boot_line(NEW) else OLD
        if (status, booted, line) != (DONE, IMAGE, boot_line(number)):
            sys.exit("%s: boot ended with %d, %d bytes and %r" % (what, status, len(booted), line))
        self.taken[number] += 1
        wanted = "migrated bytes %d number %d\n" % (len(IMAGE), NEW) if number == OLD else "already layout 2 number %d\n" % NEW
        again = self.folder.run("migrate")
        if again != (DONE, wanted):
            sys.exit("%s: the second migrate ended with %d and %r" % (what, again[0], again[1]))
        if self.folder.boot() != (DONE, IMAGE, boot_line(NEW)):
            sys.exit("%s: boot did not take the image after the second migrate" % what)

    def kill(self):
        """Kills at each write. Gives the number of kills and of torn writes."""
        kills, tears, before = 0, 0, None
        while True:
            self.folder.write("flash.bin", self.before)
            status = self.folder.run_killed(kills + 1, "migrate")
            if status is not None and status != DONE:
                sys.exit("write %d: migrate ended with %d" % (kills + 1, status))
            after = self.folder.read("flash.bin")
            if before != after:
                self.look("write %d" % (kills + 1))
            changed = [] if before is None else changes(before, after)
            for name, tear in TEARS if changed else ():
                self.folder.write("flash.bin", torn(before, after, changed, tear))
                self.look("write %d, %s" % (kills, name))
                tears += 1
            if status == DONE:
                return kills, tears
            before = after
            kills += 1


def work(folder):
    sweep = Sweep(folder)
    kills, tears = sweep.kill()
    if not kills:
        sys.exit("migrate ended with no write seen: nothing was killed")
    print("migrate of %d blocks: killed at each of its %d writes, and %d times with the write torn; boot took the image under the old record "
          "%d times, under the new one %d times" % (BLOCKS, kills, tears, sweep.taken[OLD], sweep.taken[NEW]))
    return 0


if __name__ == "__main__":
    sys.exit(0 if is_missing("strace") else in_folder(work))
