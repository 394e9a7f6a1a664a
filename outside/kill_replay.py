#!/usr/bin/env python3
"""Kills the program within `replay`, and looks at what boot takes then.

`replay` of a stream that `build` made is killed at its n-th write to flash.bin, with n from 1 on, until a run ends by itself. Each write
is an erase or a program. After each kill, and after the same kill with the write torn as the model of a flash says, each byte of it at some
place between what it was and what it was to be, three things are looked at. `boot` must give the old image or the whole new one. A second
`replay` of the same packets must install what is not installed yet. `boot` must give the new image then. How often it gave which is
printed. It is a try on the real program and a real file, and no proof: what a clause says of a power loss is said of the flash in memory.

The kills are made by strace, which stops the program as it enters the call, so the write that it enters is not made. The torn ones are made
of what the file held at this kill and at the next. Without strace the script says so and ends with 0.
The same is done with `spares 2` behind the words, on three blocks more.

usage: outside/kill_replay.py [BYTES [BLOCKS]]   for a group of so many bytes in two files, 5,500 if none is given: about a kill for each 250
                                                 bytes; on a flash of so many blocks of 4,096 bytes, the least for the group if none is given.
                                                 From 514 blocks on it has layout 2. Exits with 0 where every run ended as it must
"""
import sys

from program import BLOCK, DONE, INSTALLED, NOTHING, OLD, BOOT_NEW, BOOT_OLD, PLAN, FIRST, SECOND, image, in_folder, is_missing

# How far each byte of a torn write has come, in 255 parts: its first half alone, all but its last byte, and two drifts.
TEARS = (
    ("the front half", lambda i, length: 255 if 2 * i < length else 0),
    ("all but the last byte", lambda i, length: 255 if i + 1 < length else 0),
    ("a drift from 0", lambda i, length: (37 * i) % 256),
    ("a drift from 85", lambda i, length: (85 + 37 * i) % 256),
)


def changes(before, after):
    """The places whose bytes are not the same."""
    blocks = (at for at in range(0, len(before), BLOCK) if before[at:at + BLOCK] != after[at:at + BLOCK])
    return [at for block in blocks for at in range(block, min(block + BLOCK, len(before))) if before[at] != after[at]]


def torn(before, after, changed, tear):
    """The contents where the write that made `after` of `before`, at these places, was torn."""
    held = bytearray(before)
    for at in changed:
        part = tear(at - changed[0], changed[-1] - changed[0] + 1)
        # Upwards in an erase, downwards in a program; what has not come all the way stays above what it is to be.
        way = (after[at] - before[at]) * part
        held[at] = before[at] + (way // 255 if way >= 0 else -(-way // 255))
    return bytes(held)


def pairs(plain):
    """Each byte with its complement behind it."""
    return bytes(half for byte in plain for half in (byte, 255 - byte))


def record(layout, number, bank, length):
    """The 64 bytes of a record of software 1.0 and no group."""
    return pairs(b"SSU%d" % layout + number.to_bytes(4, "big") + bytes([bank, 0, 0, 0]) + length.to_bytes(4, "big") + bytes([0, 1]) + bytes(14))


class Places:
    """Where the second area of a flash begins, and in layout 2 its journal, and the slots in it."""

    def __init__(self, blocks):
        area = (blocks - 2) // 2
        self.area = (2 + area) * BLOCK
        self.end = self.area + area * BLOCK
        self.layout = 2 if area * BLOCK >= 1048576 else 1
        marks = area * BLOCK // 512 + 512
        slots = -(-(8448 + -(-2 * marks // 256) * 256) // BLOCK) * BLOCK
        self.journal = self.end - (-(-(slots + 69632) // BLOCK) * BLOCK if self.layout == 2 else 0)
        self.slots = self.journal + slots

    def put_journal(self, held):
        """A journal of an earlier download: a header with its message, three marks and a slot."""
        for at, data in ((self.journal, pairs(b"SSUJ" + bytes(4) + bytes([0, 3]) + bytes(6))), (self.journal + 256, pairs(b"old")),
                         (self.journal + 8448, pairs(bytes(3))), (self.slots + 256, b"kept"), (self.slots, pairs(b"SP" + bytes(4) + bytes([0, 4])))):
            held[at:at + len(data)] = data


class Sweep:
    """The kills of a replay of one group."""

    def __init__(self, folder, files, blocks, spares):
        self.folder = folder
        self.spares = spares
        self.new = b"".join(files)
        self.blocks = blocks or 2 + 2 * max(2, -(-len(self.new) // BLOCK))
        self.taken = {OLD: 0, self.new: 0}
        self.installed = INSTALLED.replace("bytes %d" % len(FIRST + SECOND), "bytes %d" % len(self.new))
        self.boot_new = BOOT_NEW.replace("bytes %d" % len(FIRST + SECOND), "bytes %d" % len(self.new))
        folder.prepare(self.blocks + (int(spares[1]) + 1 if spares else 0))
        folder.must("format", "old.bin", *spares)
        # Each block is sent twice, whatever their number.
        sections = 7 + sum(-(-len(data) // 1000) for data in files)
        folder.write("plan.toml", PLAN.replace("turns = 60", "turns = %d" % (2 * sections)))
        folder.write("first.bin", files[0])
        folder.write("second.bin", files[1])
        folder.must("build")
        # Before the old image boot took another one: its record, its bank and its journal are what the replay erases.
        held = bytearray(folder.read("flash.bin"))
        places = Places(self.blocks)
        held[BLOCK:BLOCK + 64] = record(places.layout, 0, 1, 100)
        held[places.area:places.journal] = image(places.journal - places.area, 5)
        if places.layout == 2:
            places.put_journal(held)
        self.formatted = bytes(held)

    def look(self, what):
        """What must hold of the flash as it is now."""
        booted = self.folder.boot(*self.spares)
        before, after = (DONE, OLD, BOOT_OLD), (DONE, self.new, self.boot_new)
        if booted not in (before, after):
            sys.exit("%s: boot ended with %d, %d bytes and %r" % (what, booted[0], len(booted[1]), booted[2]))
        self.taken[booted[1]] += 1
        again = self.folder.run("replay", *self.spares)
        if again != ((DONE, self.installed) if booted == before else (NOTHING, "nothing level 6 group\n")):
            sys.exit("%s: the second replay ended with %d and %r" % (what, again[0], again[1]))
        if self.folder.boot(*self.spares) != after:
            sys.exit("%s: boot did not take the new image after the second replay" % what)

    def kill(self):
        """Kills at each write. Gives the number of kills and of torn writes."""
        kills, tears, before = 0, 0, None
        while True:
            self.folder.write("flash.bin", self.formatted)
            status = self.folder.run_killed(kills + 1, "replay", *self.spares)
            if status is not None and status != DONE:
                sys.exit("write %d: replay ended with %d" % (kills + 1, status))
            after = self.folder.read("flash.bin")
            self.look("write %d" % (kills + 1))
            if before is not None and before != after:
                changed = changes(before, after)
                for name, tear in TEARS:
                    self.folder.write("flash.bin", torn(before, after, changed, tear))
                    self.look("write %d, %s" % (kills, name))
                    tears += 1
            if status == DONE:
                return kills, tears
            before = after
            kills += 1


def work(folder):
    length = int(sys.argv[1]) if len(sys.argv) > 1 else len(FIRST + SECOND)
    front = length * len(FIRST) // len(FIRST + SECOND)
    for spares in ((), ("spares", "2")):
        sweep = Sweep(folder, (image(front, 0), image(length - front, 77)), int(sys.argv[2]) if len(sys.argv) > 2 else 0, spares)
        kills, tears = sweep.kill()
        if not kills:
            sys.exit("replay ended with no write seen: nothing was killed")
        print("%s of %d bytes on %d blocks: killed at each of its %d writes, and %d times with the write torn; "
              "boot took the old image %d times, the new one %d times"
              % (" ".join(("replay", *spares)), length, sweep.blocks, kills, tears, sweep.taken[OLD], sweep.taken[sweep.new]))
    return 0


if __name__ == "__main__":
    sys.exit(0 if is_missing("strace") else in_folder(work))
