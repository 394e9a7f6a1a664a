#!/usr/bin/env python3
"""Kills the program within `replay` up to sixteen times in one download, and looks after each kill at what the flash has kept.

A life is a flash of layout 2, up to sixteen replays that are killed at a random write to flash.bin, the sixteenth at its last, and one that is
not killed. Each replay hears the tables and then all blocks of the group in a random order. Every second kill is torn: of the write in which it
came, an erase or a program, a random front is done, or each byte has come a part of its way. The groups have 10 and 40 blocks of at most 4,066
bytes, by turns. Of six lives two begin where another download was given up, two where one was installed, so that the first area is the spare one,
and two on a flash that `migrate` has just made. Of 24 lives the last 12 have `spares 2` behind the words, on three blocks more.

After each kill the flash is read here, by docs/FORMATS.md ("Flash layouts"): the header of the spare area's journal, its marks and its slots.
`boot` must give the former image, or the whole new one under its record. Each place that was staged before must be staged still with its
bytes, and each place that is staged must have the bytes of the group. As many more must be staged as the writes before the kill were enough
for. The free slots less the lost places must not have become fewer by more than one. `replay` of the tables alone must miss just the places that
are not staged, and `replay` of the tables with the blocks of those places alone must install the group, so that no block that was stored is
fetched again. It is a try on the real program and a real file, and no proof.

The kills are made by strace, which stops the program as it enters the call, so the write that it enters is not made. A torn one is made of
what the file held at this kill and at the next. Without strace the script says so and ends with 0.

usage: outside/kill_journal.py [SEED [LIVES]]   for the numbers that chance gives of SEED, 1 if none is given, and so many lives, 24 if none
                                                are given. Exits with 0 where all was as it must be
"""
import collections
import random
import sys

from program import BLOCK, BOX, DONE, INCOMPLETE, NOTHING, PLAN, in_folder, is_missing
from kill_replay import Places, changes, record, torn

BLOCKS = 520
KILLS = 16
SLOT, SLOTS = 4352, 16
# Programs for a block, its mark or the head of its slot among them, at most.
WRITES = 18
# The files of a group: 10 blocks in one of them, 40 in two with a short block at the end of each.
GROUPS = ((40660,), (24 * 4066 + 1234, 14 * 4066 + 1))
GROUP = 2147483650
BLANK, MARKED = b"\xff\xff", b"\x00\xff"

Record = collections.namedtuple("Record", "number bank length")
Staged = collections.namedtuple("Staged", "places slotted lost free")


def plain(held):
    """The bytes that stand in pairs, or None where a pair does not sum to 255."""
    return bytes(held[::2]) if all(a + b == 255 for a, b in zip(held[::2], held[1::2])) else None


class Area:
    """Where an area of the flash, its journal and the slots in that lie."""

    def __init__(self, bank):
        second = Places(BLOCKS)
        back = (1 - bank) * (second.end - second.area)
        self.bank, self.journal, self.slots = second.area - back, second.journal - back, second.slots - back

    def header(self, held):
        """Number and message of the journal's header, or None where that is not valid."""
        fixed = plain(held[self.journal:self.journal + 32])
        if fixed is None or fixed[:4] != b"SSUJ" or any(fixed[10:]):
            return None
        length = int.from_bytes(fixed[8:10], "big")
        message = plain(held[self.journal + 256:self.journal + 256 + 2 * length]) if 1 <= length <= 4084 else None
        return None if message is None else (int.from_bytes(fixed[4:8], "big"), message)

    def mark(self, held, number):
        at = self.journal + 8448 + 2 * number
        return held[at:at + 2]

    def taken(self, held):
        """Place and bytes of each valid slot, in order."""
        for k in range(SLOTS):
            at = self.slots + SLOT * k
            head = plain(held[at:at + 16])
            if head is None or head[:2] != b"SP":
                continue
            place, length = int.from_bytes(head[2:6], "big"), int.from_bytes(head[6:8], "big")
            if 1 <= length <= 4066 and place + length <= self.journal - self.bank:
                yield place, held[at + 256:at + 256 + length]

    def free(self, held):
        """How many slots are blank throughout."""
        return sum(held[at:at + SLOT].count(255) == SLOT for at in range(self.slots, self.slots + SLOT * SLOTS, SLOT))


def current(held):
    """The current record of a flash of layout 2."""
    def records():
        for at in (0, BLOCK):
            text = plain(held[at:at + 64])
            if text is not None and text[:4] == b"SSU2":
                yield Record(int.from_bytes(text[4:8], "big"), text[8], int.from_bytes(text[12:16], "big"))
    return max(records())


def booted(held):
    """The image of the current record: its bank, with the bytes of the slots laid over."""
    now = current(held)
    area = Area(now.bank)
    image = bytearray(held[area.bank:area.journal])
    for place, text in area.taken(held):
        image[place:place + len(text)] = text
    return bytes(image[:now.length])


def staged(held, group):
    """What the spare area keeps of a group: bytes by the number of the place, and how many are lost. None where nothing is staged."""
    now = current(held)
    area = Area(1 - now.bank)
    if area.header(held) != (now.number + 1, group.message):
        return None
    numbers = {place: number for number, place in enumerate(group.places)}
    slots = [((at, len(text)), text) for at, text in area.taken(held)]
    marked = [number for number in range(len(group.places)) if area.mark(held, number) == MARKED]
    slotted = {numbers[place]: text for place, text in slots if place in numbers}
    if len(slotted) < len(slots) or any(number in slotted for number in marked):
        return None
    def in_bank(number):
        at, length = group.places[number]
        return held[area.bank + at:area.bank + at + length]
    places = {**{number: in_bank(number) for number in marked}, **slotted}
    lost = [number for number in range(len(group.places)) if number not in places
            and (area.mark(held, number) != BLANK or in_bank(number).count(255) < group.places[number][1])]
    return Staged(places, slotted, lost, area.free(held)) if len(lost) <= area.free(held) else None


class Group:
    """A group, and the packets of the tables and of each block as `build` makes them."""

    def __init__(self, folder, lengths, version, chance):
        # A place of 255 alone would be blank also where it is stored in part.
        files = [chance.randbytes(length).replace(b"\xff", b"\x00") for length in lengths]
        names = ["file%d.bin" % k for k in range(len(files))]
        self.image = b"".join(files)
        self.places = [(sum(lengths[:k]) + at, min(4066, lengths[k] - at)) for k in range(len(lengths)) for at in range(0, lengths[k], 4066)]
        for name, data in zip(names, files):
            folder.write(name, data)
        # Each section is sent once.
        text = PLAN.replace('"first.bin", "second.bin"', ", ".join('"%s"' % name for name in names)).replace("block_size = 1000", "block_size = 4066")
        folder.write("plan.toml", text.replace("software_version = 2", "software_version = %d" % version).replace(
            "turns = 60", "turns = %d" % (6 + len(self.places))))
        folder.must("build")
        air = folder.read("air.ts")
        sections = []
        for at in range(0, len(air), 188):
            packet = air[at:at + 188]
            if packet[1] & 0x40:
                sections.append([])
            sections[-1].append(packet)
        blocks = [k for k, packets in enumerate(sections) if packets[0][5] == 0x3C]
        self.tables = [packets for k, packets in enumerate(sections) if k not in blocks]
        self.blocks = [sections[k] for k in blocks]
        # The last of the tables is the DII.
        section = b"".join(packet[5 if k == 0 else 4:] for k, packet in enumerate(self.tables[-1]))
        self.message = section[8:(section[1] % 16) * 256 + section[2] - 1]
        if len(self.blocks) != len(self.places) or self.message[2:4] != b"\x10\x02":
            sys.exit("the stream is not the one that was wanted")
        self.installed = "installed group %d software 1.%d bytes %d\n" % (GROUP, version, len(self.image))
        self.version = version

    def stream(self, numbers):
        """The tables and the blocks of these numbers, in this order."""
        counters, out = {}, bytearray()
        for packets in self.tables + [self.blocks[number] for number in numbers]:
            for packet in packets:
                pid = packet[1] % 32, packet[2]
                counters[pid] = counter = (counters.get(pid, -1) + 1) % 16
                out += packet[:3] + bytes([packet[3] & 0xF0 | counter]) + packet[4:]
        return bytes(out)


class Life:
    """One download with its kills."""

    def __init__(self, folder, number, chance, counts):
        self.folder, self.number, self.chance, self.counts = folder, number, chance, counts
        folder.clear()
        folder.write("box.toml", BOX.replace("software_version = 1", "software_version = 0"))
        folder.write("old.bin", chance.randbytes(700))
        self.spares = ("spares", "2") if number // 12 % 2 else ()
        self.replay = ("replay", *self.spares)
        folder.must("blank", str(BLOCKS + 3 if self.spares else BLOCKS))
        folder.must("format", "old.bin", *self.spares)
        earlier = Group(folder, (50000,), 1, chance)
        if number // 2 % 3 == 0:
            folder.write("air.ts", earlier.stream(range(5)))
            found = folder.run(*self.replay), len(staged(folder.read("flash.bin"), earlier).places)
            wanted = (INCOMPLETE, "incomplete group %d missing %d\n" % (GROUP, len(earlier.places) - 5)), 5
        elif number // 2 % 3 == 1:
            found, wanted = folder.run(*self.replay), (DONE, earlier.installed)
        else:
            held = folder.read("flash.bin")
            folder.write("flash.bin", record(1, 1, 0, 700) + held[64:])
            found, wanted = folder.run("migrate", *self.spares), (DONE, "migrated bytes 700 number 2\n")
        if found != wanted:
            sys.exit("what came before ended with %r, and not with %r" % (found, wanted))
        self.group = Group(folder, GROUPS[number % 2], 2, chance)
        self.held = folder.read("flash.bin")
        self.old, now = folder.boot(*self.spares), current(self.held)
        if self.old[0] != DONE or self.old[1] != booted(self.held):
            sys.exit("boot before the first kill ended with %d and %r" % (self.old[0], self.old[2]))
        self.new = (DONE, self.group.image, "boot bank %d number %d software 1.2 bytes %d\n" % (1 - now.bank, now.number + 1, len(self.group.image)))
        self.kept = None
        # How many writes come before the first block.
        self.begin = self.count_writes(())

    def count_writes(self, numbers):
        """How many writes a replay of these blocks makes, from the contents as they stand."""
        self.folder.write("flash.bin", self.held)
        self.folder.write("air.ts", self.group.stream(numbers))
        told = self.folder.file("calls.txt")
        strace = ("strace", "-f", "-qq", "-o", told, "-P", self.folder.file("flash.bin"), "-e", "trace=write,pwrite64,writev")
        self.folder.run(*self.replay, before=strace)
        return self.folder.read("calls.txt").count(b"write")

    def run_killed(self, at):
        """A replay from the contents as they stand that is killed at a write: whether it was, and the contents then."""
        self.folder.write("flash.bin", self.held)
        status = self.folder.run_killed(at, *self.replay)
        if status not in (None, DONE):
            sys.exit("write %d: replay ended with %d" % (at, status))
        return status is None, self.folder.read("flash.bin")

    def tear(self, at, before, is_front):
        """The contents where the write of that number was done in part, when `before` were those just before it."""
        _, after = self.run_killed(at + 1)
        changed = changes(before, after)
        if not changed:
            return before
        self.counts["torn"] += 1
        front, drift = self.chance.randint(0, changed[-1] + 1 - changed[0]), self.chance.randrange(256)
        return torn(before, after, changed, lambda i, length: 255 * (i < front) if is_front else (drift + 37 * i) % 256)

    def missing(self):
        return [number for number in range(len(self.group.places)) if self.kept is None or number not in self.kept.places]

    def next_kill(self, kill, order):
        """At which write the next kill comes."""
        if kill == KILLS - 1:
            return self.count_writes(order)
        behind = self.chance.randint(1, max(1, 2 * WRITES * len(self.missing()) // (KILLS - kill)))
        if self.kept is not None:
            return behind
        # The first write erases the record, the next ones the journal and then the bank; the last ones before a block make the header.
        places = Places(BLOCKS)
        bank = 2 + (places.end - places.journal) // BLOCK
        return self.chance.choice((1, 2, bank, self.begin - self.chance.randrange(3)) + 4 * (self.begin + behind,))

    def look(self, what, least):
        """What must hold of the contents after a kill, of which at least so many places are staged. Says whether the new image is taken."""
        def wrong(text, *values):
            sys.exit("%s: %s" % (what, text % values))
        self.folder.write("flash.bin", self.held)
        taken = self.folder.boot(*self.spares)
        if taken not in (self.old, self.new) or taken[1] != booted(self.held):
            wrong("boot ended with %d, %d bytes and %r", taken[0], len(taken[1]), taken[2])
        if taken == self.new:
            if self.folder.run(*self.replay) != (NOTHING, "nothing level 6 group\n"):
                wrong("the new image is taken, and a replay does not say so")
            return True
        was, self.kept = self.kept, staged(self.held, self.group)
        places = self.kept.places if self.kept else {}
        for number, text in places.items():
            at, length = self.group.places[number]
            if text != self.group.image[at:at + length]:
                wrong("place %d is staged with bytes that are not the group's", number)
        gone = [number for number in was.places if number not in places] if was else []
        if gone:
            self.counts["again"] += len(gone)
            print("%s: no longer staged: %s" % (what, gone))
        elif len(places) < least:
            wrong("%d places are staged, and not %d", len(places), least)
        if was and self.kept and self.kept.free - len(self.kept.lost) < was.free - len(was.lost) - 1:
            wrong("free slots and lost places were %d and %d and are %d and %d", was.free, len(was.lost), self.kept.free, len(self.kept.lost))
        rest = self.missing()
        self.folder.write("air.ts", self.group.stream(()))
        line = (INCOMPLETE, "incomplete group %d missing %d\n" % (GROUP, len(rest))) if rest else (DONE, self.group.installed)
        found = self.folder.run(*self.replay)
        if found != line:
            wrong("with the tables alone replay ended with %d and %r, where %d places are not staged", found[0], found[1], len(rest))
        self.finish(what, rest)
        return False

    def finish(self, what, numbers):
        """A replay of the tables and of these blocks alone must install the group."""
        self.chance.shuffle(numbers)
        self.folder.write("flash.bin", self.held)
        self.folder.write("air.ts", self.group.stream(numbers))
        found = self.folder.run(*self.replay)
        if found != (DONE, self.group.installed):
            sys.exit("%s: with %d blocks alone replay ended with %d and %r" % (what, len(numbers), *found))
        if self.folder.boot(*self.spares) != self.new:
            sys.exit("%s: boot did not take the new image in the end" % what)

    def live(self):
        order = list(range(len(self.group.places)))
        for kill in range(KILLS):
            self.chance.shuffle(order)
            at = self.next_kill(kill, order)
            self.folder.write("air.ts", self.group.stream(order))
            is_killed, after = self.run_killed(at)
            if not is_killed:
                break
            self.counts["kills"] += 1
            if (kill + self.number // 6) % 2:
                after = self.tear(at, after, kill // 2 % 2 == 0)
            rest, lost = self.missing(), set(self.kept.lost if self.kept else ())
            least = len(order) - len(rest) + min(len(rest), max(0, at - 1 - (0 if self.kept else self.begin)) // WRITES)
            self.held = after
            if self.look("life %d, kill %d at write %d" % (self.number, kill + 1, at), least):
                break
            if self.kept:
                self.counts["lost"] += len(set(self.kept.lost) - lost)
                self.counts["stored"] += len(rest) - len(self.missing())
        else:
            self.finish("life %d" % self.number, self.missing())
        if self.folder.boot(*self.spares) != self.new:
            sys.exit("life %d: boot did not take the new image in the end" % self.number)
        held = self.folder.read("flash.bin")
        self.counts["slots"] += len(list(Area(current(held).bank).taken(held)))


def work(folder):
    seed = int(sys.argv[1]) if len(sys.argv) > 1 else 1
    lives = int(sys.argv[2]) if len(sys.argv) > 2 else 24
    counts = collections.Counter(again=0)
    for life in range(lives):
        Life(folder, life, random.Random("%d %d" % (seed, life)), counts).live()
    print("seed %d: %d lives, %d kills, of which %d with the write torn; %d blocks stored before a kill, %d lost by one, %d in slots in the end; "
          "fetched again: %d" % (seed, lives, counts["kills"], counts["torn"], counts["stored"], counts["lost"], counts["slots"], counts["again"]))
    return 0 if counts["kills"] and not counts["again"] else 1


if __name__ == "__main__":
    sys.exit(0 if is_missing("strace") else in_folder(work))
