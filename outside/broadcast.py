#!/usr/bin/env python3
"""Sends broadcasts that are made by chance through a damaging channel to a box, and compares what boot takes with the files of the plan.

Each round makes a plan of one to three groups with their files, of which some are for the box, and a script of losses, exchanges, repeats
and changed bytes. It plays `build`, `air`, `replay` and `boot` on a flash with an old image. Where `replay` prints `installed`, the group
that it names must be one that is for the box, and the image that boot gives its files, joined; after each other verdict boot must give the
old image. In every second round the script ends early, and the rest of the broadcast has all sections several times: there a group must be
installed, if one is for the box and fits its flash. The numbers of round k are drawn from the seed k.

usage: outside/broadcast.py [ROUNDS]    200 rounds if no number is given; exits with 0 where every round was as it must be
"""
import random
import re
import sys

from program import BAD_MODULE, BLOCK, DONE, INCOMPLETE, NOTHING, UNSETTLED, OLD, Tally, in_folder

PACKET, FIRST_GROUP = 188, 0x80000002
# The hardware of the box, and the version of its software, of model 1. It takes what is newer.
MODEL, VERSION, RUNNING = 7, 1, 5
BOX = """oui = 4660
model = %d
version = %d
rule = "newer"
software_model = 1
software_version = %d
""" % (MODEL, VERSION, RUNNING)
HEAD = """ts = 1
network = 2
%sservice = 3
oui = 4660
time = "2024-03-05T02:00:00"
pmt_pid = 256
data_pid = 258
signal_period = %d
turns = %d
"""
# The window is open at the time of the plan.
NOTICE = """notice_pid = 257
[schedule]
start = "2024-03-01T01:00:00"
end = "2024-04-01T01:00:00"
period_hours = 24
duration_hours = 2
"""
GROUP = """[[group]]
model = %d
version = %d
software_model = 1
software_version = %d
block_size = %d
module_version = %d
modules = [%s]
"""


class Group:
    """A group of a plan: its hardware, its software and its files."""

    def __init__(self, chance, index):
        self.id = FIRST_GROUP + 2 * index
        self.model, self.version = chance.choice([(MODEL, VERSION)] * 4 + [(MODEL, VERSION + 1), (MODEL + 1, VERSION)])
        self.software = chance.choice([RUNNING + 1, RUNNING + 9, RUNNING + 9, RUNNING, RUNNING - 1])
        self.block_size = chance.choice([200, 700, 1024, 4066])
        self.module_version = chance.randrange(256)
        lengths = [chance.choice([0, 1, 3999, chance.randrange(6000)]) for _ in range(chance.randrange(3))] + [1 + chance.randrange(6000)]
        self.files = {"g%df%d.bin" % (index, k): bytes(chance.randrange(256) for _ in range(length)) for k, length in enumerate(lengths)}

    def image(self):
        return b"".join(self.files.values())

    def blocks(self):
        return sum(-(-len(data) // self.block_size) for data in self.files.values())

    def is_for_box(self):
        return (self.model, self.version) == (MODEL, VERSION) and self.software > RUNNING

    def text(self):
        names = ", ".join('"%s"' % name for name in self.files)
        return GROUP % (self.model, self.version, self.software, self.block_size, self.module_version, names)


class Round:
    """A broadcast, and what happens to it."""

    def __init__(self, seed):
        self.chance = random.Random(seed)
        self.ends_early = seed % 2 == 0
        self.groups = [Group(self.chance, index) for index in range(1 + self.chance.randrange(3))]
        self.bouquet, self.notice = self.chance.random() < 0.5, self.chance.random() < 0.5
        self.signal_period = self.chance.choice([5, 20, 50])
        # Two banks that have room for each group, or of one block.
        self.bank = 1 if self.chance.random() < 0.1 else 6
        # With so many sections, each comes again after so many turns at most.
        self.sections = 5 + self.bouquet + self.notice + len(self.groups) + sum(group.blocks() for group in self.groups)
        self.span = max(self.signal_period, self.sections + self.sections // 4) + self.sections
        # A turn sends a packet or more: behind so many turns a script that ends early does nothing.
        self.early = self.chance.randrange(10, 300)
        self.turns = self.early + 8 * self.span if self.ends_early else self.chance.randrange(self.sections // 2 + 1, 3 * self.span)

    def plan(self):
        bouquet = "bouquet = 9\n" if self.bouquet else ""
        return HEAD % (bouquet, self.signal_period, self.turns) + (NOTICE if self.notice else "") + "".join(map(Group.text, self.groups))

    def numbers(self, end, most, gap=1):
        """Some packet numbers below `end`, ascending and `gap` apart."""
        found = sorted(self.chance.sample(range(end), min(end, self.chance.randrange(most))))
        return [n for k, n in enumerate(found) if k == 0 or n - found[k - 1] >= gap]

    def script(self, packets):
        """The script for so many packets. One that ends early does nothing to a packet behind the first ones."""
        end, chance = self.early if self.ends_early else packets, self.chance
        changes = sorted({(n, chance.randrange(PACKET)) for n in self.numbers(end, 40)})
        text = "set = [%s]\n" % ", ".join("[%d, %d, %d]" % (n, offset, chance.randrange(256)) for n, offset in changes)
        # The one behind it changes its place too.
        text += "swap = %s\n" % self.numbers(end - 1, 12, 2)
        text += "drop = %s\nrepeat = %s\n" % (self.numbers(end, 30), self.numbers(end, 30))
        if chance.random() < 0.7:
            text += "drop_every = %d\ndrop_until = %d\n" % (chance.randrange(2, 60), chance.randrange(end))
        return text

    def fitting(self):
        """The groups that the box may install, by their ids."""
        return {group.id: group for group in self.groups if group.is_for_box() and len(group.image()) <= self.bank * BLOCK}


def play(tally, folder, seed):
    """One round. Says whether a group was installed."""
    sent, what = Round(seed), "round %d" % seed
    folder.clear()
    folder.write("box.toml", BOX)
    folder.write("old.bin", OLD)
    folder.write("plan.toml", sent.plan())
    for group in sent.groups:
        for name, data in group.files.items():
            folder.write(name, data)
    built = folder.answer("build")
    packets = len(folder.read("air.ts")) // PACKET
    tally.same(what + ", build", built.out, "sections %d packets %d\n" % (sent.sections, packets))
    folder.write("script.toml", sent.script(packets))
    folder.must("air")
    folder.write("air.ts", folder.read("aired.ts") if folder.has("aired.ts") else b"")
    folder.must("blank", str(2 + 2 * sent.bank))
    folder.must("format", "old.bin")

    replayed, fitting = folder.answer("replay"), sent.fitting()
    named = re.fullmatch(r"installed group (\d+) software 1\.(\d+) bytes (\d+)\n", replayed.out)
    group = fitting.get(int(named[1])) if named else None
    if named:
        tally.same(what + ", the group", bool(group) and (int(named[2]), int(named[3])), bool(group) and (group.software, len(group.image())))
        tally.same(what + ", a group for the box", group is not None, True)
    tally.same(what + ", the status", replayed.status in ((DONE,) if named else (NOTHING, INCOMPLETE, BAD_MODULE, UNSETTLED)), True)
    if sent.ends_early and fitting:
        tally.same(what + ", what was sent to its end", bool(named), True)
    image = group.image() if group else OLD
    head = (1, 2, group.software) if group else (0, 1, RUNNING)
    wanted = (DONE, image, "boot bank %d number %d software 1.%d bytes %d\n" % (*head, len(image)))
    tally.same(what + ", boot", folder.boot(), wanted)
    return bool(named)


def work(folder):
    tally, rounds = Tally(), int(sys.argv[1]) if len(sys.argv) > 1 else 200
    installed = sum(play(tally, folder, seed) for seed in range(rounds))
    print("%d of %d broadcasts were installed" % (installed, rounds))
    return tally.end("broadcasts through scripts")


if __name__ == "__main__":
    sys.exit(in_folder(work))
