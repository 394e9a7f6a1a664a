#!/usr/bin/env python3
"""Compares status, standard output and standard error of the real program with what must come, case by case.

Each case is a small stream, plan, box or flash whose answer is worked out by hand. Together they show the statuses that a file system can
show, their texts on standard error, and what the adapters over real files give and take.

usage: outside/rows.py            exits with 0 where every answer is as it must be
"""
import os
import resource
import shutil
import sys

import stream as s
from kill_migrate import IMAGE, boot_line, layout_one
from program import (ABSENT, AUDIT_REFUSED, BAD_MODULE, BOX, BOX_REFUSED, BUILD_REFUSED, DONE, FLASH_FAULT, FOREIGN, GEOMETRY, INCOMPLETE, INSTALLED,
                     NO_FIT, NO_MEMORY, NOTHING, OLD, PLAN_REFUSED, READ_FAULT, SHELF_FAULT, TOO_LONG, UNSETTLED, USAGE, WORN, WRITE_FAULT,
                     BLOCK, BOOT_NEW, BOOT_OLD, FIRST, PLAN, SECOND, Ended, Tally, in_folder)

TDT = bytes.fromhex("707005c079124500")
NINE = b"123456789"
SMALL_PLAN = PLAN.replace("turns = 60", "turns = 7").replace("block_size = 1000\n", "").replace('"first.bin", "second.bin"', '"a.bin"')
SCHEDULE = """notice_pid = 257
[schedule]
start = "2024-03-01T01:00:00"
end = "2024-04-01T01:00:00"
period_hours = 24
duration_hours = 2
"""
# A box that knows its service, so that streams made here need no network table.
FIXED = BOX + "[service]\nts = 1\nnetwork = 2\nservice = 3\n"
FITTING, WAY = s.compatibility((7, 1), (1, 2)), [(0, s.pat(1, [(3, s.PMT_PID)])), (s.PMT_PID, s.pmt())]
NONE = "".join("%d none\n" % level for level in range(1, 8))


class Case(Tally):
    """The cases of a folder."""

    def __init__(self, folder):
        super().__init__()
        self.folder = folder

    def answers(self, what, words, status, out="", err=""):
        self.same(what, self.folder.answer(*words), Ended(status, out, "ssu: %s\n" % err if err else ""))

    def hears(self, what, pid, packets, wanted):
        """The sections that `hear` puts out, as bytes."""
        self.folder.write("air.ts", packets)
        self.answers(what, ("hear", str(pid)), DONE, wanted.decode(errors="replace"))

    def on_carousel(self, what, words, messages, status, out, err=""):
        """The command on a carousel of these messages, behind the tables that lead to it."""
        self.folder.write("air.ts", s.stream(WAY + [(s.DATA_PID, message) for message in messages]))
        self.answers(what, words, status, out, err)


def words_of_the_command_line(case):
    case.same("no words", case.folder.answer()[:1] + ("ssu: usage\n",), (USAGE, "ssu: usage\n"))
    for words in (("hear", "8192"), ("hear", "007"), ("hear", "-1"), ("hear", "+1"), ("hear", ""), ("hear",), ("hear", "1", "2"), ("blank", "3"),
                  ("blank", "65537"), ("format", ".hidden"), ("format", "a/b"), ("format", "x" * 65), ("find", "1"), ("audit", "7", "7"), ("audit", "7", "8192"), ("audit",),
                  ("sample",), ("sample", "1000000"), ("sample", "05"), ("sample", "0", "0"), ("replay", "spares", "0"), ("boot", "spares", "256"),
                  ("find", "spares", "4"), ("nothing",), ("",)):
        case.answers(" ".join(words) or "an empty command", words, USAGE, err="usage")


def sections(case):
    case.hears("nothing in an empty stream", 0, b"", b"")
    case.hears("a section in a packet", 20, s.packet(20, 0, True, b"\0" + TDT), TDT)
    case.hears("a rest that is no packet", 20, s.packet(20, 0, True, b"\0" + TDT) + bytes(100), TDT)
    case.hears("two sections in a packet", 20, s.packet(20, 0, True, b"\0" + TDT + TDT), TDT + TDT)
    table = s.pat(1, [(3, 256)])
    case.hears("a table", 0, s.stream([(0, table)]), table)
    damaged = bytearray(s.stream([(0, table)]))
    damaged[14] ^= 4
    case.hears("a table with a wrong bit", 0, damaged, b"")
    long = s.long_section(0x80, 1, bytes((i * 7) % 256 for i in range(4084)))
    packets = s.cut(300, long)
    case.same("packets of the longest section", len(packets), 23)
    case.hears("the longest section", 300, b"".join(packets), long)
    middle = s.long_section(0x80, 2, bytes(400))
    first = s.cut(300, middle, 4)
    case.hears("a repeated packet", 300, b"".join([first[0], first[1], first[1], first[2]]), middle)
    case.hears("a lost packet, and a section after it", 300, b"".join([first[0], first[2]] + s.cut(300, table, 7)), table)
    spliced = packets[:10] + s.cut(300, long[:-1] + bytes([long[-1] ^ 1]), 23)[3:]
    case.hears("two sections spliced", 300, b"".join(spliced), b"")


def times(case):
    case.folder.write("box.toml", BOX)
    for time, word in (("124500", "TDT 1993-10-13T12:45:00"), ("244500", "-")):
        case.folder.write("air.ts", s.stream([(20, s.tdt(49273, time))]))
        case.answers("a time of hour %s" % time[:2], ("show",), DONE, "       0 0014 70    8 %s\n" % word + NONE)
    for time, level in (("2024-03-05T01:00:00", "carousel 258"), ("2024-03-05T02:59:59", "carousel 258"), ("2024-03-05T03:00:00", "none"),
                        ("2024-03-05T00:59:59", "none"), ("2024-04-01T01:00:00", "none")):
        plan = SMALL_PLAN.replace("2024-03-05T02:00:00", time).replace("turns = 7", "turns = 40").replace("[[group]]", SCHEDULE + "[[group]]")
        case.folder.write("a.bin", NINE)
        case.folder.write("plan.toml", plan)
        case.folder.must("build")
        case.same("a window at " + time, case.folder.answer("find").out.split("\n")[4], "5 " + level)


def a_small_broadcast(case):
    folder = case.folder
    folder.write("a.bin", NINE)
    folder.write("plan.toml", SMALL_PLAN)
    case.answers("build", ("build",), DONE, "sections 7 packets 7\n")
    seven = folder.read("air.ts")
    case.answers("load", ("load", "258"), DONE, "loaded group 2147483650 bytes 9\n")
    case.same("the group", folder.read("group.bin"), NINE)
    folder.write("plan.toml", SMALL_PLAN.replace("turns = 7", "turns = 8"))
    case.answers("build, one turn more", ("build",), DONE, "sections 7 packets 8\n")
    eight = folder.read("air.ts")
    case.same("the block is sent again", eight[:-188] + eight[-184:], seven + seven[-184:])
    folder.write("air.ts", seven[:-188])
    case.answers("load without the last packet", ("load", "258"), INCOMPLETE, "incomplete group 2147483650 missing 1\n")
    wrong = [s.dsi([(s.GROUP, 9, FITTING)]), s.dii([(1, 9, 0, s.crc_descriptor(0))]), s.ddb(1, 0, NINE)]
    case.on_carousel("load with a wrong CRC", ("load", "258"), wrong, BAD_MODULE, "bad module 1 want 00000000 found 0376e6e7\n")
    case.answers("load of another PID", ("load", "300"), NOTHING, "nothing level 6 group\n")
    folder.write("plan.toml", SMALL_PLAN.replace("turns = 7", "turns = 40"))
    folder.must("build")
    folder.write("box.toml", BOX)
    case.answers("find", ("find",), DONE, "1 services 1\n2 program 3 pid 256\n3 component 258 type 1\n4 direct\n5 carousel 258\n"
                 "6 groups 1\n7 modules 1 bytes 9\n")
    folder.write("air.ts", b"")
    case.answers("find in an empty stream", ("find",), DONE, NONE)


def audits(case):
    folder = case.folder
    folder.write("a.bin", NINE)
    folder.write("plan.toml", SMALL_PLAN.replace("turns = 7", "turns = 40"))
    folder.must("build")
    whole = folder.read("air.ts")
    case.answers("audit", ("audit", "258"), DONE, "audit ok groups 1 blocks 1\n")
    folder.write("air.ts", whole[:6 * 188])
    case.answers("audit of six turns", ("audit", "258"), AUDIT_REFUSED, "missing 2147483650 place 0\n")
    folder.write("air.ts", b"")
    case.answers("audit of an empty stream", ("audit", "258", "257"), AUDIT_REFUSED, "no dsi\n")
    server, other = s.dsi([(s.GROUP, 9, FITTING)]), b"123456780"
    for what, info, infos, line in (("CRCs", s.crc_descriptor(s.crc(NINE)), s.crc_descriptor(s.crc(other)), "differ dii 1 4\n"),
                                    ("zeros", s.crc_descriptor(0), s.crc_descriptor(0), "differ block 2 5\n")):
        sections = [server, s.dii([(1, 9, 0, info)]), s.ddb(1, 0, NINE), server, s.dii([(1, 9, 0, infos)]), s.ddb(1, 0, other)]
        case.on_carousel("audit of two streams, " + what, ("audit", "258"), sections, AUDIT_REFUSED, line)


def samples(case):
    """The lines of a sample, which touches no file of the folder."""
    for number, modules, length, sections in ((0, 1, 50000, 55), (5, 3, 244000, 246), (999999, 1, 93000, 97)):
        case.answers("sample %d" % number, ("sample", str(number)), DONE, "sample %d modules %d bytes %d sections %d\n"
                     "installed group 2147483650 software 1.2 bytes %d\nboot bank 1 number 2 software 1.2 bytes %d\n"
                     % (number, modules, length, sections, length, length))
    case.same("the folder is empty", os.listdir(case.folder.path), [])


def plans_and_boxes(case):
    folder = case.folder
    folder.write("a.bin", NINE)
    folder.write("plan.toml", SMALL_PLAN.replace('["a.bin"]', '["a.bin", "a.bin"]'))
    case.answers("a file mentioned twice", ("build",), DONE, "sections 8 packets 7\n")
    folder.write("plan.toml", SMALL_PLAN.replace("a.bin", "none.bin"))
    case.answers("a file that is missing", ("build",), ABSENT, err="none.bin is absent")
    folder.write("plan.toml", SMALL_PLAN.replace("turns = 7", "turns = 0"))
    case.answers("a plan without turns", ("build",), PLAN_REFUSED, err="plan refused at turns")
    folder.write("plan.toml", SMALL_PLAN.replace("modules =", "block_size = 1\nmodules ="))
    folder.write("a.bin", bytes(65537))
    case.answers("a file of too many blocks", ("build",), BUILD_REFUSED, err="a.bin is too long")
    folder.write("a.bin", bytes(65536))
    case.answers("too many sections", ("build",), BUILD_REFUSED, err="too many sections: 65542")
    for length, count in ((0, 6), (8132, 8), (8133, 9)):
        folder.write("plan.toml", SMALL_PLAN)
        folder.write("a.bin", bytes(length))
        case.same("the sections of %d bytes" % length, folder.answer("build").out.split()[1], str(count))
    os.remove(folder.file("plan.toml"))
    case.answers("no plan", ("build",), ABSENT, err="plan.toml is absent")
    case.answers("no box", ("find",), ABSENT, err="box.toml is absent")
    folder.write("box.toml", BOX.replace('rule = "newer"\n', ""))
    case.answers("a box without a rule", ("find",), BOX_REFUSED, err="box.toml refused at rule")
    folder.write("box.toml", b"\xFF")
    case.answers("a box that is no text", ("find",), BOX_REFUSED, err="box.toml refused at text")


def offers(case):
    """Which groups a rule admits: the line of level 6."""
    for rule, offered, level in (("newer", (1, 7), "none"), ("newer", (1, 8), "groups 1"), ("newer", None, "none"),
                                 ("different", (1, 7), "none"), ("different", (1, 6), "groups 1"), ("any", None, "groups 1")):
        case.folder.write("box.toml", FIXED.replace("newer", rule).replace("software_version = 1", "software_version = 7"))
        listed = s.dsi([(s.GROUP, 9, s.compatibility((7, 1), offered))])
        case.folder.write("air.ts", s.stream(WAY + [(s.DATA_PID, listed)]))
        case.same("%s, offered %s" % (rule, offered), case.folder.answer("find").out.split("\n")[5], "6 " + level)


def flashes(case):
    folder = case.folder
    folder.write("box.toml", BOX.replace("software_version = 1", "software_version = 2"))
    case.answers("boot without a flash", ("boot",), GEOMETRY, err="flash has a wrong geometry")
    case.answers("migrate without a flash", ("migrate",), GEOMETRY, err="flash has a wrong geometry")
    case.answers("blank", ("blank", "4"), DONE, "blank 4\n")
    case.answers("boot of a blank flash", ("boot",), FOREIGN, err="flash is foreign")
    case.answers("migrate of a blank flash", ("migrate",), FOREIGN, err="flash is foreign")
    folder.write("large.bin", bytes(BLOCK + 1))
    case.answers("an image that does not fit", ("format", "large.bin"), NO_FIT, err="image does not fit")
    folder.write("five.bin", b"image")
    case.answers("format", ("format", "five.bin"), DONE, "formatted bytes 5\n")
    case.same("the record", folder.read("flash.bin")[:16].hex(), "53ac53ac55aa31ce00ff00ff00ff01fe")
    case.answers("boot", ("boot",), DONE, "boot bank 0 number 1 software 1.2 bytes 5\n")
    case.same("the image", folder.read("image.bin"), b"image")
    case.answers("migrate of a flash that is too small", ("migrate",), NO_FIT, err="image does not fit")
    flash = bytearray(folder.read("flash.bin"))
    flash[8:16] = bytes.fromhex("ff00ff00ff00ff00")
    folder.write("flash.bin", flash)
    folder.write("air.ts", b"")
    case.answers("replay with the last number", ("replay",), WORN, err="records are worn out")
    case.answers("migrate with the last number", ("migrate",), WORN, err="records are worn out")
    case.answers("boot with the last number", ("boot",), DONE, "boot bank 0 number 4294967295 software 1.2 bytes 5\n")
    case.same("the flash is as before", folder.read("flash.bin"), flash)
    folder.write("flash.bin", layout_one())
    case.answers("boot of layout 1", ("boot",), DONE, boot_line(7))
    case.answers("migrate", ("migrate",), DONE, "migrated bytes 5000 number 8\n")
    case.answers("boot of layout 2", ("boot",), DONE, boot_line(8))
    case.same("the image of layout 1", folder.read("image.bin"), IMAGE)
    flash = folder.read("flash.bin")
    case.answers("a second migrate", ("migrate",), DONE, "already layout 2 number 8\n")
    case.same("the flash is as the first one left it", folder.read("flash.bin"), flash)


def replays(case):
    folder = case.folder
    folder.prepare()
    before = folder.read("flash.bin")
    case.answers("replay", ("replay",), DONE, INSTALLED)
    case.answers("boot of the update", ("boot",), DONE, BOOT_NEW)
    case.same("the update", folder.read("image.bin"), FIRST + SECOND)
    case.answers("a second replay", ("replay",), NOTHING, "nothing level 6 group\n")
    after = folder.read("flash.bin")
    torn = bytearray(after)
    torn[BLOCK + 62] = torn[BLOCK + 63] = 255
    folder.write("flash.bin", torn)
    case.answers("boot with a record that lacks its last pair", ("boot",), DONE, BOOT_OLD)
    case.same("the old image", folder.read("image.bin"), OLD)
    for length, status, line in ((8192, DONE, "installed group 2147483650 software 1.2 bytes 8192\n"), (8193, NOTHING, "nothing level 7 modules\n")):
        folder.write("flash.bin", before)
        folder.write("first.bin", bytes(length - len(SECOND)))
        folder.must("build")
        case.answers("replay of %d bytes into a bank of 8192" % length, ("replay",), status, line)
    if shutil.which("strace"):
        folder.prepare(22)
        fifth = ("strace", "-f", "-qq", "-o", os.devnull, "-P", folder.file("flash.bin"), "-e", "trace=write", "-e", "inject=write:error=EIO:when=5")
        case.same("replay where the fifth write fails", folder.answer("replay", before=fifth), Ended(FLASH_FAULT, "", "ssu: flash failed\n"))
        case.answers("boot after it", ("boot",), DONE, BOOT_OLD)
        case.answers("the next replay", ("replay",), DONE, INSTALLED)
        case.answers("boot after that", ("boot",), DONE, BOOT_NEW)
    else:
        print("strace is not installed: a write that fails is skipped")


def spares(case):
    """A flash of 11 blocks of which 4 are spares: banks of 2 blocks. A bank of a block more, and its replay, do not fit."""
    folder = case.folder
    folder.prepare(11)
    folder.write("large.bin", bytes(2 * BLOCK + 1))
    case.answers("format with spares", ("format", "old.bin", "spares", "4"), DONE, "formatted bytes %d\n" % len(OLD))
    case.answers("boot with spares", ("boot", "spares", "4"), DONE, BOOT_OLD)
    case.answers("replay with spares", ("replay", "spares", "4"), DONE, INSTALLED)
    case.answers("boot of the update with spares", ("boot", "spares", "4"), DONE, BOOT_NEW)
    case.same("the update with spares", folder.read("image.bin"), FIRST + SECOND)
    case.answers("an image that does not fit beside spares", ("format", "large.bin", "spares", "4"), NO_FIT, err="image does not fit")
    case.answers("so many spares that too few blocks are left", ("boot", "spares", "7"), GEOMETRY, err="flash has a wrong geometry")
    case.answers("as many as are possible", ("format", "old.bin", "spares", "6"), DONE, "formatted bytes %d\n" % len(OLD))


def carousels(case):
    folder = case.folder
    folder.prepare()
    folder.write("box.toml", FIXED)
    before = folder.read("flash.bin")
    other = s.GROUP + 2
    compressed, plain = s.dii([(1, 9, 0, bytes([0x09, 0]))]), s.dii([(1, 9, 0, b"")], other)
    both = s.dsi([(s.GROUP, 9, FITTING), (other, 9, FITTING)])
    case.on_carousel("a compressed group, and one that is not", ("replay",), [both, compressed, plain, s.ddb(1, 0, NINE, other)], DONE,
                     "installed group 2147483652 software 1.2 bytes 9\n")
    one = s.dsi([(s.GROUP, 9, FITTING)])
    for what, message in (("an id twice", s.dii([(1, 9, 0, b""), (1, 9, 0, b"")])), ("a block size of 0", s.dii([(1, 9, 0, b"")], block_size=0)),
                          ("no bytes", s.dii([(1, 0, 0, b"")])), ("a compressed module", compressed)):
        folder.write("flash.bin", before)
        case.on_carousel("a group with " + what, ("replay",), [one, message], NOTHING, "nothing level 7 modules\n")
    usable, none = s.dii([(1, 4000, 0, b"")]), s.dsi([(s.GROUP, 9, s.compatibility((8, 8), (1, 2)))])
    halves = [s.ddb(1, block, bytes([block]) * 1000) for block in range(4)]
    again = [one, usable, *halves[:2], none, one, usable, *halves[2:]]
    case.on_carousel("blocks before the choice was lost", ("replay",), again, INCOMPLETE, "incomplete group 2147483650 missing 2\n")
    case.on_carousel("all blocks after it", ("replay",), again + halves[:2], DONE, "installed group 2147483650 software 1.2 bytes 4000\n")
    versions = [s.dii([(1, 9, count % 2, b"")]) for count in range(17)]
    folder.write("flash.bin", before)
    case.on_carousel("sixteen choices", ("replay",), [one] + versions[:16], INCOMPLETE, "incomplete group 2147483650 missing 1\n")
    folder.write("flash.bin", before)
    case.on_carousel("seventeen choices", ("replay",), [one] + versions, UNSETTLED, "unsettled\n")
    case.answers("boot after them", ("boot",), DONE, BOOT_OLD)


def kept_blocks(case):
    """Layout 2 keeps the blocks of a group that is not whole, for a later choice and for a later replay with the same message."""
    folder = case.folder
    blocks = [bytes([block]) * 1000 for block in range(4)]
    usable, other, wrong = (s.dii([(1, 4000, *rest)]) for rest in ((0, b""), (1, b""), (0, s.crc_descriptor(0))))
    none, one = s.dsi([(s.GROUP, 9, s.compatibility((8, 8), (1, 2)))]), s.dsi([(s.GROUP, 9, FITTING)])
    halves = [s.ddb(1, block, data) for block, data in enumerate(blocks)]
    installed = "installed group 2147483650 software 1.2 bytes 4000\n"
    for spares in ((), ("spares", "2")):
        folder.prepare(523 if spares else 520)
        folder.must("format", "old.bin", *spares)
        folder.write("box.toml", FIXED)
        before = folder.read("flash.bin")

        def replays(what, messages, missing, status=INCOMPLETE, line=None):
            line = line or "incomplete group 2147483650 missing %d\n" % missing
            case.on_carousel(" ".join((what, *spares)), ("replay", *spares), [one, *messages], status, line)

        def boots():
            case.answers(" ".join(("boot of what was kept", *spares)), ("boot", *spares), DONE, "boot bank 1 number 2 software 1.2 bytes 4000\n")
            case.same("the image of what was kept", folder.read("image.bin"), b"".join(blocks))

        replays("two blocks", [usable, *halves[:2]], 2)
        replays("the same two again", [usable, *halves[:2]], 2)
        replays("the other two", [usable, *halves[2:]], 0, DONE, installed)
        boots()
        folder.write("flash.bin", before)
        replays("the other two alone", [usable, *halves[2:]], 2)
        replays("other bytes for one that is kept", [usable, s.ddb(1, 2, bytes(1000))], 2)
        replays("no block", [usable], 2)
        replays("the first two", [usable, *halves[:2]], 0, DONE, installed)
        boots()
        folder.write("flash.bin", before)
        replays("two blocks of a choice that is lost, and then the others", [usable, *halves[:2], none, one, usable, *halves[2:]], 0, DONE, installed)
        boots()
        folder.write("flash.bin", before)
        replays("two blocks of a version", [usable, *halves[:2]], 2)
        replays("another version", [other], 4)
        replays("the former version", [usable], 4)
        replays("two blocks of a module with a wrong CRC", [wrong, *halves[:2]], 2)
        replays("the other two of it", [wrong, *halves[2:]], 0, BAD_MODULE, "bad module 1 want 00000000 found %08x\n" % s.crc(b"".join(blocks)))
        replays("the same module again", [wrong], 4)


def faults_of_files(case):
    folder = case.folder
    case.answers("no stream", ("hear", "0"), READ_FAULT, err="read failed")
    folder.write("air.ts", s.packet(20, 0, True, b"\0" + TDT))
    with open("/dev/full", "wb") as full:
        case.same("a full output", folder.answer("hear", "20", stdout=full)[::2], (WRITE_FAULT, "ssu: write failed\n"))
    reader, writer = os.pipe()
    os.close(reader)
    case.same("an output that nobody reads", folder.answer("hear", "20", stdout=writer)[::2], (WRITE_FAULT, "ssu: write failed\n"))
    os.close(writer)
    os.mkdir(folder.file("box.toml"))
    case.answers("a folder as a file", ("find",), SHELF_FAULT, err="file could not be read")


def limits(case):
    """The longest stream, one byte more, and a group for which there is no memory."""
    folder = case.folder
    folder.write("air.ts", b"")
    os.truncate(folder.file("air.ts"), 16777216 * 188)
    case.answers("the longest stream", ("hear", "0"), DONE)
    os.truncate(folder.file("air.ts"), 16777216 * 188 + 1)
    case.answers("one byte more", ("hear", "0"), TOO_LONG, err="input too long")
    large = s.dii([(1, 100000000, 0, b"")], block_size=4066)
    folder.write("air.ts", s.stream([(s.DATA_PID, s.dsi([(s.GROUP, 100000000, FITTING)])), (s.DATA_PID, large)]))
    case.answers("a large group", ("load", "258"), INCOMPLETE, "incomplete group 2147483650 missing 24595\n")
    ended = folder.answer("load", "258", preexec_fn=lambda: resource.setrlimit(resource.RLIMIT_AS, (64 << 20,) * 2))
    case.same("a large group and little memory", ended, Ended(NO_MEMORY, "", "ssu: out of memory\n"))


def a_night(case):
    """An update of 4 MB in 4,000 turns: installed within its window, and not outside it."""
    folder = case.folder
    for number, (name, length) in enumerate((("a.bin", 2000000), ("b.bin", 2000000), ("c.bin", 194304))):
        folder.write(name, bytes((i + i // 251 + 31 * number) % 256 for i in range(length)))
    plan = SMALL_PLAN.replace("turns = 7", "turns = 4000\nbouquet = 9").replace("[[group]]", SCHEDULE + "[[group]]").replace(
        '["a.bin"]', '["a.bin", "b.bin", "c.bin"]').replace("software_version = 2", "software_version = 8")
    folder.write("plan.toml", plan)
    folder.write("box.toml", BOX.replace("software_version = 1", "software_version = 7"))
    case.same("the sections of a night", folder.answer("build").out.split()[:2], ["sections", "1040"])
    folder.must("blank", "2100")
    folder.must("format", "c.bin")
    case.answers("the replay of a night", ("replay",), DONE, "installed group 2147483650 software 1.8 bytes 4194304\n")
    case.answers("boot in the morning", ("boot",), DONE, "boot bank 1 number 2 software 1.8 bytes 4194304\n")
    case.same("the image of a night", folder.read("image.bin"), b"".join(folder.read(name) for name in ("a.bin", "b.bin", "c.bin")))
    case.answers("the next night", ("replay",), NOTHING, "nothing level 6 group\n")
    folder.write("plan.toml", plan.replace("T02:00:00", "T12:00:00"))
    folder.must("build")
    case.answers("the replay at noon", ("replay",), NOTHING, "nothing level 5 window\n")


def work(folder):
    case = Case(folder)
    for cases in (words_of_the_command_line, sections, times, a_small_broadcast, audits, samples, plans_and_boxes, offers, flashes, replays, spares, carousels,
                  kept_blocks, faults_of_files, limits, a_night):
        folder.clear()
        cases(case)
    return case.end("answers of the program")


if __name__ == "__main__":
    sys.exit(in_folder(work))
