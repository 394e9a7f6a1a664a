#!/usr/bin/env python3
"""Compares `audit` with a reader in Python, on streams of `build` that are damaged by chance, and each yes with what `replay` then installs.

A round damages the packets of a plan: by a script of `air`, by other bytes in sections whose CRC is made right again, by another module, DSI
or notice, by sections in another order or left out, or by a second plan behind the first. The reader of heard.py hears the same packets. Its answer must be that of
the command; and of each no it shows what the line names: two sections with one key, or of one kind, that are not the same, or the group that is
not as its DSI and DII say. For each yes the carousel is then sent to a box in another order and with losses: `replay` installs the files of the
plan, or nothing. At the end there are a carousel of 65,536 blocks and one of one more. The numbers are drawn from the same seed each time.

usage: outside/audit.py [ROUNDS]         exits with 0 where every run was as it must be
"""
import random
import struct
import sys

import heard
from program import AUDIT_REFUSED, BAD_MODULE, BOX, DONE, FIRST, INCOMPLETE, INSTALLED, NOTHING, OLD, PLAN, SECOND, Ended, Tally, in_folder
from stream import DATA_PID, GROUP, compatibility, crc, cut, ddb, dii, dsi

NOTICE_PID, MOST_KEYS = 257, 65536
NOTICED = PLAN.replace("turns = 60", "notice_pid = %d\nturns = 60" % NOTICE_PID)


# ---- the answer, by the definitions of docs/FORMATS.md

def fact_at(sections, pid):
    """The first fact against a section: its line, and what it names."""
    keys, diis, first_dsi = {}, {}, None
    for number, (on, section, _) in enumerate(sections):
        if on != pid:
            continue
        block, control, server = heard.ddb(section), heard.dii(section), heard.dsi(section)
        if block is not None:
            if block.key not in keys and len(keys) == MOST_KEYS:
                return "too many blocks %d" % (MOST_KEYS + 1), ()
            first, data = keys.setdefault(block.key, (number, block.data))
            if data != block.data:
                return "differ block %d %d" % (first, number), (first, number)
        elif control is not None:
            first, known = diis.setdefault(control.transaction, (number, control.message))
            if known != control.message:
                return "differ dii %d %d" % (first, number), (first, number)
        elif server is not None:
            first_dsi = first_dsi or (number, server.message)
            if first_dsi[1] != server.message:
                return "differ dsi %d %d" % (first_dsi[0], number), (first_dsi[0], number)
    return None


def against_group(group, diis, blocks):
    """The first fact against a group of the DSI."""
    known = next((dii for dii in diis if dii.transaction == group.id), None)
    if known is None:
        return "no dii %d" % group.id
    if not heard.is_usable(known):
        return "unusable %d" % group.id
    total = sum(module.size for module in known.modules)
    if group.size != total:
        return "size %d listed %d total %d" % (group.id, group.size, total)
    place, texts = 0, []
    for module in known.modules:
        text = b""
        for block in range(heard.blocks_of(module, known.block_size)):
            data = blocks.get((known.download, module.id, module.version, block))
            if data is None or len(data) != min(known.block_size, module.size - block * known.block_size):
                return "missing %d place %d" % (group.id, place)
            place, text = place + 1, text + data
        texts.append((module, text))
    for module, text in texts:
        wanted = heard.descriptor(module.info, 0x05)
        if wanted is not None and len(wanted) == 4 and int.from_bytes(wanted, "big") != crc(text):
            return "bad module %d %d" % (group.id, module.id)
    return None


def fact_at_end(sections, pid):
    """The first fact against all sections, or the line of a yes."""
    carousel = [section for on, section, _ in sections if on == pid]
    servers, diis = list(filter(None, map(heard.dsi, carousel))), list(filter(None, map(heard.dii, carousel)))
    blocks = {}
    for block in filter(None, map(heard.ddb, carousel)):
        blocks.setdefault(block.key, block.data)
    if not servers:
        return "no dsi"
    groups = servers[0].groups
    for group in groups:
        fact = against_group(group, diis, blocks)
        if fact is not None:
            return fact
    known = [entry for group in groups for entry in group.hardware]
    for number, (on, section, _) in enumerate(sections):
        platforms = heard.unt(section) if on != pid else None
        if platforms is not None and any(entry not in known for platform in platforms for entry in platform):
            return "notice apart %d" % number
    return "audit ok groups %d blocks %d" % (len(groups), len(blocks))


def is_shown(sections, line, named):
    """Whether two sections that a line names really are of one kind and key, and not the same."""
    one, other = (sections[number][1] for number in named)
    if line.startswith("differ block"):
        return heard.ddb(one).key == heard.ddb(other).key and heard.ddb(one).data != heard.ddb(other).data
    if line.startswith("differ dii"):
        return heard.dii(one).transaction == heard.dii(other).transaction and heard.body(one, 0x3B) != heard.body(other, 0x3B)
    return heard.dsi(one) is not None and heard.dsi(other) is not None and heard.body(one, 0x3B) != heard.body(other, 0x3B)


# ---- damage

def right_again(section):
    """The section with its CRC made right."""
    return bytes(section[:-4]) + crc(section[:-4]).to_bytes(4, "big")


def sent(sections):
    """The packets of sections, each with its PID, whose counters go on."""
    counters, packets = {}, []
    for pid, section in sections:
        made = cut(pid, section, counters.get(pid, 0))
        counters[pid] = (counters.get(pid, 0) + len(made)) % 16
        packets += made
    return b"".join(packets)


def others(data):
    """All sections of a stream on the PIDs of the plan, in their order, with their PIDs."""
    return [(pid, section) for pid, section, _ in heard.heard(data, (0, 16, 20, 256, NOTICE_PID, DATA_PID))]


def by_script(chance, folder, data):
    """What `air` makes of the packets."""
    count = len(data) // 188
    numbers = sorted(chance.sample(range(count), chance.randrange(1, 12)))
    lines = ["drop = %s" % numbers[::2], "repeat = %s" % numbers[1::2]]
    if chance.random() < 0.5:
        lines += ["drop_every = %d" % chance.randrange(5, 60), "drop_until = %d" % chance.randrange(count)]
    if chance.random() < 0.5:
        places = sorted({(chance.randrange(count), chance.randrange(188)) for _ in range(chance.randrange(1, 6))})
        lines.append("set = %s" % [[number, offset, chance.randrange(256)] for number, offset in places])
    folder.write("script.toml", "\n".join(lines) + "\n")
    folder.must("air")
    return folder.read("aired.ts")


def by_bytes(chance, _, data):
    """Other bytes in some sections of the carousel or its notice, whose CRCs are right."""
    sections = others(data)
    places = [n for n, (pid, _) in enumerate(sections) if pid in (DATA_PID, NOTICE_PID)]
    for n in chance.sample(places, chance.randrange(1, 3)):
        pid, section = sections[n]
        changed = bytearray(section)
        changed[chance.choice([chance.randrange(8, len(section) - 4), chance.randrange(8, min(60, len(section) - 4))])] ^= 1 << chance.randrange(8)
        sections[n] = (pid, right_again(changed))
    return sent(sections)


def everywhere(sections, changes):
    """Each section with the bytes that stand in it changed, and its CRC right."""
    made = []
    for pid, section in sections:
        for old, new in changes:
            if pid in (DATA_PID, NOTICE_PID) and old in section[8:-4]:
                section = right_again(section[:8] + section[8:-4].replace(old, new) + section[-4:])
        made.append((pid, section))
    return made


def by_fields(chance, _, data):
    """One field everywhere: the size in the DSI, a module's size, its CRC, its version, the block size, or the hardware of the notice."""
    sections = others(data)
    total = struct.pack(">II", GROUP, len(FIRST + SECOND))
    module, size = struct.pack(">HIBB", 1, len(FIRST), 0, 6), struct.pack(">IH", GROUP, 1000)
    value = struct.pack(">BBI", 5, 4, crc(SECOND))
    change = chance.choice([
        (total, struct.pack(">II", GROUP, chance.randrange(9999))),
        (module, struct.pack(">HIBB", 1, chance.randrange(4000), 0, 6)),
        (module, struct.pack(">HIBB", 1, len(FIRST), 1, 6)),
        (module, struct.pack(">HIBB", 2, len(FIRST), 0, 6)),
        (size, struct.pack(">IH", GROUP, chance.choice([0, 999, 1001, 4067]))),
        (value, struct.pack(">BBI", chance.choice([5, 6, 9]), 4, chance.randrange(1 << 32)))])
    if chance.random() < 0.25:
        old, new = struct.pack(">HHB", 7, 1, 0), struct.pack(">HHB", 7, 2, 0)
        return sent([pair for pair in sections if pair[0] != NOTICE_PID] + everywhere([pair for pair in sections if pair[0] == NOTICE_PID], [(old, new)]))
    return sent(everywhere(sections, [change]))


def by_order(chance, _, data):
    """The sections in another order, some of them left out."""
    sections = others(data)
    chance.shuffle(sections)
    return sent(sections[:chance.randrange(len(sections) // 2, len(sections) + 1)])


def by_front(chance, _, data):
    """Only the front of the stream, down to nothing."""
    return data[:188 * chance.choice([0, chance.randrange(40), chance.randrange(len(data) // 188)])]


def by_second(chance, folder, data):
    """Another plan behind the first: other files, or the same, in blocks of another size or of another version."""
    second = bytearray(SECOND)
    second[chance.randrange(len(SECOND))] ^= 1
    folder.write("second.bin", chance.choice([bytes(second), SECOND, SECOND + b"\0"]))
    folder.write("plan.toml", NOTICED.replace("block_size = 1000", "block_size = 1000\nmodule_version = %d" % chance.randrange(2)))
    folder.must("build")
    made = folder.read("air.ts")
    folder.write("second.bin", SECOND)
    folder.write("plan.toml", NOTICED)
    return data + everywhere_without_crc(made) if chance.random() < 0.5 else data + made


def everywhere_without_crc(data):
    """The stream with other tags in place of those of the CRC descriptors."""
    return sent(everywhere(others(data), [(struct.pack(">BB", 5, 4), struct.pack(">BB", 0x7F, 4))]))


DAMAGES = [by_script, by_bytes, by_bytes, by_fields, by_order, by_front, by_second]


# ---- rounds

def one(tally, folder, what, data, noticed):
    """One run of the command, beside the reader. Gives the line."""
    folder.write("air.ts", data)
    sections = heard.heard(data, (DATA_PID, NOTICE_PID) if noticed else (DATA_PID,))
    at = fact_at(sections, DATA_PID)
    line, named = at if at is not None else (fact_at_end(sections, DATA_PID), ())
    status = DONE if line.startswith("audit ok") else AUDIT_REFUSED
    words = ("audit", str(DATA_PID), str(NOTICE_PID)) if noticed else ("audit", str(DATA_PID))
    tally.same(what, folder.answer(*words), Ended(status, line + "\n", ""))
    if named:
        tally.same(what + ": the sections differ", is_shown(sections, line, named), True)
    return line


def to_boxes(tally, folder, chance, what, data):
    """A stream that was audited, in another order and with losses: what a box installs is what the plan says, or nothing."""
    sections, places = others(data), []
    ways = [pair for pair in sections if pair[0] != DATA_PID]
    carousel = [pair for pair in sections if pair[0] == DATA_PID]
    front = [pair for pair in carousel if pair[1][0] == 0x3B]
    for pair in carousel:
        if chance.random() < 0.9:
            places += [pair] * chance.choice([1, 1, 1, 2])
    chance.shuffle(places)
    folder.write("air.ts", sent(ways + (front[:2] if chance.random() < 0.8 else []) + places))
    folder.must("blank", "6")
    folder.must("format", "old.bin")
    ended, (_, image, _) = folder.answer("replay"), folder.boot()
    installed = ended.status == DONE
    tally.same(what + ": the verdict", ended.status in (DONE, NOTHING, INCOMPLETE) and ended.status != BAD_MODULE, True)
    tally.same(what + ": the image", (ended.out if installed else INSTALLED, image), (INSTALLED, FIRST + SECOND if installed else OLD))
    return installed


def most_blocks(tally, folder):
    """A carousel of 65,536 blocks of one byte, and one block more."""
    sections = [dsi([(GROUP, MOST_KEYS, compatibility((7, 1)))]), dii([(1, MOST_KEYS, 0, b"")], block_size=1)]
    sections += [ddb(1, block, b"x") for block in range(MOST_KEYS)]
    most = one(tally, folder, "65,536 blocks", sent([(DATA_PID, section) for section in sections]), False)
    tally.same("65,536 blocks", most, "audit ok groups 1 blocks 65536")
    sections += [ddb(1, 7, b"x"), ddb(2, 0, b"x")]
    more = one(tally, folder, "one block more", sent([(DATA_PID, section) for section in sections]), False)
    tally.same("one block more", more, "too many blocks 65537")


def work(folder):
    tally, chance, lines, installed, sent_on = Tally(), random.Random(1), {}, 0, 0
    for name, data in (("box.toml", BOX), ("plan.toml", NOTICED), ("first.bin", FIRST), ("second.bin", SECOND), ("old.bin", OLD)):
        folder.write(name, data)
    folder.must("build")
    whole = folder.read("air.ts")
    yes = one(tally, folder, "the whole stream", whole, True)
    tally.same("the whole stream", yes, "audit ok groups 1 blocks 6")
    for number in range(int(sys.argv[1]) if len(sys.argv) > 1 else 200):
        folder.write("air.ts", whole)
        data = DAMAGES[number % len(DAMAGES)](chance, folder, whole)
        line = one(tally, folder, "round %d" % number, data, chance.random() < 0.7)
        kind = " ".join(word for word in line.split() if not word.isdigit())
        lines[kind] = lines.get(kind, 0) + 1
        if line.startswith("audit ok") and sent_on < 48:
            sent_on += 1
            installed += to_boxes(tally, folder, chance, "round %d sent on" % number, data)
    most_blocks(tally, folder)
    for kind in sorted(lines):
        print("%4d %s" % (lines[kind], kind))
    print("%d of %d streams with a yes were installed in another order and with losses" % (installed, sent_on))
    tally.same("some were installed", installed > 0, True)
    return tally.end("damaged streams audited")


if __name__ == "__main__":
    sys.exit(in_folder(work))
