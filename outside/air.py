#!/usr/bin/env python3
"""Compares `air` with a small model of it, on scripts that are made by chance, good and bad.

Each round makes a stream of up to sixty packets, often with a rest behind them, and a script.toml. Where each field is in its range, the
command must make the packets of the model and print how many they are; where one is bad it must name the first, and make nothing. The
numbers are drawn from the same seed each time. At the end `air` meets a stream of exactly 16,777,216 packets, in a file with a hole, and
one with a byte more: the first is taken whole, the second is too long.

usage: outside/air.py [ROUNDS]           exits with 0 where every run was as it must be
"""
import os
import random
import sys

from program import ABSENT, DONE, PLAN_REFUSED, READ_FAULT, TOO_LONG, Ended, Tally, in_folder

PACKET, MOST = 188, 16777216


def aired(script, data):
    """The packets that the script makes of those of the bytes."""
    packets = [bytearray(data[PACKET * n:PACKET * (n + 1)]) for n in range(len(data) // PACKET)]
    for number, offset, byte in script.get("set", ()):
        if number < len(packets):
            packets[number][offset] = byte
    for n in script.get("swap", ()):
        if n + 1 < len(packets):
            packets[n], packets[n + 1] = packets[n + 1], packets[n]
    put = []
    for n, packet in enumerate(packets):
        lost = "drop_every" in script and n < script["drop_until"] and (n + 1) % script["drop_every"] == 0
        if n not in script.get("drop", ()) and not lost:
            put += [packet] * (2 if n in script.get("repeat", ()) else 1)
    return put


def first_bad(script):
    """The first bad field of a script, or None."""
    def numbers(name, gap):
        value = script.get(name, [])
        return (isinstance(value, list) and len(value) <= 65536 and all(isinstance(n, int) and 0 <= n < MOST for n in value)
                and all(m - n >= gap for n, m in zip(value, value[1:])))

    def changes():
        value = script.get("set", [])
        return (isinstance(value, list) and len(value) <= 65536
                and all(isinstance(row, list) and len(row) == 3 and all(isinstance(n, int) for n in row)
                        and 0 <= row[0] < MOST and 0 <= row[1] < PACKET and 0 <= row[2] < 256 for row in value)
                and all(row[:2] < other[:2] for row, other in zip(value, value[1:])))

    def bounded(name, other, least, most):
        if name not in script:
            return other not in script
        return isinstance(script[name], int) and least <= script[name] <= most

    good = {"set": changes(), "swap": numbers("swap", 2), "drop": numbers("drop", 1), "repeat": numbers("repeat", 1),
            "drop_every": bounded("drop_every", "drop_until", 2, 65535), "drop_until": bounded("drop_until", "drop_every", 0, MOST)}
    return next((name for name, is_good in good.items() if not is_good), None)


def rising(chance, gap, most=66):
    """Numbers in ascending order, at least `gap` apart."""
    found, n = [], chance.randrange(8)
    while n < most and len(found) < 12:
        found.append(n)
        n += gap + chance.randrange(9)
    return found


def good_script(chance):
    script = {}
    if chance.random() < 0.6:
        places = sorted({(chance.randrange(66), chance.randrange(PACKET)) for _ in range(chance.randrange(12))})
        script["set"] = [[number, offset, chance.randrange(256)] for number, offset in places]
    for name, gap in (("swap", 2), ("drop", 1), ("repeat", 1)):
        if chance.random() < 0.6:
            script[name] = rising(chance, gap)
    if chance.random() < 0.5:
        script["drop_every"], script["drop_until"] = chance.choice([2, 3, 7, 65535]), chance.choice([0, 1, 30, MOST])
    return script


# Each makes a script bad, or changes it so that it stays good.
SPOILS = [
    lambda script: script.update(set=[[0, PACKET, 1]]),
    lambda script: script.update(set=[[0, 0, 256]]),
    lambda script: script.update(set=[[MOST, 0, 0]]),
    lambda script: script.update(set=[[1, 0, 0], [0, 9, 0]]),
    lambda script: script.update(set=[[1, 5, 0], [1, 5, 9]]),
    lambda script: script.update(set=[[1, 5]]),
    lambda script: script.update(set=[1, 5, 7]),
    lambda script: script.update(set="none"),
    lambda script: script.update(swap=[4, 5]),
    lambda script: script.update(swap=[4, 4]),
    lambda script: script.update(swap=[MOST]),
    lambda script: script.update(swap=[MOST - 1]),
    lambda script: script.update(drop=[7, 6]),
    lambda script: script.update(drop=[-1]),
    lambda script: script.update(drop=3),
    lambda script: script.update(repeat=[7, 7]),
    lambda script: script.update(repeat=["7"]),
    lambda script: script.update(drop_every=1, drop_until=9),
    lambda script: script.update(drop_every=65536, drop_until=9),
    lambda script: script.update(drop_every=9, drop_until=MOST + 1),
    lambda script: script.update(drop_every=9, drop_until=-1),
    lambda script: script.update(drop_every="9", drop_until=9),
    lambda script: (script.pop("drop_until", 0), script.update(drop_every=9)),
    lambda script: (script.pop("drop_every", 0), script.update(drop_until=9)),
    lambda script: (script.pop("drop_every", 0), script.update(drop_until=MOST + 1)),
    lambda script: script.update(unknown=[1, 2], table={"drop": 7}),
    lambda script: script.update(drop=list(range(65536))),
    lambda script: script.update(drop=list(range(65537))),
]


def text_of(value):
    """A value as TOML writes it."""
    if isinstance(value, str):
        return '"%s"' % value
    if isinstance(value, dict):
        return "{ %s }" % ", ".join("%s = %s" % (name, text_of(member)) for name, member in value.items())
    return "[%s]" % ", ".join(map(text_of, value)) if isinstance(value, list) else str(value)


def one(tally, folder, number, script, data):
    """One run of the command, beside the model."""
    folder.clear()
    folder.write("air.ts", data)
    folder.write("script.toml", "".join("%s = %s\n" % (name, text_of(value)) for name, value in script.items()))
    what, bad = "round %d" % number, first_bad(script)
    made = [] if bad else aired(script, data)
    wanted = Ended(PLAN_REFUSED, "", "ssu: plan refused at script.%s\n" % bad) if bad else Ended(DONE, "packets %d\n" % len(made), "")
    tally.same(what, folder.answer("air"), wanted)
    tally.same(what + ", the packets", folder.read("aired.ts") if folder.has("aired.ts") else b"", b"".join(made))


def by_chance(tally, folder, rounds):
    chance = random.Random(1)
    for number in range(rounds):
        script = good_script(chance)
        if number % 4 == 3:
            SPOILS[number // 4 % len(SPOILS)](script)
        data = bytes(chance.randrange(256) for _ in range(PACKET * chance.randrange(61) + chance.choice([0, 0, 1, 100, 187])))
        one(tally, folder, number, script, data)


def refusals(tally, folder):
    folder.clear()
    tally.same("no script", folder.answer("air"), Ended(ABSENT, "", "ssu: script.toml is absent\n"))
    folder.write("script.toml", "drop = [1")
    tally.same("no TOML", folder.answer("air"), Ended(PLAN_REFUSED, "", "ssu: plan refused at script.text\n"))
    folder.write("script.toml", b"# \xff\n")
    tally.same("no UTF-8", folder.answer("air"), Ended(PLAN_REFUSED, "", "ssu: plan refused at script.text\n"))
    folder.write("script.toml", "")
    tally.same("no stream", folder.answer("air"), Ended(READ_FAULT, "", "ssu: read failed\n"))
    tally.same("no file is made", folder.has("aired.ts"), False)


def the_longest(tally, folder):
    """A file with a hole has as many packets as a run takes. What is made of it is thrown away, but for one that a script leaves."""
    folder.clear()
    os.symlink(os.devnull, folder.file("aired.ts"))
    folder.write("script.toml", "drop = [%d]\nrepeat = [0]\n" % (MOST - 1))
    with open(folder.file("air.ts"), "wb") as file:
        file.truncate(PACKET * MOST)
    tally.same("16,777,216 packets", folder.answer("air"), Ended(DONE, "packets %d\n" % MOST, ""))
    with open(folder.file("air.ts"), "ab") as file:
        file.write(b"G")
    tally.same("a byte more", folder.answer("air"), Ended(TOO_LONG, "", "ssu: input too long\n"))


def work(folder):
    tally = Tally()
    by_chance(tally, folder, int(sys.argv[1]) if len(sys.argv) > 1 else 220)
    refusals(tally, folder)
    the_longest(tally, folder)
    return tally.end("streams through scripts")


if __name__ == "__main__":
    sys.exit(in_folder(work))
