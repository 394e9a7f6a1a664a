#!/usr/bin/env python3
"""Compares sections with what independent decoders read in them.

The sections of SECTIONS are those of crates/format_tests/src/si_table_outside.rt. Each is put into a transport stream, which
tshark (Wireshark) and libdvbpsi (by the small program tables.c) read; the fields that they print must be the
ones stated here, and tshark must find each CRC right. A tool that is not installed is skipped, and said to be.

usage: outside/tables.py            exits with 0 where all tools that are there agree
       outside/tables.py --print    prints the sections as hexadecimal digits
"""
import os
import re
import shutil
import subprocess
import sys
import tempfile

from stream import crc

HERE = os.path.dirname(os.path.abspath(__file__))
LINKAGE = "4a0c 0001 0002 0003 09 04 001234 00"

# The table, its PID, its bytes (the length field is set to fit, and `crc` stands for CRC_32) and its fields.
SECTIONS = [
    ("PAT", 0x0000, "00b000 0001c10000 0000e010 0003e100 0004e1f0 crc",
     ["ts=1", "program=0:16", "program=3:256", "program=4:496"]),
    ("PMT", 0x0100, "02b000 0003c10000 ffff f000 05 e103 f00e 520101 6609 000a 06 001234 f2 c0 00"
                    " 0b e102 f003 520102 crc",
     ["program=3", "pcr=8191", "stream=5:259", "component=1", "descriptor=102:9", "stream=11:258", "component=2"]),
    ("NIT", 0x0010, "40f000 0002c10000 f00e " + LINKAGE + " f00b 0001 0002 f005 4103 0003 0c crc",
     ["id=2", "linkage=1:2:3:9", "entry=1:2", "descriptor=65:3"]),
    ("BAT", 0x0011, "4af000 0102c10000 f00e " + LINKAGE + " f00b 0001 0002 f005 4103 0003 0c crc",
     ["id=258", "linkage=1:2:3:9", "entry=1:2", "descriptor=65:3"]),
    ("TDT", 0x0014, "707000 c079124500", ["mjd=49273", "time=12:45:00"]),
    ("TOT", 0x0014, "737000 c079124500 f00f 580d 474252 04 0000 c07c000000 0100 crc",
     ["mjd=49273", "time=12:45:00", "descriptor=88:13"]),
]


def bytes_of(text):
    has_crc = text.endswith("crc")
    data = bytearray.fromhex(text[:-3] if has_crc else text)
    length = len(data) - 3 + (4 if has_crc else 0)
    data[1] = data[1] & 0xF0 | length >> 8
    data[2] = length & 0xFF
    return bytes(data) + (crc(data).to_bytes(4, "big") if has_crc else b"")


def packet(pid, counter, section):
    head = bytes([0x47, 0x40 | pid >> 8, pid & 0xFF, 0x10 | counter, 0])
    return head + section + b"\xff" * (183 - len(section))


def stream():
    out, counters = b"", {}
    for _, pid, text, _ in SECTIONS:
        counter = counters.get(pid, 0)
        out += packet(pid, counter, bytes_of(text))
        counters[pid] = (counter + 1) % 16
    return out


def fields_of_tshark(text):
    """The fields of each table in the order of their lines, as in SECTIONS."""
    found, table, held = {}, None, {}
    names = {"Program Association Table": "PAT", "Program Map Table": "PMT", "Network Information Table": "NIT",
             "Bouquet Association Table": "BAT", "Time and Date Table": "TDT", "Time Offset Table": "TOT"}
    for line in text.splitlines():
        start = re.match(r"^(?:MPEG2|DVB) (.*)$", line)
        if start and start.group(1) in names:
            table, held = names[start.group(1)], {}
            found[table] = []
        if re.match(r"^(Frame|Stuffing)", line):
            table = None
        if table is None:
            continue
        name, _, value = line.strip().partition(": ")
        name = re.sub(r"^[01. ]+ = ", "", name)
        number = re.search(r"\(?(0x[0-9a-f]+)\)?$", value)
        number = int(number.group(1), 16) if number else value
        put = found[table].append
        if name == "Transport Stream ID":
            held["ts"] = number
            if table == "PAT":
                put("ts=%d" % number)
        elif name == "Original Network ID":
            held["network"] = number
            if held.get("in_entry"):
                put("entry=%d:%d" % (held["ts"], number))
                held["in_entry"] = False
        elif re.match(r"^(Stream ID=|Transport Stream 0x)", line.strip()):
            held["in_entry"] = True
        elif name == "Program Number":
            held["program"] = number
            if table == "PMT":
                put("program=%d" % number)
        elif name == "Program Map PID":
            put("program=%d:%d" % (held["program"], number))
        elif name == "PCR PID":
            put("pcr=%d" % number)
        elif name == "Stream type":
            held["type"] = number
        elif name == "Elementary PID":
            put("stream=%d:%d" % (held["type"], number))
        elif name in ("Network ID", "Bouquet ID"):
            put("id=%d" % number)
        elif name == "Descriptor Tag":
            held["tag"] = number
        elif name == "Descriptor Length" and held["tag"] not in (0x4A, 0x52):
            put("descriptor=%d:%d" % (held["tag"], int(value)))
        elif name == "Component Tag":
            put("component=%d" % number)
        elif name == "Service ID":
            held["service"] = number
        elif name == "Linkage Type":
            put("linkage=%d:%d:%d:%d" % (held["ts"], held["network"], held["service"], number))
        elif name == "UTC Time" and value.startswith("Oct 13, 1993"):
            put("mjd=49273")
            put("time=" + value.split()[3].split(".")[0])
        elif name.startswith("CRC 32") and "incorrect" in line:
            put("wrong crc")
    return found


def fields_of_dvbpsi(text):
    found, table = {}, None
    for line in text.splitlines():
        if line.startswith("["):
            table = line.strip("[]")
            found[table] = []
        else:
            found[table].append(line)
    return found


def compare(tool, found):
    wrong = 0
    for name, _, _, fields in SECTIONS:
        if found.get(name) != fields:
            print("%s: %s has %s, and not %s" % (tool, name, found.get(name), fields))
            wrong += 1
    print("%s: %d of %d tables agree" % (tool, len(SECTIONS) - wrong, len(SECTIONS)))
    return wrong


def dvbpsi_program(folder):
    """The small program over libdvbpsi, made in the folder, or None where it cannot be made."""
    program = os.path.join(folder, "tables")
    if not shutil.which("cc"):
        print("cc is not installed: libdvbpsi is skipped")
    elif subprocess.run(["cc", "-o", program, os.path.join(HERE, "tables.c"), "-ldvbpsi"], capture_output=True).returncode:
        print("libdvbpsi: not installed, skipped")
    else:
        return program
    return None


def main():
    if "--print" in sys.argv:
        for name, _, text, _ in SECTIONS:
            print(name, bytes_of(text).hex())
        return 0
    wrong = 0
    with tempfile.TemporaryDirectory() as folder:
        path = os.path.join(folder, "vectors.ts")
        with open(path, "wb") as out:
            out.write(stream())
        if shutil.which("tshark"):
            version = subprocess.run(["tshark", "--version"], capture_output=True, text=True).stdout.split("\n")[0]
            text = subprocess.run(["tshark", "-o", "mpeg_sect.verify_crc:TRUE", "-r", path, "-V"],
                                  capture_output=True, text=True).stdout
            wrong += compare(version, fields_of_tshark(text))
        else:
            print("tshark: not installed, skipped")
        program = dvbpsi_program(folder)
        if program:
            text = subprocess.run([program, path], capture_output=True, text=True).stdout
            wrong += compare("libdvbpsi", fields_of_dvbpsi(text))
    return 1 if wrong else 0


if __name__ == "__main__":
    sys.exit(main())
