#!/usr/bin/env python3
"""Compares a stream that `build` made with what independent decoders read in it.

FOLDER has plan.toml, the files that it mentions, and air.ts, which `ssu FOLDER build` made of them. tshark (Wireshark) must
find each CRC right, and read the tables, the DSI, each DII and each data block with its bytes as the plan asks for them.
libdvbpsi (by the small program tables.c, which knows program 3 on PID 256) must read the tables so. Both skip the inside of
the notification table, and tshark that of the DSI. A tool that is not installed is skipped, and said to be.

usage: outside/built.py FOLDER      exits with 0 where all tools that are there agree
"""
import datetime
import os
import re
import shutil
import subprocess
import sys
import tempfile
import tomllib

import tables


def expected_tables(plan):
    """The tables of the plan, with their fields as tables.py writes them."""
    ts, network, service = plan["ts"], plan["network"], plan["service"]
    linkage = "linkage=%d:%d:%d:9" % (ts, network, service)
    entry = "entry=%d:%d" % (ts, network)
    carousel = ["stream=11:%d" % plan["data_pid"], "component=2"]
    if "notice_pid" in plan:
        streams = ["stream=5:%d" % plan["notice_pid"], "component=1", "descriptor=102:9"] + carousel
    else:
        streams = carousel + ["descriptor=102:9"]
    time = datetime.datetime.fromisoformat(plan["time"])
    mjd = (time - datetime.datetime(1858, 11, 17)).days
    found = {
        "PAT": ["ts=%d" % ts, "program=%d:%d" % (service, plan["pmt_pid"])],
        "PMT": ["program=%d" % service, "pcr=8191"] + streams,
        "NIT": ["id=%d" % network, linkage, entry],
        "TDT": ["mjd=%d" % mjd, "time=" + time.strftime("%H:%M:%S")],
    }
    if "bouquet" in plan:
        found["BAT"] = ["id=%d" % plan["bouquet"], linkage, entry]
    return found


def expected_carousel(plan, folder):
    """The DSI, the DIIs and the data blocks of the plan, each as a text."""
    found = {"DSI extension=0"}
    for index, group in enumerate(plan["group"]):
        download = 0x80000002 + 2 * index
        size, version = group.get("block_size", 4066), group.get("module_version", 0)
        modules = []
        for number, name in enumerate(group["modules"], 1):
            with open(os.path.join(folder, name), "rb") as file:
                content = file.read()
            modules.append("%d:%d:%d" % (number, len(content), version))
            blocks = [content[at:at + size] for at in range(0, len(content), size)]
            for block, piece in enumerate(blocks):
                found.add("DDB download=%d module=%d version=%d block=%d section=%d of %d bytes=%s"
                          % (download, number, version, block, block % 256, min(255, len(blocks) - 1), piece.hex()))
        found.add("DII extension=%d transaction=%d download=%d size=%d modules=%s"
                  % (download % 65536, download, download, size, ",".join(modules)))
    return found


def number(text):
    return int(text, 16) if text.startswith("0x") else int(text)


def carousel_of_tshark(text):
    """The messages that tshark read, each as a text, and how many sections had a wrong CRC or none."""
    found, wrong = set(), 0
    for part in re.split(r"^MPEG DSM-CC$", text, flags=re.M)[1:]:
        part = re.split(r"^Frame ", part, flags=re.M)[0]
        field = dict(re.findall(r"^ +([A-Za-z ]+): (?:.*\()?(0x[0-9a-f]+|\d+)\)?$", part, flags=re.M))
        if not re.search(r"CRC: 0x[0-9a-f]+ \[Verified\]", part):
            wrong += 1
        extension = number(field["Table ID Extension"])
        if "Download Server Initiate" in part:
            found.add("DSI extension=%d" % extension)
        elif "Download Info Indication" in part:
            modules = re.findall(r"Module Id: 0x([0-9a-f]+), Version: (\d+), Size: (\d+)", part)
            found.add("DII extension=%d transaction=%d download=%d size=%d modules=%s"
                      % (extension, number(field["Transaction ID"]), number(field["Download ID"]),
                         number(field["Block Size"]),
                         ",".join("%d:%s:%s" % (int(i, 16), size, version) for i, version, size in modules)))
        elif "Download Data Block" in part:
            lines = re.findall(r"^[0-9a-f]{4,}  ((?:[0-9a-f]{2} ?)+)", part.partition("\nData (")[2], flags=re.M)
            found.add("DDB download=%d module=%d version=%d block=%d section=%d of %d bytes=%s"
                      % (number(field["Download ID"]), number(field["Module ID"]), number(field["Version"]),
                         number(field["Block Number"]), number(field["Section Number"]),
                         number(field["Last Section Number"]), "".join(lines).replace(" ", "")))
    return found, wrong


def tables_of_tshark(text):
    found = tables.fields_of_tshark(text)
    time = re.search(r"UTC Time: (\w+ +\d+, \d+ \d+:\d+:\d+)", text)
    if time:
        time = datetime.datetime.strptime(time.group(1), "%b %d, %Y %H:%M:%S")
        mjd = (time - datetime.datetime(1858, 11, 17)).days
        found["TDT"] = ["mjd=%d" % mjd, "time=" + time.strftime("%H:%M:%S")]
    return found


def compare(tool, what, found, wanted):
    """Says whether both are equal, and if not, where they differ."""
    if found == wanted:
        print("%s: %d %s agree" % (tool, len(wanted), what))
        return 0
    for key in sorted(set(found) | set(wanted)):
        mine = wanted.get(key) if isinstance(wanted, dict) else key in wanted
        theirs = found.get(key) if isinstance(found, dict) else key in found
        if mine != theirs:
            print("%s: %s: has %s, and not %s" % (tool, key[:120], theirs, mine))
    return 1


def main():
    if len(sys.argv) != 2:
        print(__doc__.strip())
        return 2
    folder = sys.argv[1]
    if not os.path.isfile(os.path.join(folder, "plan.toml")):
        print("%s has no plan.toml" % folder)
        return 2
    with open(os.path.join(folder, "plan.toml"), "rb") as file:
        plan = tomllib.load(file)
    air = os.path.join(folder, "air.ts")
    wrong = 0
    if shutil.which("tshark"):
        version = subprocess.run(["tshark", "--version"], capture_output=True, text=True).stdout.split("\n")[0]
        text = subprocess.run(["tshark", "-o", "mpeg_sect.verify_crc:TRUE", "-o", "mpeg_dsmcc.verify_crc:TRUE",
                               "-r", air, "-V"], capture_output=True, text=True, errors="replace").stdout
        wrong += compare(version, "tables", tables_of_tshark(text), expected_tables(plan))
        messages, bad = carousel_of_tshark(text)
        wrong += compare(version, "messages of the carousel", messages, expected_carousel(plan, folder))
        bad += len(re.findall(r"CRC 32: .*incorrect", text))
        print("%s: %d wrong CRCs" % (version, bad))
        wrong += bad
    else:
        print("tshark: not installed, skipped")
    with tempfile.TemporaryDirectory() as place:
        if (plan["service"], plan["pmt_pid"]) != (3, 256):
            print("libdvbpsi: the program is not 3 on PID 256, skipped")
        else:
            program = tables.dvbpsi_program(place)
            if program:
                text = subprocess.run([program, air], capture_output=True, text=True).stdout
                wrong += compare("libdvbpsi", "tables", tables.fields_of_dvbpsi(text), expected_tables(plan))
    return 1 if wrong else 0


if __name__ == "__main__":
    sys.exit(main())
