#!/usr/bin/env python3
"""Sends an update beside a television service: a stream of ffmpeg at a constant rate whose null packets are replaced by those of `build`.

ffmpeg makes ten seconds of a test picture as a transport stream with null packets (PID 8191) in it. Each of them gives way to the next packet
of air.ts, as long as there are any; one PAT that lists both services stands in place of both PATs (ISO/IEC 13818-1, 2.4.4.3). Out of the
stream `find` must find the update, `replay` install it and `boot` give the files of the plan; ffmpeg must decode the same pictures as before;
tshark must find each CRC of the carousel right.

ffmpeg that is missing ends the script with 0, and is said to be; so does a missing tshark with its part.

usage: outside/multiplex.py [FILE]       exits with 0 where all of this holds; FILE gets the stream
"""
import shutil
import subprocess
import sys

import stream as s
from program import BOOT_NEW, DONE, FIRST, INSTALLED, PLAN, SECOND, Tally, in_folder, is_missing

PACKET = 188
NULL_PID = 8191
PICTURE_SERVICE, PICTURE_PMT, PICTURE_PID = 9, 4096, 512


def packets(data):
    return [data[at:at + PACKET] for at in range(0, len(data), PACKET)]


def pid_of(packet):
    return (packet[1] & 0x1F) << 8 | packet[2]


def picture(path):
    """Ten seconds of a test picture at 2 Mbit/s, of which the picture takes about a fifth."""
    words = ["ffmpeg", "-nostdin", "-v", "error", "-y", "-f", "lavfi", "-i", "testsrc=duration=10:size=320x180:rate=25", "-c:v", "mpeg2video", "-b:v", "400k",
             "-f", "mpegts", "-muxrate", "2000k", "-mpegts_transport_stream_id", "1", "-mpegts_original_network_id", "2", "-mpegts_service_id",
             str(PICTURE_SERVICE), "-mpegts_pmt_start_pid", str(PICTURE_PMT), "-mpegts_start_pid", str(PICTURE_PID), path]
    subprocess.run(words, check=True)


def multiplexed(service, update):
    """The packets of the service with those of the update in place of null packets, and one PAT."""
    both = s.pat(1, [(PICTURE_SERVICE, PICTURE_PMT), (s.SERVICE, s.PMT_PID)])
    waiting = iter([packet for packet in packets(update) if pid_of(packet) != 0])
    made = []
    for packet in packets(service):
        if pid_of(packet) == 0:
            made.append(s.packet(0, packet[3] & 15, True, b"\0" + both))
        elif pid_of(packet) == NULL_PID:
            made.append(next(waiting, packet))
        else:
            made.append(packet)
    return b"".join(made), sum(1 for _ in waiting)


def pictures_of(path):
    """A digest of the decoded pictures."""
    words = ["ffmpeg", "-nostdin", "-v", "error", "-i", path, "-map", "0:v", "-f", "md5", "-"]
    return subprocess.run(words, check=True, capture_output=True, text=True).stdout


def work(folder):
    tally = Tally()
    folder.prepare()
    folder.write("plan.toml", PLAN.replace("turns = 60", "turns = 400"))
    folder.must("build")
    picture(folder.file("service.ts"))
    made, left = multiplexed(folder.read("service.ts"), folder.read("air.ts"))
    folder.write("air.ts", made)
    tally.same("packets of the update for which there was no room", left, 0)
    tally.same("the length of the stream", len(made), len(folder.read("service.ts")))
    tally.same("find", folder.answer("find").out.split("\n")[4:7], ["5 carousel 258", "6 groups 1", "7 modules 2 bytes 5500"])
    tally.same("replay", folder.run("replay"), (DONE, INSTALLED))
    tally.same("boot", folder.boot(), (DONE, FIRST + SECOND, BOOT_NEW))
    tally.same("the pictures", pictures_of(folder.file("air.ts")), pictures_of(folder.file("service.ts")))
    if not is_missing("tshark"):
        words = ["tshark", "-o", "mpeg_dsmcc.verify_crc:TRUE", "-r", folder.file("air.ts"), "-Y", "mpeg_dsmcc", "-V"]
        text = subprocess.run(words, capture_output=True, text=True, errors="replace", check=True).stdout
        checked = text.count("[Verified]")
        tally.same("each CRC of the carousel is right", (checked > 100, text.count("CRC: "), "incorrect" in text), (True, checked, False))
    if len(sys.argv) > 1:
        shutil.copy(folder.file("air.ts"), sys.argv[1])
    return tally.end("an update beside a television service")


if __name__ == "__main__":
    sys.exit(0 if is_missing("ffmpeg") else in_folder(work))
