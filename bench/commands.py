#!/usr/bin/env python3
"""Times the commands of `ssu` on a night's update of 4 MB in three files, sent in 4,000 turns (a stream of 14 MB).

It makes a folder in memory, where the system has /dev/shm, and builds the stream, and prints for each command the least processor time of twenty
runs, in milliseconds, and its ratio to `hear` on the carousel's PID. `sample 0` makes its own stream. `air` has a script that changes nothing, and what it
makes is thrown away as the output of the others is. usage: bench/commands.py
"""
import atexit
import os
import resource
import shutil
import subprocess
import tempfile

TOP = os.path.dirname(os.path.dirname(os.path.abspath(__file__)))
# A replay syncs each of its writes, which takes minutes on a disk.
FOLDER = tempfile.mkdtemp(dir="/dev/shm" if os.access("/dev/shm", os.W_OK) else None)
atexit.register(shutil.rmtree, FOLDER)
# The program itself, and not the script that builds it, whose start would be measured too.
SSU = os.environ.get("SSU") or os.path.join(TOP, "crates", "ssu", "out", "ssu")
PLAN = '''ts = 1
network = 2
bouquet = 9
service = 3
oui = 4660
time = "2024-03-05T02:00:00"
pmt_pid = 256
notice_pid = 257
data_pid = 258
turns = 4000
[schedule]
start = "2024-03-01T01:00:00"
end = "2024-04-01T01:00:00"
period_hours = 24
duration_hours = 2
[[group]]
model = 7
version = 1
software_model = 1
software_version = 8
modules = ["a.bin", "b.bin", "c.bin"]
'''
BOX = '''oui = 4660
model = 7
version = 1
rule = "newer"
software_model = 1
software_version = 7
'''


def run(words):
    subprocess.run([SSU, FOLDER] + words, stdout=subprocess.DEVNULL, check=True)


def old_flash():
    """A flash of 2,100 blocks of 4,096 bytes with an old image, so that a replay has something to install."""
    run(["blank", "2100"])
    run(["format", "c.bin"])


def least_time(words, prepare=lambda: None):
    """The least processor time of twenty runs, in milliseconds."""
    times = []
    for _ in range(20):
        prepare()
        before = resource.getrusage(resource.RUSAGE_CHILDREN)
        run(words)
        after = resource.getrusage(resource.RUSAGE_CHILDREN)
        times.append(after.ru_utime + after.ru_stime - before.ru_utime - before.ru_stime)
    return 1000 * min(times)


for k, (name, length) in enumerate([("a.bin", 2000000), ("b.bin", 2000000), ("c.bin", 194304)]):
    with open(os.path.join(FOLDER, name), "wb") as file:
        file.write(bytes((i + i // 251 + 31 * k) % 256 for i in range(length)))
for name, text in [("plan.toml", PLAN), ("box.toml", BOX), ("script.toml", "")]:
    with open(os.path.join(FOLDER, name), "w") as file:
        file.write(text)
os.symlink(os.devnull, os.path.join(FOLDER, "aired.ts"))
if not os.access(SSU, os.X_OK):
    subprocess.run([os.path.join(TOP, "ssu"), "--version"], stdout=subprocess.DEVNULL, check=True)
built = least_time(["build"])
heard = least_time(["hear", "258"])
print("build      %6.1f ms" % built)
print("hear 258   %6.1f ms" % heard)
for words, prepare in ((["find"], lambda: None), (["show"], lambda: None), (["load", "258"], lambda: None), (["audit", "258"], lambda: None),
                       (["air"], lambda: None), (["replay"], old_flash), (["sample", "0"], lambda: None)):
    time = least_time(words, prepare)
    print("%-10s %6.1f ms, %.2f times hear" % (" ".join(words), time, time / heard))
