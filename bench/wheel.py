#!/usr/bin/env python3
"""Times `ssu FOLDER build` on a plan of 60,000 sections and 1,000,000 turns.

It makes the folder bench/out/wheel, and prints the least time of five runs of `build`, and beside it those of a plain Rust program
(bench/plain_mux.rs: rustc -O, no crates) that cuts as many sections of the same length into packets and writes them, once in the order
of the sections and once by a look at all due numbers in each turn. usage: bench/wheel.py
"""
import os
import subprocess
import sys
import time

TOP = os.path.dirname(os.path.dirname(os.path.abspath(__file__)))
sys.path.insert(0, os.path.join(TOP, "outside"))
from program import PLAN, SSU  # pylint: disable=wrong-import-position

OUT = os.path.join(TOP, "bench", "out")
FOLDER = os.path.join(OUT, "wheel")
SECTIONS, BLOCK, TURNS = 60000, 128, 1000000


def least_time(words, runs):
    times = []
    for _ in range(runs):
        start = time.perf_counter()
        subprocess.run(words, stdout=subprocess.PIPE, check=True)
        times.append(time.perf_counter() - start)
    return min(times)


os.makedirs(FOLDER, exist_ok=True)
plain = os.path.join(OUT, "plain_mux")
subprocess.run(["rustc", "-O", "-o", plain, os.path.join(TOP, "bench", "plain_mux.rs")], check=True)
# six sections besides the blocks: PAT, PMT, NIT, TDT, DSI and DII
with open(os.path.join(FOLDER, "a.bin"), "wb") as file:
    file.write(bytes((i + i // 251) % 256 for i in range((SECTIONS - 6) * BLOCK)))
with open(os.path.join(FOLDER, "plan.toml"), "w") as file:
    file.write(PLAN.replace("turns = 60", "turns = %d" % TURNS).replace("block_size = 1000", "block_size = %d" % BLOCK).replace(
        '"first.bin", "second.bin"', '"a.bin"'))
print(subprocess.run([SSU, FOLDER, "build"], stdout=subprocess.PIPE, check=True, text=True).stdout.strip())
built = least_time([SSU, FOLDER, "build"], 5)
numbers = [str(SECTIONS), str(BLOCK + 30), str(TURNS), os.path.join(FOLDER, "plain.ts")]
written = least_time([plain, "write"] + numbers, 5)
scanned = least_time([plain, "scan"] + numbers, 1)
print("build %.2f s, written %.2f s (%.2f times), by a look at all %.2f s" % (built, written, built / written, scanned))
