#!/bin/bash
# Times `ssu FOLDER load 256` beside `ssu FOLDER hear 256` on the same stream, best of twenty, page cache warm: a group of
# 64 MiB in blocks of 4,066 bytes. `load` should take at most 1.5 times as long as `hear`. Both make a new file of about as
# many bytes: `load` the image, `hear` its sections by standard output. Beside it, `hear` with its output thrown away.
# usage: bench/load.sh [MEGABYTES]
set -e
cd "$(dirname "$0")/.."
megabytes=${1:-64}
out=bench/out/load
mkdir -p $out
[ "$(stat -c %s $out/air.ts.image 2>/dev/null)" = $((megabytes * 1024 * 1024)) ] || python3 bench/make_carousel.py $out/air.ts "$megabytes"
"${SSU:-./ssu}" $out load 256
cmp $out/group.bin $out/air.ts.image
python3 - "$out" <<'P'
import os, resource, subprocess, sys, time
out = sys.argv[1]
program = os.environ.get("SSU", "crates/ssu/out/ssu")
runs = (("hear", "hear", out + "/heard"), ("load", "load", os.devnull), ("hear, thrown away", "hear", os.devnull))
best = {}
for _ in range(20):
    for name, command, printed in runs:
        for made in (out + "/heard", out + "/group.bin"):
            if os.path.exists(made):
                os.remove(made)
        with open(printed, "wb") as file:
            before, start = resource.getrusage(resource.RUSAGE_CHILDREN), time.perf_counter()
            subprocess.run([program, out, command, "256"], stdout=file, check=True)
            seconds, after = time.perf_counter() - start, resource.getrusage(resource.RUSAGE_CHILDREN)
        processor = after.ru_utime + after.ru_stime - before.ru_utime - before.ru_stime
        known = best.get(name, (seconds, processor))
        best[name] = (min(known[0], seconds), min(known[1], processor))
size = os.path.getsize(out + "/air.ts")
for name, (seconds, processor) in best.items():
    print("%-18s %6.3f s  %6.3f s of processor  %6.0f MB/s" % (name, seconds, processor, size / processor / 1e6))
print("times hear: %.2f by the clock, %.2f by the processor" % tuple(best["load"][k] / best["hear"][k] for k in (0, 1)))
P
