#!/bin/bash
# Times `ssu FOLDER audit 256` beside `ssu FOLDER load 256` on the same stream, best of twenty, page cache warm: a group of 64 MiB in blocks of
# 4,066 bytes, and in 65,536 blocks of 1,024 bytes, the most that an audit keeps. `audit` should take at most twice as long as `load`.
# usage: bench/audit.sh [ROUNDS]           exits with 1 where it takes longer by the processor
set -e
cd "$(dirname "$0")/.."
for block in 4066 1024; do
    out=bench/out/audit$block
    mkdir -p $out
    [ "$(stat -c %s $out/air.ts.image 2>/dev/null)" = $((64 * 1024 * 1024)) ] || python3 bench/make_carousel.py $out/air.ts 64 $block
    "${SSU:-./ssu}" $out audit 256
    python3 - "$out" "${1:-20}" <<'P'
import os, resource, subprocess, sys, time
out, rounds = sys.argv[1], int(sys.argv[2])
program = os.environ.get("SSU", "crates/ssu/out/ssu")
best = {}
for _ in range(rounds):
    for command in ("load", "audit"):
        if os.path.exists(out + "/group.bin"):
            os.remove(out + "/group.bin")
        before, start = resource.getrusage(resource.RUSAGE_CHILDREN), time.perf_counter()
        subprocess.run([program, out, command, "256"], stdout=subprocess.DEVNULL, check=True)
        seconds, after = time.perf_counter() - start, resource.getrusage(resource.RUSAGE_CHILDREN)
        processor = after.ru_utime + after.ru_stime - before.ru_utime - before.ru_stime
        known = best.get(command, (seconds, processor))
        best[command] = (min(known[0], seconds), min(known[1], processor))
size = os.path.getsize(out + "/air.ts")
for command, (seconds, processor) in best.items():
    print("%-6s %6.3f s  %6.3f s of processor  %6.0f MB/s" % (command, seconds, processor, size / processor / 1e6))
clock, processor = (best["audit"][k] / best["load"][k] for k in (0, 1))
print("times load: %.2f by the clock, %.2f by the processor" % (clock, processor))
sys.exit(processor > 2)
P
done
