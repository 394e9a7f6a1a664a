#!/bin/bash
# Times `ssu FOLDER hear 256` beside a plain Rust program of the same job, with eight CRC tables and with sixteen, best of ten,
# page cache warm, on a stream of 500 MB: sections of 4,096 bytes on PID 256 among stuffing packets.
# usage: bench/hear.sh [MEGABYTES]
set -e
cd "$(dirname "$0")/.."
megabytes=${1:-500}
out=bench/out
mkdir -p $out
rustc -O -o $out/make_stream bench/make_stream.rs
rustc -O -o $out/plain_hear bench/plain_hear.rs
[ "$(stat -c %s $out/air.ts 2>/dev/null)" = $((megabytes * 1000000 / 188 * 188)) ] || $out/make_stream $out/air.ts "$megabytes"
"${SSU:-./ssu}" $out hear 256 > $out/ours.bin
$out/plain_hear $out/air.ts 256 > $out/plain.bin
cmp $out/ours.bin $out/plain.bin
$out/plain_hear $out/air.ts 256 16 | cmp $out/ours.bin
python3 - "$out" <<'P'
import os, resource, subprocess, sys
out = sys.argv[1]
program = os.environ.get("SSU", "crates/ssu/out/ssu")
commands = {"ssu": [program, out, "hear", "256"], "plain Rust": [out + "/plain_hear", out + "/air.ts", "256"],
            "sixteen tables": [out + "/plain_hear", out + "/air.ts", "256", "16"]}
best = {name: 1e9 for name in commands}
for _ in range(10):
    for name, command in commands.items():
        with open(os.devnull, "wb") as null:
            before = resource.getrusage(resource.RUSAGE_CHILDREN)
            subprocess.run(command, stdout=null, check=True)
            after = resource.getrusage(resource.RUSAGE_CHILDREN)
            best[name] = min(best[name], after.ru_utime + after.ru_stime - before.ru_utime - before.ru_stime)
size = os.path.getsize(out + "/air.ts")
for name, command in commands.items():
    resident = "unknown"
    if os.path.exists("/usr/bin/time"):
        with open(os.devnull, "wb") as null:
            run = subprocess.run(["/usr/bin/time", "-f", "%M"] + command, stdout=null, stderr=subprocess.PIPE, text=True)
        resident = run.stderr.split()[-1]
    print("%-14s %6.3f s of processor  %6.0f MB/s  %s KiB resident" % (name, best[name], size / best[name] / 1e6, resident))
print("ratio %.2f, beside sixteen tables %.2f" % tuple(best["ssu"] / best[name] for name in ("plain Rust", "sixteen tables")))
P
