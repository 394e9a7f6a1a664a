#!/usr/bin/env python3
"""Looks which files each command opens, and how, by strace.

Only `format`, `boot`, `migrate` and `replay` may open flash.bin, `boot` for reading alone, and `blank` makes it. Every other file of the folder is opened
only by the commands that the manual names, a file that is made only where a byte goes into it, and wrong words open nothing.

usage: outside/opened.py            exits with 0 where no command opens more; without strace it says so and ends with 0
"""
import os
import re
import sys
import tempfile

from program import SSU, Tally, in_folder, is_missing

READ, BOTH, MADE = "O_RDONLY", "O_RDWR", "O_WRONLY|O_CREAT|O_TRUNC"
COMMANDS = [
    (("hear", "258"), {"air.ts": READ}),
    (("load", "258"), {"air.ts": READ, "group.bin": MADE}),
    (("find",), {"box.toml": READ, "air.ts": READ}),
    (("show",), {"box.toml": READ, "air.ts": READ}),
    (("build",), {"plan.toml": READ, "first.bin": READ, "second.bin": READ, "air.ts": MADE}),
    (("blank", "6"), {"flash.bin": MADE}),
    (("format", "old.bin"), {"box.toml": READ, "old.bin": READ, "flash.bin": BOTH}),
    (("boot",), {"flash.bin": READ, "image.bin": MADE}),
    (("migrate",), {"flash.bin": BOTH}),
    (("replay",), {"box.toml": READ, "air.ts": READ, "flash.bin": BOTH}),
    (("format", "old.bin", "spares", "1"), {"box.toml": READ, "old.bin": READ, "flash.bin": BOTH}),
    (("boot", "spares", "1"), {"flash.bin": READ, "image.bin": MADE}),
    (("migrate", "spares", "1"), {"flash.bin": BOTH}),
    (("replay", "spares", "1"), {"box.toml": READ, "air.ts": READ, "flash.bin": BOTH}),
    (("air",), {"script.toml": READ, "air.ts": READ, "aired.ts": MADE}),
    (("audit", "258", "257"), {"air.ts": READ}),
    (("sample", "0"), {}),
    ((), {}),
    (("hear", "8192"), {}),
    (("format", "../old.bin"), {}),
    (("sing",), {}),
    (("find", "spares", "1"), {}),
]


def opened(folder, words):
    """Each file that the command opened in the folder, with its flags, and whether it opened others but those of the system."""
    with tempfile.NamedTemporaryFile("r") as told:
        folder.answer(*words, before=("strace", "-f", "-qq", "-e", "trace=open,openat,creat", "-o", told.name))
        calls = re.findall(r'open(?:at)?\((?:AT_FDCWD, )?"([^"]*)", ([A-Z_|]+)[^=]*= \d', told.read())
    inside = {os.path.basename(path): re.sub(r"\|O_(CLOEXEC|LARGEFILE|NOCTTY)", "", how) for path, how in calls
              if os.path.dirname(path) == folder.path}
    system = ("/etc/ld.so", "/lib", "/usr/lib", "/opt/", "/proc/self", "/sys/", "/dev/null", os.path.dirname(SSU))
    others = [path for path, _ in calls if os.path.dirname(path) != folder.path and path != "/" and not path.startswith(system)]
    return inside, others, [path for path, _ in calls if path == "/"]


def work(folder):
    tally = Tally()
    for words, wanted in COMMANDS:
        folder.prepare()
        inside, others, guards = opened(folder, words)
        tally.same("%s: the files that it opens" % " ".join(words), (inside, others), (wanted, []))
        tally.same("%s: what lies under closed descriptors" % " ".join(words), len(guards), 3 if wanted or words[:1] == ("sample",) else 0)
    return tally.end("files that commands open")


if __name__ == "__main__":
    sys.exit(0 if is_missing("strace") else in_folder(work))
