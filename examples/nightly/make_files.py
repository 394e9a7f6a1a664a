#!/usr/bin/env python3
"""Makes the three files that examples/nightly/plan.toml mentions: 20,000, 20,000 and 1,944 bytes.

Run it anywhere; it writes beside itself.
"""
import os

FILES = [("boot.bin", 20000), ("system.bin", 20000), ("fonts.bin", 1944)]


def content(number, length):
    """Byte i of file k is (i + i / 251 + 31 * k) modulo 256, the quotient rounded down."""
    return bytes((i + i // 251 + 31 * number) % 256 for i in range(length))


def main():
    folder = os.path.dirname(os.path.abspath(__file__))
    for number, (name, length) in enumerate(FILES):
        with open(os.path.join(folder, name), "wb") as out:
            out.write(content(number, length))


if __name__ == "__main__":
    main()
