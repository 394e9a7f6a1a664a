"""Makes a transport stream with one group in a carousel: a DSI, a DII and the blocks of one module, on PID 256.

usage: make_carousel.py FILE MEGABYTES [BLOCK_SIZE]    (at most 254 MiB of blocks; `load` takes groups of up to 128 MiB)
"""
import random
import struct
import sys
import zlib

REVERSED = bytes(int(f"{n:08b}"[::-1], 2) for n in range(256))
PID, GROUP = 256, 0x80000002
BLOCK = int(sys.argv[3]) if len(sys.argv) > 3 else 4066


def crc(data):
    """CRC-32/MPEG-2, by zlib's CRC over the bits of each byte in reverse."""
    value = zlib.crc32(data.translate(REVERSED)) ^ 0xFFFFFFFF
    return int(f"{value:032b}"[::-1], 2)


def section(table, extension, version, number, last, message_id, transaction, payload):
    body = struct.pack(">BBHIBBH", 0x11, 0x03, message_id, transaction, 0xFF, 0, len(payload)) + payload
    head = struct.pack(">BHHBBB", table, 0xB000 | 9 + len(body), extension, 0xC1 | version << 1, number, last)
    return head + body + struct.pack(">I", crc(head + body))


def cut(section, counter):
    """The packets of a section, and the counter after them."""
    packets = []
    text = b"\x00" + section
    for at in range(0, len(text), 184):
        start = 0x40 if at == 0 else 0
        packets.append(struct.pack(">BBBB", 0x47, start | PID >> 8, PID & 255, 0x10 | counter) + text[at:at + 184].ljust(184, b"\xFF"))
        counter = (counter + 1) % 16
    return b"".join(packets), counter


def main():
    path, size = sys.argv[1], int(sys.argv[2]) * 1024 * 1024
    image = random.Random(1).randbytes(size)
    blocks = -(-size // BLOCK)
    groups = struct.pack(">HIIHHH", 1, GROUP, size, 0, 0, 0)
    dsi = b"\xFF" * 20 + struct.pack(">HH", 0, len(groups)) + groups
    info = struct.pack(">BBI", 5, 4, crc(image))
    dii = struct.pack(">IHBBIIHH", GROUP, BLOCK, 0, 0, 0, 0, 0, 1) + struct.pack(">HIBB", 1, size, 0, len(info)) + info + b"\0\0"
    counter = 0
    with open(path, "wb") as out:
        for payload, message_id in (dsi, 0x1006), (dii, 0x1002):
            packets, counter = cut(section(0x3B, GROUP & 0xFFFF, 0, 0, 0, message_id, GROUP, payload), counter)
            out.write(packets)
        for n in range(blocks):
            payload = struct.pack(">HBBH", 1, 0, 0xFF, n) + image[n * BLOCK:(n + 1) * BLOCK]
            packets, counter = cut(section(0x3C, 1, 0, n % 256, min(blocks - 1, 255), 0x1003, GROUP, payload), counter)
            out.write(packets)
    with open(path + ".image", "wb") as out:
        out.write(image)


main()
