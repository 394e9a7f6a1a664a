#!/usr/bin/env python3
"""Makes examples/first/air.ts: a small transport stream (ISO/IEC 13818-1) that shows what is heard and what is not.

PID 0    a PAT in one packet, then stuffing.
PID 20   a TDT (ETSI EN 300 468, 5.2.5).
PID 256  three private sections (table_id 0x80), each over several packets:
         the first has a packet that is sent twice, and is heard once;
         the second lost a packet on the way, and is not heard;
         the third begins in the packet in which the second ends, and is heard.
PID 8191 stuffing packets between them.

Run it in this folder; it writes air.ts.
"""
import os


def crc(data):
    """CRC_32 of ISO/IEC 13818-1, annex A."""
    register = 0xFFFFFFFF
    for byte in data:
        for bit in range(7, -1, -1):
            top = (register >> 31) ^ (byte >> bit & 1)
            register = register << 1 & 0xFFFFFFFF
            if top:
                register ^= 0x04C11DB7
    return register


def long_section(table, extension, body, second_bit=0):
    """A section in the long form: version 0, current, section 0 of 0."""
    length = len(body) + 9
    front = bytes([table, 0x80 | second_bit << 6 | 0x30 | length >> 8, length & 0xFF,
                   extension >> 8, extension & 0xFF, 0xC1, 0, 0]) + body
    return front + crc(front).to_bytes(4, "big")


def packet(pid, counter, start, payload):
    """A packet whose payload is filled up with 0xFF."""
    head = bytes([0x47, (0x40 if start else 0) | pid >> 8, pid & 0xFF, 0x10 | counter])
    return head + payload + b"\xff" * (184 - len(payload))


def packets_of(pid, sections, counter=0):
    """The packets of sections that follow each other without a gap."""
    text, starts = b"", []
    for section in sections:
        starts.append(len(text))
        text += section
    made, at = [], 0
    while at < len(text):
        inside = [s for s in starts if at <= s < at + 183]
        room = 183 if inside else 184
        piece = text[at:at + room]
        if inside:
            piece = bytes([inside[0] - at]) + piece
        made.append(packet(pid, (counter + len(made)) % 16, bool(inside), piece))
        at += room
    return made


PAT = long_section(0x00, 1, bytes([0, 3, 0xE1, 0x00]))
TDT = bytes([0x70, 0x70, 0x05, 0xC0, 0x79, 0x12, 0x45, 0x00])
NULL = packet(8191, 0, False, b"")


def text_of(number):
    line = "section %d of the first example\n" % number
    return (line * 16).encode()


def main():
    sections = [long_section(0x80, n, text_of(n)) for n in (1, 2, 3)]
    data = packets_of(256, sections)
    starts = [i for i, p in enumerate(data) if p[1] & 0x40]
    stream = [packet(0, 0, True, b"\0" + PAT), packet(20, 0, True, b"\0" + TDT)]
    for i, p in enumerate(data):
        if i == starts[1] + 1:
            continue                          # lost: a packet in the middle of the second section
        stream.append(p)
        if i == 1:
            stream.append(p)                  # sent twice: a packet of the first section
        stream.append(NULL)
    with open(os.path.join(os.path.dirname(os.path.abspath(__file__)), "air.ts"), "wb") as out:
        out.write(b"".join(stream))


if __name__ == "__main__":
    main()
