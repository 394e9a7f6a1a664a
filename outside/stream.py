"""Makes sections, messages of the data carousel and packets, for streams that `build` does not make.

ISO/IEC 13818-1, 2.4.3 and 2.4.4; ISO/IEC 13818-6, 7.2 and 7.3; ETSI TS 102 006, 7.1.
"""
import struct
import zlib

REVERSED = bytes(int(f"{n:08b}"[::-1], 2) for n in range(256))
OUI, SERVICE, PMT_PID, DATA_PID = 4660, 3, 256, 258
GROUP = 0x80000002


def crc(data):
    """CRC_32 of ISO/IEC 13818-1, annex A, by zlib's CRC over the bits of each byte in reverse."""
    value = zlib.crc32(bytes(data).translate(REVERSED)) ^ 0xFFFFFFFF
    return int(f"{value:032b}"[::-1], 2)


def long_section(table, extension, body, version=0, number=0, last=0):
    head = struct.pack(">BHHBBB", table, 0xB000 | 9 + len(body), extension, 0xC1 | version << 1, number, last)
    return head + body + struct.pack(">I", crc(head + body))


def pat(ts, programs):
    return long_section(0x00, ts, b"".join(struct.pack(">HH", program, 0xE000 | pid) for program, pid in programs))


def pmt(program=SERVICE, pid=DATA_PID, oui=OUI):
    """A PMT with one stream of a carousel for the OUI: update type 1, found without a notification table."""
    info = struct.pack(">BBH", 0x66, 9, 0x000A) + bytes([6]) + oui.to_bytes(3, "big") + bytes([0xF1, 0xC0, 0])
    return long_section(0x02, program, struct.pack(">HHBHH", 0xFFFF, 0xF000, 0x0B, 0xE000 | pid, 0xF000 | len(info)) + info)


def tdt(mjd, time):
    return bytes([0x70, 0x70, 0x05]) + struct.pack(">H", mjd) + bytes.fromhex(time)


def compatibility(hardware, software=None, oui=OUI):
    """A compatibility descriptor: model and version of the hardware, and of the software where one is offered."""
    entries = [(1, hardware)] + ([(2, software)] if software else [])
    body = struct.pack(">H", len(entries)) + b"".join(
        struct.pack(">BBB", kind, 9, 1) + oui.to_bytes(3, "big") + struct.pack(">HHB", *pair, 0) for kind, pair in entries)
    return struct.pack(">H", len(body)) + body


def control(message_id, transaction, payload):
    body = struct.pack(">BBHIBBH", 0x11, 0x03, message_id, transaction, 0xFF, 0, len(payload)) + payload
    return long_section(0x3B, transaction & 0xFFFF, body)


def dsi(groups):
    """A DSI with groups of (id, size, compatibility descriptor)."""
    listed = struct.pack(">H", len(groups)) + b"".join(
        struct.pack(">II", group, size) + offer + b"\0\0" for group, size, offer in groups) + b"\0\0"
    return control(0x1006, 0x80000000, b"\xFF" * 20 + struct.pack(">HH", 0, len(listed)) + listed)


def dii(modules, group=GROUP, block_size=1000):
    """A DII with modules of (id, size, version, bytes of information)."""
    listed = b"".join(struct.pack(">HIBB", number, size, version, len(info)) + info for number, size, version, info in modules)
    payload = struct.pack(">IHBBIIHH", group, block_size, 0, 0, 0, 0, 0, len(modules)) + listed + b"\0\0"
    return control(0x1002, group, payload)


def ddb(module, block, data, group=GROUP, version=0):
    payload = struct.pack(">HBBH", module, version, 0xFF, block) + data
    body = struct.pack(">BBHIBBH", 0x11, 0x03, 0x1003, group, 0xFF, 0, len(payload)) + payload
    return long_section(0x3C, module, body, version % 32, block % 256, 255)


def crc_descriptor(value):
    return struct.pack(">BBI", 0x05, 4, value)


def packet(pid, counter, start, payload):
    """A packet whose payload is filled up with 0xFF."""
    return struct.pack(">BBBB", 0x47, (0x40 if start else 0) | pid >> 8, pid & 255, 0x10 | counter % 16) + payload.ljust(184, b"\xFF")


def cut(pid, section, counter=0):
    """The packets of a section."""
    text = b"\0" + section
    return [packet(pid, counter + at // 184, at == 0, text[at:at + 184]) for at in range(0, len(text), 184)]


def stream(sections):
    """The packets of sections, each given with its PID, joined."""
    counters, packets = {}, []
    for pid, section in sections:
        made = cut(pid, section, counters.get(pid, 0))
        counters[pid] = counters.get(pid, 0) + len(made)
        packets += made
    return b"".join(packets)
