"""Reads what is heard of a transport stream, apart from the program: sections out of packets, DSI, DII, DDB and UNT out of sections.

By docs/FORMATS.md alone: ISO/IEC 13818-1, 2.4.3 and 2.4.4; ISO/IEC 13818-6, 7.2 and 7.3; ETSI TS 102 006, 9.4; ETSI EN 301 192, 8.1.
A reader gives None where a section is off its grammar.
"""
import collections
import struct

from stream import crc

Dsi = collections.namedtuple("Dsi", "message groups")
Group = collections.namedtuple("Group", "id size hardware")
Dii = collections.namedtuple("Dii", "message transaction download block_size modules")
Module = collections.namedtuple("Module", "id size version info")
Ddb = collections.namedtuple("Ddb", "key data")


def usable(packet):
    """PID, counter, start flag and payload of a usable packet."""
    control, counter = packet[3] >> 4 & 3, packet[3] & 15
    if packet[0] != 0x47 or packet[1] & 0x80 or packet[3] & 0xC0 or control not in (1, 3) or (control == 3 and packet[4] > 182):
        return None
    payload, start = packet[4:] if control == 1 else packet[5 + packet[4]:], bool(packet[1] & 0x40)
    if start and 1 + payload[0] >= len(payload):
        return None
    return (packet[1] & 31) << 8 | packet[2], counter, start, payload


def whole(text):
    """The length of the section at the front of the text, where the text has all of it."""
    if len(text) < 3:
        return None
    end = 3 + ((text[1] & 15) << 8 | text[2])
    return end if len(text) >= end else None


def is_right(section):
    length, is_long = len(section) - 3, bool(section[1] & 0x80)
    if section[0] == 0x70:
        return not is_long and length == 5
    if is_long:
        return 9 <= length <= 4093 and section[5] & 1 == 1 and crc(section) == 0
    return 4 <= length <= 4093 and crc(section) == 0


class Stream:
    """The packets of one PID so far."""

    def __init__(self):
        self.last, self.open = None, None

    def take(self, counter, start, payload):
        """The whole sections that become complete in the packet."""
        packet = (counter, start, payload)
        if packet == self.last:
            return []
        if self.last is None or counter != (self.last[0] + 1) % 16:
            self.open = None
        self.last, found = packet, []
        if self.open is not None:
            self.open += payload[1:1 + payload[0]] if start else payload
            if whole(self.open) is not None:
                found.append(self.open[:whole(self.open)])
                self.open = None
        if start:
            self.open, at = None, 1 + payload[0]
            while at < len(payload) and payload[at] != 0xFF:
                end = whole(payload[at:])
                if end is None:
                    self.open = payload[at:]
                    break
                found.append(payload[at:at + end])
                at += end
        return found


def heard(data, pids):
    """The right whole sections heard on the PIDs, each with its PID, in the order of completion, and the number of its packet."""
    streams, found = {pid: Stream() for pid in pids}, []
    for n in range(len(data) // 188):
        read = usable(data[188 * n:188 * n + 188])
        if read is not None and read[0] in streams:
            found += [(read[0], section, n) for section in streams[read[0]].take(*read[1:]) if is_right(section)]
    return found


class Bytes:
    """Fields from the front of some bytes. Running out of them is an IndexError."""

    def __init__(self, data):
        self.data, self.at = data, 0

    def raw(self, count):
        if self.at + count > len(self.data):
            raise IndexError
        self.at += count
        return self.data[self.at - count:self.at]

    def number(self, count):
        return int.from_bytes(self.raw(count), "big")

    def sized(self, count):
        return self.raw(self.number(count))

    def rest(self):
        return self.raw(len(self.data) - self.at)

    def end(self):
        if self.at != len(self.data):
            raise IndexError


def body(section, table):
    """The body of a right section in the long form of this table."""
    return section[8:-4] if section[0] == table and section[1] & 0x80 else None


def message(section, table, wanted):
    """transactionId or downloadId, and the payload, of the message of this id that is the body of the section."""
    fields = body(section, table)
    if fields is None or len(fields) < 12 or fields[:2] != b"\x11\x03":
        return None
    number, transaction, _, adaptation, length = struct.unpack(">HIBBH", fields[2:12])
    if number != wanted or length != len(fields) - 12 or adaptation > length:
        return None
    return transaction, fields[12 + adaptation:]


def compatibility(data):
    """The entries of a compatibility descriptor, which stands behind its length: (type, specifier, OUI, model, version)."""
    if not data:
        return []
    fields, entries = Bytes(data), []
    for _ in range(fields.number(2)):
        kind, inside = fields.number(1), Bytes(fields.sized(1))
        entries.append((kind, inside.number(1), inside.number(3), inside.number(2), inside.number(2)))
        for _ in range(inside.number(1)):
            inside.number(1)
            inside.sized(1)
        inside.end()
    fields.end()
    return entries


def hardware(entries):
    """(OUI, model, version) of the entries of type 1 and specifier 1."""
    return [entry[2:] for entry in entries if entry[:2] == (1, 1)]


def or_none(read):
    """A reader that gives None where the bytes run out, or are too many."""
    def reader(section):
        try:
            return read(section)
        except IndexError:
            return None
    return reader


@or_none
def dsi(section):
    found = message(section, 0x3B, 0x1006)
    if found is None:
        return None
    fields = Bytes(found[1])
    fields.raw(20)
    if fields.number(2) != 0:
        return None
    listed = Bytes(fields.sized(2))
    fields.end()
    groups = []
    for _ in range(listed.number(2)):
        group, size = listed.number(4), listed.number(4)
        groups.append(Group(group, size, hardware(compatibility(listed.sized(2)))))
        listed.sized(2)
    listed.sized(2)
    listed.end()
    return Dsi(body(section, 0x3B), groups)


@or_none
def dii(section):
    found = message(section, 0x3B, 0x1002)
    if found is None:
        return None
    fields = Bytes(found[1])
    download, block_size = fields.number(4), fields.number(2)
    fields.raw(10)
    compatibility(fields.sized(2))
    modules = []
    for _ in range(fields.number(2)):
        modules.append(Module(fields.number(2), fields.number(4), fields.number(1), fields.sized(1)))
    fields.sized(2)
    fields.end()
    return Dii(body(section, 0x3B), found[0], download, block_size, modules)


@or_none
def ddb(section):
    found = message(section, 0x3C, 0x1003)
    if found is None:
        return None
    fields = Bytes(found[1])
    module, version, _, block = fields.number(2), fields.number(1), fields.number(1), fields.number(2)
    return Ddb((found[0], module, version, block), fields.rest())


def row(data):
    fields = Bytes(data)
    while fields.at < len(data):
        fields.number(1)
        fields.sized(1)


def loop(fields):
    """A loop: a length of 12 bits and a row of descriptors."""
    data = fields.raw(fields.number(2) & 0xFFF)
    row(data)
    return data


@or_none
def unt(section):
    """The hardware of each platform of an Update Notification Table."""
    inside = body(section, 0x4B)
    if inside is None:
        return None
    fields, platforms = Bytes(inside), []
    fields.number(3)
    fields.number(1)
    loop(fields)
    while fields.at < len(inside):
        platforms.append(hardware(compatibility(fields.sized(2))))
        pairs = Bytes(fields.sized(2))
        while pairs.at < len(pairs.data):
            loop(pairs)
            loop(pairs)
    return platforms


def descriptor(info, tag):
    """The bytes of the first whole descriptor of the tag in a module's info."""
    at = 0
    while at + 2 <= len(info) and at + 2 + info[at + 1] <= len(info):
        if info[at] == tag:
            return info[at + 2:at + 2 + info[at + 1]]
        at += 2 + info[at + 1]
    return None


def blocks_of(module, block_size):
    return -(-module.size // block_size)


def is_usable(found, bank=134217728):
    ids, total = [module.id for module in found.modules], sum(module.size for module in found.modules)
    return (not any(descriptor(module.info, 0x09) is not None for module in found.modules) and 0 < found.block_size <= 4066
            and all(blocks_of(module, found.block_size) <= 65536 for module in found.modules)
            and len(set(ids)) == len(ids) and 0 < total <= bank)
