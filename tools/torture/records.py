"""Record batches of Kafka's message format 2: written for the input, and read of requests and of the output."""
import collections
import gzip
import struct

Record = collections.namedtuple("Record", "offset key value")
Batch = collections.namedtuple("Batch", "first last pid epoch sequence transactional control records")

TRANSACTIONAL, CONTROL, COMPRESSION = 0x10, 0x20, 0x07
HEAD = ">qiibIhiqqqhii"


class Unreadable(Exception):
    """Records of an old format, or compressed ones that the standard library can't decompress."""


def _table():
    table = []
    for byte in range(256):
        for _ in range(8):
            byte = byte >> 1 ^ (0x82F63B78 if byte & 1 else 0)
        table.append(byte)
    return table


CRC = _table()


def crc32c(text):
    """The checksum of batches, CRC-32C (RFC 3720, appendix B.4)."""
    crc = 0xFFFFFFFF
    for byte in text:
        crc = CRC[(crc ^ byte) & 255] ^ crc >> 8
    return crc ^ 0xFFFFFFFF


def _varint(value):
    value = value << 1 ^ value >> 63
    out = bytearray()
    while value > 127:
        out.append(value & 127 | 128)
        value >>= 7
    out.append(value)
    return bytes(out)


def _text(text):
    return _varint(-1) if text is None else _varint(len(text)) + text


def write(records, pid=-1, epoch=-1, sequence=-1, transactional=False, time=0):
    """One batch of (key, value) records."""
    body = b""
    for place, (key, value) in enumerate(records):
        record = b"\0" + _varint(0) + _varint(place) + _text(key) + _text(value) + _varint(0)
        body += _varint(len(record)) + record
    tail = struct.pack(">hiqqqhii", TRANSACTIONAL if transactional else 0, len(records) - 1, time, time,
        pid, epoch, sequence, len(records)) + body
    return struct.pack(">qiibI", 0, len(tail) + 9, -1, 2, crc32c(tail)) + tail


class _Values:
    def __init__(self, text):
        self.text, self.at = text, 0

    def varint(self):
        value = shift = 0
        while True:
            byte = self.text[self.at]
            self.at += 1
            value |= (byte & 127) << shift
            shift += 7
            if byte < 128:
                return value >> 1 ^ -(value & 1)

    def take(self, count):
        self.at += count
        return self.text[self.at - count:self.at]

    def nullable(self):
        length = self.varint()
        return None if length < 0 else self.take(length)


def read(text):
    """The batches in some bytes. A batch that is cut off at the end is left out, as a consumer does."""
    batches, at = [], 0
    while len(text) - at >= 61:
        first, length, _, magic = struct.unpack(">qiib", text[at:at + 17])
        if len(text) - at < 12 + length:
            break
        if magic != 2:
            raise Unreadable("a message set of an old format")
        _, _, _, _, _, bits, last, _, _, pid, epoch, sequence, count = struct.unpack(HEAD, text[at:at + 61])
        body = text[at + 61:at + 12 + length]
        if bits & COMPRESSION == 1:
            body = gzip.decompress(body)
        elif bits & COMPRESSION:
            raise Unreadable("compressed records: switch the compression of the program off")
        batches.append(Batch(first, first + last, pid, epoch, sequence, bool(bits & TRANSACTIONAL),
            bool(bits & CONTROL), _records(body, first, count)))
        at += 12 + length
    return batches


def producers(text):
    """Producer id and epoch of each batch, by its head alone: compressed batches have them too."""
    found, at = [], 0
    while len(text) - at >= 61:
        found.append(struct.unpack(">qh", text[at + 43:at + 53]))
        at += 12 + struct.unpack(">i", text[at + 8:at + 12])[0]
    return found


def _records(body, first, count):
    values, records = _Values(body), []
    for _ in range(count):
        end = values.varint() + values.at
        values.take(1)
        values.varint()
        offset = first + values.varint()
        key, value = values.nullable(), values.nullable()
        values.at = end
        records.append(Record(offset, key, value))
    return records


def committed(batches, aborted, gone=None):
    """The records that a reader of committed records gets.

    `aborted` has (producer id, first offset) of each aborted transaction, as a Fetch names them. `gone` has the
    producers that are inside an aborted transaction, and is kept from one Fetch to the next.
    """
    gone = set() if gone is None else gone
    waiting = sorted(aborted, key=lambda it: it[1])
    records = []
    for batch in batches:
        while waiting and waiting[0][1] <= batch.last:
            gone.add(waiting.pop(0)[0])
        if batch.control:
            # the key of a marker is a version (i16) and a type (i16), which is 0 for an abort
            if batch.records and batch.records[0].key[2:4] == b"\0\0":
                gone.discard(batch.pid)
        elif not (batch.transactional and batch.pid in gone):
            records += batch.records
    return records
