"""What the scripts of this folder share: connections, frames, numbers and checksums (docs/FORMATS.md)."""
import socket
import struct

TABLE = []
for byte in range(256):
    for _ in range(8):
        byte = byte >> 1 ^ (0x82F63B78 if byte & 1 else 0)
    TABLE.append(byte)


def crc32c(data):
    crc = 0xFFFFFFFF
    for byte in data:
        crc = crc >> 8 ^ TABLE[(crc ^ byte) & 0xFF]
    return crc ^ 0xFFFFFFFF


def varint(number):
    number = number << 1 ^ number >> 63
    out = bytearray()
    while number >= 0x80:
        out.append(number & 0x7F | 0x80)
        number >>= 7
    out.append(number)
    return bytes(out)


def connect(port, timeout):
    it = socket.create_connection(("127.0.0.1", port), timeout=timeout)
    it.setsockopt(socket.IPPROTO_TCP, socket.TCP_NODELAY, 1)
    return it


def take(it, length):
    got = b""
    while len(got) < length:
        piece = it.recv(length - len(got))
        if not piece:
            raise ConnectionError("closed")
        got += piece
    return got


def next_frame(it):
    """The next frame, its length in front."""
    front = take(it, 4)
    return front + take(it, struct.unpack(">I", front)[0])
