"""AFDX frames as ARINC 664 Part 7 has them, and pcap files of them, for make_recording and make_flight.

A frame has the constant field (03 00 00 00) and the virtual link as its destination address, IPv4 and UDP with their
lengths and checksums, and the sequence number as its last byte. It has no frame check sequence.
"""
import struct

HEADER = struct.pack("<IHHIIII", 0xA1B23C4D, 2, 4, 0, 0, 262144, 1)
CONSTANT = bytes([3, 0, 0, 0])
# The source address of an end system: its last byte is 0x20 on network A and 0x40 on network B.
SOURCES = {"A": bytes([2, 0, 0, 0, 1, 0x20]), "B": bytes([2, 0, 0, 0, 1, 0x40])}
UDP = 17


def sequence_after(number):
    """A sender counts 0 after a reset, then 1 to 255, then 1 again."""
    return 1 if number == 255 else number + 1


def checksum(data):
    """The Internet checksum (RFC 1071)."""
    if len(data) % 2:
        data += b"\0"
    total = sum(struct.unpack(f">{len(data) // 2}H", data))
    while total >> 16:
        total = (total & 0xFFFF) + (total >> 16)
    return ~total & 0xFFFF


def ipv4(source, destination, identification, carried):
    def header(value):
        return struct.pack(">BBHHHBBH4s4s", 0x45, 0, 20 + len(carried), identification, 0, 1, UDP, value, source, destination)

    return header(checksum(header(0))) + carried


def udp(source, destination, ports, payload):
    def header(value):
        return struct.pack(">HHHH", *ports, 8 + len(payload), value)

    pseudo = source + destination + struct.pack(">BBH", 0, UDP, 8 + len(payload))
    return header(checksum(pseudo + header(0) + payload) or 0xFFFF) + payload


def frame(link, number, size, network="A"):
    """A frame of a virtual link, of `size` bytes on the wire."""
    source, destination = bytes([10, 0, 1, 32]), bytes([224, 224, link >> 8, link & 255])
    payload = bytes((7 * i + link) % 256 for i in range(size - 14 - 20 - 8 - 1))
    datagram = udp(source, destination, (10000 + link, 20000 + link), payload)
    return CONSTANT + struct.pack(">H", link) + SOURCES[network] + b"\x08\x00" + ipv4(source, destination, number, datagram) + bytes([number])


def packet(stamp, data, original=None):
    """A packet of a nanosecond pcap file; `original` is the length on the wire where the data is truncated."""
    return struct.pack("<IIII", stamp // 10**9, stamp % 10**9, len(data), len(data) if original is None else original) + data
