"""Packets of SCTP (RFC 9260): their checksum, and those of a capture."""

from __future__ import annotations

import struct
from collections.abc import Iterator
from pathlib import Path

# The polynomial of CRC32c, reflected (RFC 9260 appendix A).
POLYNOMIAL = 0x82F63B78

DATA, INIT, INIT_ACK, ABORT = 0, 1, 2, 6


def _entry(octet: int) -> int:
    for _ in range(8):
        octet = octet >> 1 ^ (POLYNOMIAL if octet & 1 else 0)
    return octet


TABLE = [_entry(octet) for octet in range(256)]


def crc32c(octets: bytes) -> int:
    crc = 0xFFFFFFFF
    for octet in octets:
        crc = crc >> 8 ^ TABLE[(crc ^ octet) & 255]
    return crc ^ 0xFFFFFFFF


def packet(source: int, destination: int, tag: int, chunks: bytes) -> bytes:
    """A packet with its checksum."""
    front = struct.pack(">HHI", source, destination, tag)
    return front + struct.pack("<I", crc32c(front + bytes(4) + chunks)) + chunks


def chunk(kind: int, value: bytes = b"", flags: int = 0) -> bytes:
    octets = struct.pack(">BBH", kind, flags, 4 + len(value)) + value
    return octets.ljust((len(octets) + 3) // 4 * 4, b"\0")


def is_whole(octets: bytes) -> bool:
    """Whether the checksum of a packet is right."""
    return crc32c(octets[:8] + bytes(4) + octets[12:]) == struct.unpack_from("<I", octets, 8)[0]


def chunks_of(octets: bytes) -> Iterator[tuple[int, bytes]]:
    """The type of each chunk of a packet, and its value."""
    at = 12
    while at + 4 <= len(octets):
        kind, _, length = struct.unpack_from(">BBH", octets, at)
        yield kind, octets[at + 4 : at + length]
        at += max(4, (length + 3) // 4 * 4)


def kinds(octets: bytes) -> list[int]:
    """The types of the chunks of a packet."""
    return [kind for kind, _ in chunks_of(octets)]


def tsns(octets: bytes) -> list[int]:
    """The numbers of the DATA chunks of a packet (RFC 9260 3.3.1)."""
    return [int.from_bytes(value[:4], "big") for kind, value in chunks_of(octets) if kind == DATA]


def read_packets(file: Path) -> list[bytes]:
    """The packets of a pcap file of link type 248."""
    octets = file.read_bytes()
    assert struct.unpack_from("<IHHiIII", octets)[6] == 248, f"the header of {file}"
    packets, at = [], 24
    while at < len(octets):
        _, _, captured, length = struct.unpack_from("<IIII", octets, at)
        assert captured == length, f"a record of {captured} of {length} octets at {at}"
        at += 16 + captured
        assert at <= len(octets), f"a record ends at {at} of {len(octets)} octets"
        packets.append(octets[at - captured : at])
    return packets
