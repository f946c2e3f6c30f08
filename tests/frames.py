"""Frames of M2PA (RFC 4165), messages of user parts, and captures of frames."""

from __future__ import annotations

import struct
from dataclasses import dataclass
from enum import IntEnum
from pathlib import Path

# The number before the first message.
NO_NUMBER = 0xFFFFFF

# A message of the ISDN user part in the international network (Q.704 14.2).
ISUP = 0x85

USER_DATA, LINK_STATUS = 1, 2

# Headings of network management (Q.704 15, Q.2210).
CHANGEOVER_ORDER, CHANGEOVER_ACKNOWLEDGEMENT = 0x31, 0x41
CHANGEBACK_DECLARATION, CHANGEBACK_ACKNOWLEDGEMENT = 0x51, 0x61


class Status(IntEnum):
    """What a link says of itself (RFC 4165 2.3.2)."""

    ALIGNMENT = 1
    PROVING_NORMAL = 2
    READY = 4
    PROCESSOR_OUTAGE = 5
    PROCESSOR_RECOVERED = 6
    BUSY = 7
    BUSY_ENDED = 8


def frame(kind: int, body: bytes = b"", bsn: int = NO_NUMBER, fsn: int = NO_NUMBER) -> bytes:
    return struct.pack(">BBBBIII", 1, 0, 11, kind, 16 + len(body), bsn, fsn) + body


def status_frame(status: Status) -> bytes:
    return frame(LINK_STATUS, struct.pack(">I", status))


def label(opc: int, dpc: int, sls: int) -> bytes:
    return struct.pack("<I", dpc | opc << 14 | sls << 28)


def message(opc: int, dpc: int, sls: int, number: int, octets: int = 8) -> bytes:
    """A message of a flow with a number: SIO and SIF. The SIF has so many octets."""
    return bytes([ISUP]) + (label(opc, dpc, sls) + struct.pack(">I", number)).ljust(octets, b"\x5a")


@dataclass(frozen=True)
class Packet:
    """A packet of a capture: the number of its link, whether the frame went out, and the frame."""

    link: int
    went_out: bool
    number: int
    frame: bytes

    def management(self) -> int | None:
        """The heading of the message of network management that it carries, if it does."""
        is_management = self.frame[3] == USER_DATA and len(self.frame) > 22 and self.frame[17] & 15 == 0
        return self.frame[22] if is_management else None


def read_capture(file: Path, may_be_cut: bool = False) -> list[Packet]:
    """The packets of a pcap file of link type 248. Fails at one that isn't a whole frame in an SCTP packet, unless it is
    the last and may be cut."""
    octets = file.read_bytes()
    magic, major, minor, _, _, longest, kind = struct.unpack_from("<IHHiIII", octets)
    assert (magic, major, minor, kind) == (0xA1B2C3D4, 2, 4, 248), f"the header of {file}"
    packets, at = [], 24
    while at < len(octets):
        if may_be_cut and at + 16 > len(octets):
            break
        _, _, captured, length = struct.unpack_from("<IIII", octets, at)
        assert captured == length <= longest, f"a record of {captured} of {length} octets at {at}"
        at += 16 + captured
        if may_be_cut and at > len(octets):
            break
        assert at <= len(octets), f"a record ends at {at} of {len(octets)} octets"
        packets.append(_packet(octets[at - captured : at]))
    return packets


def _packet(octets: bytes) -> Packet:
    """A packet with one DATA chunk (RFC 9260 3.3.1), whose payload is a frame."""
    source, destination, _, _ = struct.unpack_from(">HHII", octets)
    kind, flags, length, number, _, _, protocol = struct.unpack_from(">BBHIHHI", octets, 12)
    assert (kind, flags, protocol) == (0, 3, 5), f"a chunk of type {kind}, flags {flags}, protocol {protocol}"
    carried = octets[28 : 12 + length]
    assert 3565 in (source, destination) and len(octets) == 12 + (length + 3) // 4 * 4
    assert carried[0] == 1 and carried[2] == 11 and carried[3] in (USER_DATA, LINK_STATUS), carried.hex()
    assert len(carried) == struct.unpack_from(">I", carried, 4)[0], carried.hex()
    went_out = source == 3565
    return Packet((destination if went_out else source) - 4000, went_out, number, carried)
