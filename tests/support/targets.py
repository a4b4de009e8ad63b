"""Targets made byte by byte: small ELF and PE files."""

from __future__ import annotations

from collections.abc import Mapping


def bytes_at(length: int, pieces: Mapping[int, bytes | str]) -> bytes:
    """`length` bytes, all 0 but the pieces at their places; a text stands for hex digits."""
    made = bytearray(length)
    for place, piece in pieces.items():
        part = bytes.fromhex(piece) if isinstance(piece, str) else piece
        made[place : place + len(part)] = part
    return bytes(made)


# A 64-bit ELF file with a little code, three sections and no segment.
SAMPLE_ELF = bytes_at(
    320,
    {
        0x00: "7f454c46020101",
        0x10: "02003e0001",
        0x1A: "40",
        0x28: "80",
        0x34: "400038000000400003000200",
        0x40: b"/bin/sh",
        0x48: b"ld_preload",
        0x53: b"http://ab.cd/x",
        0x62: "4831c00f05",
        0x69: b".text",
        0x6F: b".shstrtab",
        # Section 1: name 1, type 1, flags 6, address, offset, size.
        0xC0: "01000000 01000000 06",
        0xD0: "000040",
        0xD8: "40",
        0xE0: "28",
        # Section 2: name 7, type 3, offset 0x68, size 0x11.
        0x100: "07000000 03000000",
        0x118: "68",
        0x120: "11",
    },
)

# A header of a 64-bit ELF file and no more: type 2, machine 62.
BARE_ELF = bytes_at(64, {0: "7f454c46020101", 0x10: "02003e00"})

# A 32-bit ELF file, highest byte first: one segment at 52, one section at 84.
HIGH_FIRST_ELF = bytes_at(
    124,
    {
        0x00: "7f454c46010201",
        0x10: "00020014",
        0x18: "00001010",
        0x1C: "00000034 00000054",
        0x2A: "0020 0001 0028 0001 0000",
        # The segment: type, offset, virtual and physical address, sizes in file and memory,
        # flags, alignment.
        0x34: "00000001 00000020 00001000 00002000 00000040 00000080 00000005 00000010",
        # The section: name 1, type 3, flags 4, address, offset 0x5b, size 3.
        0x54: "00000001 00000003 00000004 00003000 00000000 00000003",
    },
)

# A 32-bit PE file with one section.
SAMPLE_PE = bytes_at(
    148,
    {
        0x00: "4d5a",
        0x3C: "40",
        0x40: "50450000 4c01 0100",
        0x54: "14000200",
        0x58: "0b01",
        0x68: "1010",
        0x6C: b".text",
        0x74: "0001",
        0x78: "0010",
        0x7C: "0002",
        0x80: "0002",
        0x90: "20000060",
    },
)
