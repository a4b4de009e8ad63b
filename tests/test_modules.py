"""The fields and calls of the modules, on small files made byte by byte."""

from __future__ import annotations

import hashlib
from pathlib import Path

import pytest

from support.rows import Row, judge, names, truth
from support.running import Program
from support.targets import BARE_ELF, HIGH_FIRST_ELF, SAMPLE_ELF, SAMPLE_PE, bytes_at

ELF = 'import "elf" '
HASH = 'import "hash" '
PE = 'import "pe" '

ELF_CONSTANTS = {
    "ET_NONE": 0, "ET_REL": 1, "ET_EXEC": 2, "ET_DYN": 3, "ET_CORE": 4,
    "EM_386": 3, "EM_MIPS": 8, "EM_PPC": 20, "EM_PPC64": 21, "EM_ARM": 40, "EM_X86_64": 62,
    "EM_AARCH64": 183,
    "SHT_NULL": 0, "SHT_PROGBITS": 1, "SHT_SYMTAB": 2, "SHT_STRTAB": 3, "SHT_RELA": 4,
    "SHT_HASH": 5, "SHT_DYNAMIC": 6, "SHT_NOTE": 7, "SHT_NOBITS": 8, "SHT_REL": 9,
    "SHT_SHLIB": 10, "SHT_DYNSYM": 11,
    "SHF_WRITE": 1, "SHF_ALLOC": 2, "SHF_EXECINSTR": 4,
    "PT_NULL": 0, "PT_LOAD": 1, "PT_DYNAMIC": 2, "PT_INTERP": 3, "PT_NOTE": 4, "PT_SHLIB": 5,
    "PT_PHDR": 6, "PF_X": 1, "PF_W": 2, "PF_R": 4,
}  # fmt: skip
PE_CONSTANTS = {
    "MACHINE_I386": 0x14C, "MACHINE_ARM": 0x1C0, "MACHINE_AMD64": 0x8664,
    "EXECUTABLE_IMAGE": 2, "DLL": 0x2000, "SECTION_CNT_CODE": 0x20,
    "SECTION_MEM_EXECUTE": 0x20000000, "SECTION_MEM_READ": 0x40000000,
    "SECTION_MEM_WRITE": 0x80000000,
}  # fmt: skip

# Two segments: one that may not be read to its end, and one that holds the entry's address.
SEGMENTS = bytes_at(
    64 + 2 * 56,
    {
        0x00: "7f454c46020101",
        0x10: "0300 b700",
        0x18: "3412",
        0x20: "40",
        0x36: "3800 0200 4000",
        # Type, flags, offset, virtual and physical address, sizes in file and memory, alignment.
        0x40: "01000000 04000000 1000000000000000 0010000000000000 0020000000000000"
        "3400000000000000 3402000000000000 0800000000000000",
        0x78: "02000000 06000000 0001000000000000 3412000000000000 ffffffffffffffff"
        "0000000000000000 0100000000000000 0000000000000000",
    },
)


def all_equal(module: str, values: dict[str, int]) -> str:
    """That each path of a module has its value."""
    return " and ".join(f"{module}.{path} == {value}" for path, value in values.items())


ELF_ROWS: list[Row] = [
    truth(all_equal("elf", ELF_CONSTANTS), True, "", "constants of elf", ELF),
    truth(
        all_equal(
            "elf",
            {
                "type": 2, "machine": 62, "number_of_sections": 3, "number_of_segments": 0,
                "sections[1].type": 1, "sections[1].flags": 6, "sections[1].address": 0x400000,
                "sections[1].offset": 0x40, "sections[1].size": 0x28, "sections[2].type": 3,
                "sections[2].offset": 0x68, "sections[2].size": 0x11,
            },
        ),
        True, SAMPLE_ELF, "fields of 64 bits", ELF,
    ),
    truth(
        'elf.sections[1].name == ".text" and elf.sections[2].name == ".shstrtab" '
        "and not defined elf.sections[3].name and not defined elf.sections[-1].type",
        True, SAMPLE_ELF, "names of sections", ELF,
    ),
    truth(
        all_equal(
            "elf",
            {
                "type": 2, "machine": 20, "entry_point": 0x30, "number_of_sections": 1,
                "number_of_segments": 1, "segments[0].type": 1, "segments[0].offset": 0x20,
                "segments[0].virtual_address": 0x1000,
                "segments[0].physical_address": 0x2000, "segments[0].file_size": 0x40,
                "segments[0].memory_size": 0x80, "segments[0].flags": 5,
                "segments[0].alignment": 16, "sections[0].type": 3, "sections[0].flags": 4,
                "sections[0].address": 0x3000, "sections[0].size": 3,
            },
        ),
        True, HIGH_FIRST_ELF, "fields of 32 bits, highest byte first", ELF,
    ),
    truth(
        all_equal(
            "elf",
            {
                "type": 3, "machine": 183, "entry_point": 0x100, "number_of_segments": 2,
                "segments[0].flags": 4, "segments[0].file_size": 0x34,
                "segments[0].memory_size": 0x234, "segments[1].flags": 6,
                "segments[1].physical_address": -1, "segments[1].type": 2,
            },
        ),
        True, SEGMENTS, "segments of 64 bits", ELF,
    ),
    truth(
        "not defined elf.segments[1].type and not defined elf.entry_point "
        "and elf.number_of_segments == 2 and defined elf.segments[0].type",
        True, SEGMENTS[:-1], "a segment that is cut by a byte", ELF,
    ),
    truth(
        "elf.number_of_sections == 0 and elf.number_of_segments == 0",
        True, BARE_ELF, "a bare header", ELF,
    ),
    truth(
        "for all s in elf.sections : ( false ) and for none s in elf.segments : ( true )",
        True, BARE_ELF, "loops over nothing", ELF,
    ),
    truth(
        "for 2 s in elf.sections : ( s.size > 0 ) and not for 3 s in elf.sections : ( s.size > 0 )",
        True, SAMPLE_ELF, "a loop over sections", ELF,
    ),
    truth(
        "not defined for any s in elf.sections : ( true )",
        True, b"text", "a loop over the sections of a text", ELF,
    ),
    truth(
        "not defined elf.type and not defined elf.number_of_sections and elf.ET_EXEC == 2",
        True, BARE_ELF[:4] + b"\x03" + BARE_ELF[5:], "no size of words", ELF,
    ),
    truth(
        "not defined elf.type", True, BARE_ELF[:5] + b"\x00" + BARE_ELF[6:], "no order of bytes",
        ELF,
    ),
]

HASH_ROWS: list[Row] = [
    truth(
        f'hash.{kind}({start}, {size}) == '
        f'"{hashlib.new(kind, bytes(range(256))[start : start + size]).hexdigest()}"',
        True, bytes(range(256)), f"{kind} of {size} bytes from {start}", HASH,
    )
    for kind in ("md5", "sha1", "sha256")
    for start, size in ((0, 256), (1, 55), (2, 56), (3, 64), (100, 0), (256, 0), (255, 1))
] + [
    truth(
        f"not defined hash.md5({start}, {size})", True, "abc", f"no digest of {start}, {size}", HASH
    )
    for start, size in ((4, 0), (0, 4), (-1, 1), (1, -1), ("9223372036854775807", 1))
]

PE_ROWS: list[Row] = [
    truth(all_equal("pe", PE_CONSTANTS), True, "", "constants of pe", PE),
    truth(
        all_equal(
            "pe",
            {
                "machine": 0x14C, "number_of_sections": 1, "timestamp": 0,
                "characteristics": 2, "entry_point": 0x210,
                "sections[0].virtual_address": 0x1000, "sections[0].virtual_size": 0x100,
                "sections[0].raw_data_offset": 0x200, "sections[0].raw_data_size": 0x200,
                "sections[0].characteristics": 0x60000020,
            },
        ),
        True, SAMPLE_PE, "fields of pe", PE,
    ),
    truth(
        "not defined pe.sections[1].name and not defined pe.sections[-1].name",
        True, SAMPLE_PE, "no more sections", PE,
    ),
    truth(
        "not defined pe.sections[0].name and pe.number_of_sections == 1 "
        "and for all s in pe.sections : ( not defined s.name )",
        True, SAMPLE_PE[:147], "a section that is cut by a byte", PE,
    ),
    truth(
        "not defined pe.entry_point and pe.machine == 0x14c",
        True, SAMPLE_PE[:0x58] + b"\x0c" + SAMPLE_PE[0x59:], "another kind of header", PE,
    ),
    truth(
        'pe.sections[0].name == ".textabc"',
        True, SAMPLE_PE[:0x71] + b"abc" + SAMPLE_PE[0x74:], "a name of eight bytes", PE,
    ),
    truth(
        "not defined pe.machine and not defined for any s in pe.sections : ( true )",
        True, SAMPLE_PE[:0x40] + b"X" + SAMPLE_PE[0x41:], "no PE file", PE,
    ),
]  # fmt: skip

ROWS = ELF_ROWS + HASH_ROWS + PE_ROWS


@pytest.mark.parametrize("one", ROWS, ids=names(ROWS))
def test_fields(program: Program, one: Row, tmp_path: Path) -> None:
    judge(program, one, tmp_path)
