#!/usr/bin/env python3
"""Writes marked.bin: the rows of document 01's "Marked blocks" in the format of blocks.bin (rust/oracle/README.md).

Document 01 counts the words of the 64 DIV and does not list them: the 29 words of one DIV are those of emuko's Rust.
No row has a helper's instruction or FENCE.I, so each block's end kind is plain.
"""
import pathlib
import struct

PLAIN = 1
HELPERS = 0x10000, 0x20000, 0x30000
DIVISIONS = "B3 42 73 02" * 64
ROW_1 = "D2820040 D2800021 D65F03C0"
DIV = """
F9401809 F9401C0A 9ACA0D2B D280000C EB0C015F D29FFFED F2BFFFED F2DFFFED F2FFFFED 9A8B01AB
D280000C F2F0000C EB0C013F D280002E D280000F 9A8F01CE D29FFFEC F2BFFFEC F2DFFFEC F2FFFFEC
EB0C015F D280002F D2800010 9A9001EF 8A0F01CE D2800030 EB1001DF 9A8B012B F900140B """
DIVISIONS_END = "D2802000 F2A00020 F2C00020 F2E00020 D2800801 D65F03C0"


def case(guest, limit, pc, slot_offset, room, refusal, count, words):
    guest = bytes.fromhex(guest)
    words = [int(word, 16) for word in words.split()]
    asked = struct.pack("<QIBQQQQI", pc, limit, 0, slot_offset, *HELPERS, room)
    found = struct.pack("<BBBH", refusal, 0 if refusal else PLAIN, count, len(words))
    return struct.pack("<H", len(guest)) + guest + asked + found + struct.pack(f"<{len(words)}I", *words)


def block(guest, limit, words, count=1, pc=0x1000, slot_offset=0):
    return case(guest, limit, pc, slot_offset, 7448, 0, count, words)


def refused(number, guest, limit, pc=0x1000, slot_offset=0, room=7448):
    return case(guest, limit, pc, slot_offset, room, number, 0, "")


CASES = [
    block("01 00", 1, ROW_1),
    block("01 00", 1, "D2800000 D2800021 D65F03C0", pc=0xFFFFFFFFFFFFFFFE),
    block("7D 55", 1, "D29FFFEB F2BFFFEB F2DFFFEB F2FFFFEB F900280B " + ROW_1),
    block("82 80", 1, "F9400409 D29FFFCA F2BFFFEA F2DFFFEA F2FFFFEA 8A0A0120 D2800021 D65F03C0"),
    block("01 00 41 9C", 2, "F9402009 F940200A " + ROW_1),
    refused(5, "41 9C", 1),
    refused(5, "00 00", 1),
    refused(4, "03 00", 1),
    refused(2, "", 0),
    block("01 00" * 65, 65, "D2821000 D2800801 D65F03C0", count=64),
    refused(5, "73 00 00 00", 1),
    block(DIVISIONS, 64, DIV * 64 + DIVISIONS_END, count=64, pc=0x0001000100010000),
    refused(6, DIVISIONS, 64, pc=0x0001000100010000, room=7447),
    block("01 00", 1, ROW_1, slot_offset=32512),
    refused(1, "01 00", 1, slot_offset=32520),
]
header = b"A64BLOCK" + struct.pack("<IQ", len(CASES), 0)
(pathlib.Path(__file__).parent / "marked.bin").write_bytes(header + b"".join(CASES))
