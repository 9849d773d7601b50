"""Has the machine run the Rust's blocks that a helper ends, to the call and from what a helper leaves to the return, and writes
the record. Use: helpers.py PROGRAM BLOCKS RECORD

BLOCKS is what the Rust answered (crates/blocks_replay/data/blocks.bin; rust/oracle/README.md has its format). No helper is there:
the machine traps where BLR leads, the helper's work is done on the state, and the machine goes on where X30 says.
"""

import struct
import sys
from dataclasses import dataclass

from common import A64, RECORDER, M64, Random, default, led_to, machine, pairs, write

rng = Random(0x4845_4C50)

CODE, MEMORY = 7680, 512  # the most bytes of each
PAGES = [0x7FFF_F000, 0xFFFF_F000, 0x12_3456_7000]  # of the words; the first two end at 2^31 and 2^32
BASES = [0x1_8000_0000, 0x7_FFFF_F000, 0x7F_FFFF_0000]  # of memory
BLR_X16, RET = 0xD63F_0200, 0xD65F_03C0
RECORD = A64(CODE, MEMORY)


@dataclass
class Block:
    """An accepted question to Translate, as it is recorded, and the Rust's block."""
    question: bytes
    slot_offset: int
    count: int
    words: list


def helper_blocks(path):
    with open(path, "rb") as file:
        data = file.read()
    assert data[:8] == b"A64BLOCK"
    at = 20
    for _ in range(struct.unpack_from("<I", data, 8)[0]):
        start, (length,) = at, struct.unpack_from("<H", data, at)
        at += 2 + length
        slot_offset = struct.unpack_from("<Q", data, at + 13)[0]
        question = data[start:at + 45]
        end, count, number = struct.unpack_from("<BBH", data, at + 50)
        at += 54 + 4 * number
        if end == 2:
            yield Block(question, slot_offset, count, list(struct.unpack_from(f"<{number}I", data, at - 4 * number)))


def code(words):
    return struct.pack(f"<{len(words)}I", *words)


def elsewhere(address):
    """An address to return to: neither at the block's words nor in the recorder."""
    while (to := rng.value()) in RECORDER or abs(to - address) < 2**14:
        pass
    return to


class Case:
    """The block at an address, with slots and the 16 bytes below SP side by side or apart, and bytes around them or none."""

    def __init__(self, block):
        self.block = block
        behind = 3 if block.count == 1 else 5
        self.steps = len(block.words) - behind
        assert block.words[self.steps - 1] == BLR_X16 and block.words[-1] == RET and block.count <= 64
        self.address = rng.pick(PAGES) + 4 * rng.below(100)
        gap, around = 8 * rng.pick((0, 0, 1, rng.below(8))), rng.pick((0, 0, rng.below(24)))
        slots, stack = rng.pick(((16 + gap, 0), (0, 256 + gap)))
        first = (rng.pick(BASES) + 4096 + stack & -16) - stack
        self.base, self.slots = first - around, slots + around
        registers = [rng.value() for _ in range(32)]  # register 0's slot holds anything
        data = bytearray(rng.below(256) for _ in range(around + 272 + gap + around))
        data[self.slots:self.slots + 256] = struct.pack("<32Q", *registers)
        self.memory = bytes(data)
        self.inputs = {0: first + slots - block.slot_offset & M64, 30: elsewhere(self.address)}
        self.sp, self.nzcv = first + stack + 16, rng.below(16)

    def entry(self):
        x = [self.inputs.get(r, default(r)) for r in range(31)]
        return RECORD.ask(self.address, code(self.block.words[:self.steps]), True, x, self.sp, self.nzcv, self.base, self.memory)

    def called(self, outcome):
        """Takes the call down, and does what the helper does: it changes all but SP and the eight bytes there."""
        signal, pc, x, sp, nzcv, before, data = self.call = RECORD.took(outcome, len(self.memory))
        assert led_to(signal, pc, before[16]) and x[30] == self.address + 4 * self.steps
        self.left = {0: rng.value(), 1: rng.value()}
        self.left_nzcv = ~nzcv & 15
        cell = range(sp - self.base, sp - self.base + 8)
        self.left_memory = bytes(byte if i in cell else ~byte & 255 for i, byte in enumerate(data))

    def behind(self):
        x = [self.left.get(r, ~default(r) & M64) for r in range(31)]
        return RECORD.ask(self.call[2][30], code(self.block.words[self.steps:]), True, x, self.call[3], self.left_nzcv,
                          self.base, self.left_memory)

    def record(self, outcome):
        signal, pc, x, sp, nzcv, before, data = RECORD.took(outcome, len(self.memory))
        assert led_to(signal, pc, before[30])
        block, (_, _, x_call, sp_call, nzcv_call, _, data_call) = self.block, self.call
        at_call = {r: x_call[r] for r in range(31) if x_call[r] != self.inputs.get(r, default(r))}
        at_return = {r: x[r] for r in range(31) if x[r] != self.left.get(r, ~default(r) & M64)}
        return (block.question + struct.pack("<BHH", block.count, len(block.words), self.steps) + code(block.words)
                + struct.pack("<QQHH", self.address, self.base, self.slots, len(self.memory)) + self.memory
                + pairs(self.inputs) + struct.pack("<QB", self.sp, self.nzcv)
                + pairs(at_call) + struct.pack("<QB", sp_call, nzcv_call) + changed(self.memory, data_call)
                + pairs(self.left) + struct.pack("<B", self.left_nzcv)
                + pairs(at_return) + struct.pack("<QB", sp, nzcv) + changed(self.left_memory, data))


def changed(before, after):
    """[number u16]{offset u16, byte u8}*number"""
    bytes_at = [(i, new) for i, (old, new) in enumerate(zip(before, after)) if old != new]
    return struct.pack("<H", len(bytes_at)) + b"".join(struct.pack("<HB", *pair) for pair in bytes_at)


def main():
    program, blocks, path = sys.argv[1:]
    cases = [Case(block) for block in helper_blocks(blocks)]
    for case, outcome in zip(cases, machine(program.split(), [case.entry() for case in cases], RECORD.outcome.size)):
        case.called(outcome)
    outcomes = machine(program.split(), [case.behind() for case in cases], RECORD.outcome.size)
    write(path, b"A64CALLS", [case.record(outcome) for case, outcome in zip(cases, outcomes)])
    longest = max(len(case.block.words) for case in cases)
    print(f"helpers: {len(cases)} blocks, {sum(case.block.count > 1 for case in cases)} of more than one instruction, "
          f"of up to {longest} words")


main()
