"""What the recorders share: SplitMix64, edge values, records, and the machine."""

import struct
import subprocess

M64 = 2**64 - 1
RECORDER = range(0x40_0000, 0x100_0000)  # where a64.c's own code stands
EDGES = [0, 1, M64, 0x7FFF_FFFF, 0x8000_0000, 0xFFFF_FFFF, 0x1_0000_0000,
         0xFFFF_FFFF_8000_0000, 2**63 - 1, 2**63]


class Random:
    """SplitMix64: the same cases on every machine."""

    def __init__(self, seed):
        self.state = seed

    def next(self):
        self.state = (self.state + 0x9E37_79B9_7F4A_7C15) & M64
        z = self.state
        z = ((z ^ (z >> 30)) * 0xBF58_476D_1CE4_E5B9) & M64
        z = ((z ^ (z >> 27)) * 0x94D0_49BB_1331_11EB) & M64
        return z ^ (z >> 31)

    def below(self, bound):
        return self.next() % bound

    def between(self, low, high):
        return low + self.below(high - low + 1)

    def pick(self, choices):
        return choices[self.below(len(choices))]

    def distinct(self, choices, number):
        rest = list(choices)
        return [rest.pop(self.below(len(rest))) for _ in range(number)]

    def value(self):
        """A register's value: an edge, near an edge, short, or any."""
        any_value = self.next()
        match self.below(6):
            case 0 | 1:
                return self.pick(EDGES)
            case 2:
                return (self.pick(EDGES) + self.between(-3, 3)) & M64
            case 3:
                value = any_value >> self.below(64)
                return -value & M64 if self.below(2) else value
            case _:
                return any_value


def default(register):
    """What a register starts as where a case does not say."""
    return register * 0x0101_0101_0101_0101


def pairs(values):
    """[number u8]{register u8, value u64}*number"""
    out = bytes([len(values)])
    for register in sorted(values):
        out += struct.pack("<BQ", register, values[register])
    return out


def machine(command, requests, size):
    """Runs the recorder's C program on the requests; its outcomes in pieces of `size` bytes."""
    done = subprocess.run(command, input=b"".join(requests), stdout=subprocess.PIPE, check=True, timeout=900)
    if len(done.stdout) != size * len(requests):
        raise SystemExit(f"{command}: {len(done.stdout)} bytes for {len(requests)} requests")
    return [done.stdout[i:i + size] for i in range(0, len(done.stdout), size)]


class A64:
    """Requests to the recorder a64.c and its outcomes, by the bytes that it has for code and memory."""

    def __init__(self, code, memory):
        self.request = struct.Struct(f"<QQQ{code}s31QQQQQ{memory}s")
        self.outcome = struct.Struct(f"<QQ31QQQQ31Q{memory}s")

    def ask(self, address, code, jumps, x, sp, nzcv, base, memory):
        """A piece of code; jumps: its last word is a BLR or RET."""
        straight = len(code) - 4 if jumps else len(code)
        return self.request.pack(address, straight, len(code), code, *x, sp, nzcv, base, len(memory), memory)

    def took(self, outcome, size):
        """Signal, PC, X0 to X30, SP, NZCV, the registers in front of a BLR or RET, and the memory; none beside it changed."""
        signal, pc, *rest, data = self.outcome.unpack(outcome)
        assert rest[33] == 0
        return signal, pc, rest[:31], rest[31], rest[32], rest[34:], data[:size]


def led_to(signal, pc, target):
    """Whether a jump to the target trapped there. Address tagging: user code goes on at the address without its top byte."""
    return signal in (5, 7, 11) and (pc - target) % 2**56 == 0


def listed(command):
    """Mnemonic and operands at each offset, as this objdump says them."""
    lines = subprocess.run(command, capture_output=True, text=True, check=True).stdout.splitlines()
    found = {}
    for line in lines:
        parts = line.split("\t")
        if len(parts) >= 3 and parts[0].strip().endswith(":"):
            found[int(parts[0].strip()[:-1], 16)] = [part.strip() for part in parts[2:]]
    return found


def disassembly(objdump, flags, code):
    """Mnemonic and operands at each offset, as binutils reads the code."""
    with open("code.bin", "wb") as file:
        file.write(code)
    return listed([objdump, "-b", "binary", "-D", *flags, "code.bin"])


def disassemble(objdump, flags, code):
    """The mnemonic at each offset."""
    return {offset: parts[0] for offset, parts in disassembly(objdump, flags, code).items()}


def write(path, magic, records):
    with open(path, "wb") as file:
        file.write(magic + struct.pack("<I", len(records)))
        file.writelines(records)
