/* Seeded numbers, guests and hashes, for compare.c, blocks.c and stack.c. */
#ifndef DRAW_H
#define DRAW_H

#include "hilofanur.h"

#include <string.h>

static uint64_t seed;

/* SplitMix64. */
static inline uint64_t draw(void)
{
    uint64_t z = seed += 0x9E3779B97F4A7C15;
    z = (z ^ z >> 30) * 0xBF58476D1CE4E5B9;
    z = (z ^ z >> 27) * 0x94D049BB133111EB;
    return z ^ z >> 31;
}

static inline uint64_t below(uint64_t n)
{
    return draw() % n;
}

static inline bool one_in(uint64_t n)
{
    return below(n) == 0;
}

/* A number with few or many significant bits, small or near 2^64. */
static inline uint64_t number(void)
{
    uint64_t n = draw() >> below(64);
    return one_in(4) ? -n : one_in(6) ? n & 0xFFFF0000FFFF0000 : n;
}

static inline void fill(uint8_t *bytes, size_t length)
{
    for (size_t n = 0; n < length; n++)
        bytes[n] = n % 8 ? bytes[n - 1] * 5 + 1 : (uint8_t)draw();
}

static inline uint64_t mix(uint64_t hash, uint64_t number)
{
    hash = (hash ^ number) * 0x9E3779B97F4A7C15;
    return hash ^ hash >> 29;
}

static inline uint64_t mix_bytes(uint64_t hash, const uint8_t *bytes, size_t length)
{
    uint64_t number;
    for (; length >= 8; bytes += 8, length -= 8) {
        memcpy(&number, bytes, 8);
        hash = mix(hash, number);
    }
    while (length--)
        hash = mix(hash, *bytes++);
    return hash;
}

/* Of 16 bits: C1 without jumps and branches, and C.SLLI. */
static inline uint32_t straight16(uint32_t bits)
{
    uint32_t funct3 = one_in(3) ? 4 : below(4);
    return one_in(5) ? (bits & 0x1FFC) | 2 : (bits & 0x1FFC) | funct3 << 13 | 1;
}

/* Of 32 bits, inline; with funct7 mostly one that the group has. */
static inline uint32_t straight32(uint32_t bits)
{
    static const uint8_t opcodes[] = {0x13, 0x13, 0x1B, 0x33, 0x33, 0x3B, 0x3B, 0x37, 0x17, 0x0F};
    static const uint32_t upper[] = {0, 0, 0x20, 1, 1};
    uint32_t opcode = opcodes[below(sizeof opcodes)];
    bool has_funct7 =
        opcode == 0x33 || opcode == 0x3B || ((opcode == 0x13 || opcode == 0x1B) && (bits >> 12 & 3) == 1);
    if (has_funct7)
        bits = (bits & 0x01FFFFFF) | upper[below(5)] << 25;
    if (opcode == 0x0F)
        bits &= ~0x7000u;
    return (bits & ~0x7Fu) | opcode;
}

/* Of Zbb: with two registers or RORIW's number, with one register, or RORI. */
static inline uint32_t zbb(uint32_t bits)
{
    static const uint32_t registers[] = {0x40007033, 0x40006033, 0x40004033, 0x0A006033, 0x0A007033, 0x0A004033,
        0x0A005033, 0x60001033, 0x6000103B, 0x60005033, 0x6000503B, 0x6000501B};
    static const uint32_t unary[] = {0x60001013, 0x6000101B, 0x60101013, 0x6010101B, 0x60201013, 0x6020101B,
        0x60401013, 0x60501013, 0x0800403B, 0x28705013, 0x6B805013};
    uint64_t kind = below(24);
    if (kind < 12)
        return registers[kind] | (bits & 0x01FF8F80);
    return kind < 23 ? unary[kind - 12] | (bits & 0x000F8F80) : 0x60005013 | (bits & 0x03FF8F80);
}

/* An RV64 instruction; one in `ends` is likely to end a block: of 16 bits anything, a bit from Zbb, FENCE.I with any
 * other fields, jumps, branches, loads, stores, AMO, FP, SYSTEM, anything. */
static inline uint32_t instruction(uint64_t ends)
{
    static const uint8_t others[] = {
        0x63, 0x6F, 0x67, 0x03, 0x03, 0x23, 0x23, 0x0F, 0x73, 0x2F, 0x07, 0x27, 0x43, 0x53};
    uint32_t bits = (uint32_t)draw();
    if (!one_in(ends))
        return one_in(2) ? straight16(bits) : one_in(3) ? zbb(bits) : straight32(bits);
    if (one_in(3))
        return bits & 0xFFFF;
    if (one_in(16))
        return zbb(bits) ^ UINT32_C(1) << below(32);
    if (one_in(20))
        return bits | 3;
    if (one_in(8))
        return (bits & ~0x707Fu) | 0x100F;
    return (bits & ~0x7Fu) | others[below(sizeof others)];
}

/* Fills a guest of so many bytes. */
static inline void guest_code(uint8_t *bytes, size_t length)
{
    uint64_t ends = one_in(3) ? 4 : one_in(2) ? 16 : 200;
    for (size_t n = 0; n < length;) {
        uint32_t instr = instruction(ends);
        size_t size = (instr & 3) == 3 ? 4 : 2;
        for (size_t k = 0; k < size && n < length; k++)
            bytes[n++] = instr >> 8 * k;
    }
}

#endif
