"""Machine code of RV64IM and files of one segment, for the scripts that make inputs for the built program."""
import struct

ZERO, RA, SP, GP = 0, 1, 2, 3
ENTRY = 0x10078
EBREAK = 0x00100073
RETURN = 0x00008067


def addi(rd, rs, imm):
    return (imm & 0xFFF) << 20 | rs << 15 | rd << 7 | 0x13


def add(rd, rs, rt):
    return rt << 20 | rs << 15 | rd << 7 | 0x33


def sd(rs, imm, base):
    imm &= 0xFFF
    return (imm >> 5) << 25 | rs << 20 | base << 15 | 3 << 12 | (imm & 31) << 7 | 0x23


def ld(rd, imm, base):
    return (imm & 0xFFF) << 20 | base << 15 | 3 << 12 | rd << 7 | 0x03


def branch(funct3, rs, rt, off):
    b = off & 0x1FFF
    high = (b >> 12) << 31 | (b >> 5 & 63) << 25
    return high | rt << 20 | rs << 15 | funct3 << 12 | (b >> 1 & 15) << 8 | (b >> 11 & 1) << 7 | 0x63


def beq(rs, rt, off):
    return branch(0, rs, rt, off)


def bne(rs, rt, off):
    return branch(1, rs, rt, off)


def jal(rd, off):
    b = off & 0x1FFFFF
    return (b >> 20) << 31 | (b >> 1 & 0x3FF) << 21 | (b >> 11 & 1) << 20 | (b >> 12 & 255) << 12 | rd << 7 | 0x6F


def elf(words, padding=0):
    """A file with one segment, which holds its headers, the words, and so many bytes more."""
    size = 120 + 4 * len(words) + padding
    head = b"\x7fELF\x02\x01\x01" + bytes(9) + struct.pack("<HHIQQQIHHHHHH", 2, 243, 1, ENTRY, 64, 0, 0, 64, 56, 1, 0, 0, 0)
    segment = struct.pack("<IIQQQQQQ", 1, 5, 0, 0x10000, 0x10000, size, size, 0x1000)
    return head + segment + struct.pack(f"<{len(words)}I", *words) + bytes(padding)
