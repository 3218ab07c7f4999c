#!/usr/bin/env python3
"""Writes src/table.rt: checks and whole frames, reckoned without our engine.

A check is the remainder of a long division of polynomials over GF(2), not a shift register: with n message bits M,
start value I and W check bits it is (M * x^W + I * x^n) mod G. Whole-byte checks of 16 bits are compared with Python's
binascii.crc_hqx(data, 0xFFFF). Usage: python3 generate.py > src/table.rt, then rt fmt
"""
import binascii
import random

KINDS = {8: (0x107, 0xFF), 16: (0x11021, 0xFFFF)}


def mod(a, g):
    while a.bit_length() >= g.bit_length():
        a ^= g << (a.bit_length() - g.bit_length())
    return a


def check(bits, w):
    g, start = KINDS[w]
    m = int(bits, 2) if bits else 0
    return mod(m << w ^ start << len(bits), g)


def bits_of(data):
    return ''.join(format(b, '08b') for b in data)


def frame(w, address, pid, no_ack, payload):
    """address low byte first; answers the frame's bit count and bytes"""
    covered = bits_of(reversed(address)) + format(len(payload), '06b') + format(pid, '02b') + format(no_ack, '01b') + bits_of(payload)
    preamble = '10101010' if covered[0] == '1' else '01010101'
    bits = preamble + covered + format(check(covered, w), '0%db' % w)
    padded = bits + '0' * (-len(bits) % 8)
    return len(bits), bytes(int(padded[i:i + 8], 2) for i in range(0, len(padded), 8))


def rust(data):
    return '&[' + ', '.join('0x%02X' % b for b in data) + ']'


def main():
    g = random.Random(2024)
    assert check('1', 8) == 0xFE and check('0', 8) == 0xF9 and check('1', 16) == 0xFFFE and check('0', 16) == 0xEFDF
    checks = []
    for size in (0, 1, 2, 4, 31, 32, 41, 200):
        data = bytes(g.randrange(256) for _ in range(size))
        assert check(bits_of(data), 16) == binascii.crc_hqx(data, 0xFFFF)
        for n in sorted({0, 1, 7, 8 * size // 2 + 3, max(8 * size - 1, 0), 8 * size, 8 * size + 5}):
            some = bits_of(data)[:n]
            checks.append((data, n, check(some, 8), check(some, 16)))
    frames = []
    for w in (8, 16):
        for width in (3, 4, 5):
            for length in (0, 1, 4, 31, 32):
                address = bytes(g.randrange(256) for _ in range(width))
                payload = bytes(g.randrange(256) for _ in range(length))
                pid, no_ack = g.randrange(4), g.randrange(2)
                count, data = frame(w, address, pid, no_ack, payload)
                # a change of at least one bit past the preamble, within W bits
                start = g.randrange(8, count)
                pattern = 1 << 15 | g.randrange(1 << 15) & (0x7FFF if w == 16 else 0x7F00)
                frames.append((w, address, pid, no_ack, payload, count, data, start, pattern))
    print('// Made by generate.py beside src/, then laid out by rt fmt: checks by long division, frames from the field layout.')
    print()
    print('// The checks of the first `bits` bits of `data`.')
    print('#[derive(Clone, Copy)]\npub struct Checked {\n    pub data: &\'static [u8],\n    pub bits: usize,\n    pub crc8: u8,\n    pub crc16: u16,\n}\n')
    print('// A frame with a check of `wide` bits: its fields, its bit count and bytes, and a change that must show.')
    print('#[derive(Clone, Copy)]\npub struct Framed {\n    pub wide: u8,\n    pub address: &\'static [u8],\n    pub pid: u8,\n    pub no_ack: bool,\n    pub payload: &\'static [u8],\n'
          '    pub bits: usize,\n    pub frame: &\'static [u8],\n    pub start: usize,\n    pub pattern: u16,\n}\n')
    print('pub static CHECKED: [Checked; %d] = [' % len(checks))
    for data, n, a, b in checks:
        print('    Checked { data: %s, bits: %d, crc8: 0x%02X, crc16: 0x%04X },' % (rust(data), n, a, b))
    print('];\n')
    print('pub static FRAMED: [Framed; %d] = [' % len(frames))
    for w, address, pid, no_ack, payload, count, data, start, pattern in frames:
        print('    Framed { wide: %d, address: %s, pid: %d, no_ack: %s, payload: %s, bits: %d, frame: %s, start: %d, pattern: 0x%04X },'
              % (w, rust(address), pid, 'true' if no_ack else 'false', rust(payload), count, rust(data), start, pattern))
    print('];')


main()
