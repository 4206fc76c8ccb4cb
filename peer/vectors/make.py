#!/usr/bin/python3
"""Makes the CRC vectors with crcmod (Debian package python3-crcmod); run by hand only.

    vectors/make.py > vectors/crc.txt
"""

import random

import crcmod

PARAMETERS = dict(initCrc=0xFFFF, rev=False, xorOut=0x0000)
CRCS = {
    "FCS": crcmod.mkCrcFun(0x11021, **PARAMETERS),
    "SAFETY": crcmod.mkCrcFun(0x190D9, **PARAMETERS),
}

HEADER = """\
# CRC vectors made with crcmod (Debian package python3-crcmod) by the command
#   vectors/make.py > vectors/crc.txt
# FCS: polynomial 0x11021, SAFETY: polynomial 0x190D9;
# initCrc=0xFFFF, rev=False, xorOut=0x0000.
# Each line: name, bytes in hex (- for none), CRC in hex.
"""


def strings():
    yield b"123456789"
    yield b""
    for byte in (0x00, 0x01, 0x02, 0x04, 0x08, 0x10, 0x20, 0x40, 0x80,
                 0x5D, 0x5E, 0x7D, 0x7E, 0x7F, 0xFE, 0xFF):
        yield bytes([byte])
    for length in (2, 3, 16, 255, 256, 300):
        yield bytes(length)
        yield bytes([0xFF] * length)
    chance = random.Random(411)
    lengths = [2, 3, 4, 5, 7, 8, 9, 15, 16, 17, 31, 32, 33, 63, 64, 65,
               127, 128, 129, 254, 255, 256, 257, 268, 269, 270, 271, 299, 300]
    lengths += [chance.randrange(2, 60) for _ in range(20)]
    lengths += [chance.randrange(60, 301) for _ in range(7)]
    for length in lengths:
        yield bytes(chance.randrange(256) for _ in range(length))


def main():
    print(HEADER, end="")
    for data in strings():
        for name, crc in CRCS.items():
            print(name, data.hex().upper() or "-", "%04X" % crc(data))


main()
