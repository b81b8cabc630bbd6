"""CRC-32 by zlib: what bench/crc.sh compares with. Usage and output are those of crc_bytes.c."""

import sys
import zlib

with open(sys.argv[1], "rb") as file:
    data = memoryview(file.read())
total = 0
for start in range(min(int(sys.argv[2]), len(data))):
    total ^= zlib.crc32(data[start:])
print(total)
