/* CRC-32 by a table of bytes, one byte at a step: what bench/crc.sh compares with.
   Usage: crc_bytes FILE PASSES. It prints the sum modulo 2 of the CRCs of the bytes from place 0 on, from
   place 1 on, and so forth. */
#include <stdint.h>
#include <stdio.h>
#include <stdlib.h>

static uint32_t table[256];

static void fill_table(void) {
    for (uint32_t byte = 0; byte < 256; byte++) {
        uint32_t remainder = byte;
        for (int bit = 0; bit < 8; bit++)
            remainder = remainder & 1 ? (remainder >> 1) ^ 0xEDB88320u : remainder >> 1;
        table[byte] = remainder;
    }
}

static uint32_t crc32(const unsigned char *bytes, size_t len) {
    uint32_t remainder = 0xFFFFFFFFu;
    for (size_t i = 0; i < len; i++)
        remainder = table[(remainder ^ bytes[i]) & 0xFF] ^ (remainder >> 8);
    return ~remainder;
}

int main(int argc, char **argv) {
    if (argc != 3) {
        puts("usage: crc_bytes FILE PASSES");
        return 0;
    }
    FILE *file = fopen(argv[1], "rb");
    if (!file || fseek(file, 0, SEEK_END) != 0)
        return 1;
    size_t len = (size_t)ftell(file);
    rewind(file);
    unsigned char *bytes = malloc(len ? len : 1);
    if (!bytes || fread(bytes, 1, len, file) != len)
        return 1;
    fill_table();
    size_t passes = strtoull(argv[2], NULL, 10);
    uint32_t sum = 0;
    for (size_t start = 0; start < passes && start < len; start++)
        sum ^= crc32(bytes + start, len - start);
    printf("%u\n", sum);
    return 0;
}
