/* What the programs of this folder share: an end that names its cause, processor time, a CRC-32 bit by bit, and numbers with the
   highest byte first. */
#include <stdint.h>
#include <stdio.h>
#include <stdlib.h>
#include <sys/resource.h>

static void fail(const char *what) {
    perror(what);
    exit(1);
}

/* In milliseconds, in user and in system mode. */
static double processor_time(void) {
    struct rusage used;
    getrusage(RUSAGE_SELF, &used);
    return (used.ru_utime.tv_sec + used.ru_stime.tv_sec) * 1e3 + (used.ru_utime.tv_usec + used.ru_stime.tv_usec) / 1e3;
}

__attribute__((unused)) static uint32_t crc32(const unsigned char *bytes, size_t length) {
    uint32_t sum = ~0u;
    for (size_t at = 0; at < length; at++) {
        sum ^= bytes[at];
        for (int bit = 0; bit < 8; bit++)
            sum = sum >> 1 ^ (sum & 1 ? 0xEDB88320u : 0);
    }
    return ~sum;
}

__attribute__((unused)) static void put(unsigned char *to, uint64_t number, int bytes) {
    for (int at = bytes - 1; at >= 0; at--, number >>= 8)
        to[at] = number;
}
