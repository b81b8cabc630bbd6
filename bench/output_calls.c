/* Makes the calls that bench/outputs.sh times, without a store: batches of BYTES bytes are appended to a file, each with a
   sync, and behind each its position is written into another file, in one of two slots in turn, with a sync; with a sync of
   the folder first. A slot has 24 bytes, of which the last four are a CRC-32 of those before. It prints the milliseconds of
   processor time that this took. */
#include <fcntl.h>
#include <libgen.h>
#include <stdint.h>
#include <stdio.h>
#include <stdlib.h>
#include <string.h>
#include <unistd.h>

#include "calls.h"

enum { SLOT = 24, SUMMED = 20 };

static void record(int slots, uint64_t turn, uint64_t position) {
    unsigned char slot[SLOT] = {0, 1};
    put(slot + 2, turn, 8);
    put(slot + 10, position, 8);
    put(slot + SUMMED, crc32(slot, SUMMED), 4);
    if (pwrite(slots, slot, SLOT, (turn & 1) * SLOT) != SLOT || fsync(slots) < 0)
        fail("slot");
}

int main(int argc, char **argv) {
    if (argc != 5) {
        fprintf(stderr, "usage: output_calls FILE SLOT BATCHES BYTES\n");
        return 1;
    }
    long batches = atol(argv[3]), length = atol(argv[4]);
    unsigned char *batch = malloc(length);
    if (!batch)
        fail("malloc");
    memset(batch, 'x', length);
    double start = processor_time();
    int file = open(argv[1], O_RDWR | O_CREAT, 0666), slots = open(argv[2], O_RDWR | O_CREAT, 0666);
    int folder = open(dirname(strdup(argv[1])), O_RDONLY);
    if (file < 0 || slots < 0 || folder < 0 || fsync(folder) < 0)
        fail("open");
    record(slots, 0, 0);
    off_t at = 0;
    for (long n = 1; n <= batches; n++) {
        if (pwrite(file, batch, length, at) != length || fsync(file) < 0)
            fail(argv[1]);
        at += length;
        record(slots, n, at);
    }
    printf("%.0f\n", processor_time() - start);
    return 0;
}
