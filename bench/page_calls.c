/* Makes the calls that bench/page.sh times, without a store: it takes the elements of a page from a file and writes them one
   by one into another, with a sync behind each EVERY-th of them and at the end, and a sync of the folder with the first; or
   reads a page in blocks of 64 KiB. It prints the milliseconds of processor time that these calls took. */
#include <fcntl.h>
#include <libgen.h>
#include <stdio.h>
#include <stdlib.h>
#include <string.h>
#include <unistd.h>

#include "calls.h"

static unsigned char *load(const char *name, size_t *size) {
    FILE *file = fopen(name, "rb");
    if (!file || fseek(file, 0, SEEK_END) < 0)
        fail(name);
    *size = ftell(file);
    rewind(file);
    unsigned char *bytes = malloc(*size);
    if (!bytes || fread(bytes, 1, *size, file) != *size)
        fail(name);
    fclose(file);
    return bytes;
}

static void write_page(const unsigned char *bytes, size_t size, const char *name, long every) {
    int file = open(name, O_RDWR | O_CREAT, 0666);
    int folder = open(dirname(strdup(name)), O_RDONLY);
    if (file < 0 || folder < 0 || fsync(folder) < 0 || pwrite(file, bytes, 1, 0) != 1)
        fail(name);
    long since = 0;
    for (size_t at = 1; at + 16 <= size;) {
        const unsigned char *head = bytes + at;
        size_t length = ((size_t)head[8] << 24 | head[9] << 16 | head[10] << 8 | head[11]) + 16;
        if (pwrite(file, head, length, at) != (ssize_t)length)
            fail(name);
        at += length;
        if (++since >= every) {
            if (fsync(file) < 0)
                fail(name);
            since = 0;
        }
    }
    if (fsync(file) < 0)
        fail(name);
}

static void read_page(const char *name) {
    static unsigned char block[65536];
    int file = open(name, O_RDONLY);
    if (file < 0)
        fail(name);
    ssize_t count;
    for (off_t at = 0; (count = pread(file, block, sizeof block, at)) > 0; at += count)
        ;
    if (count < 0)
        fail(name);
}

int main(int argc, char **argv) {
    double start;
    if (argc == 5 && !strcmp(argv[1], "write")) {
        size_t size;
        unsigned char *bytes = load(argv[2], &size);
        start = processor_time();
        write_page(bytes, size, argv[3], atol(argv[4]));
    } else if (argc == 3 && !strcmp(argv[1], "read")) {
        start = processor_time();
        read_page(argv[2]);
    } else {
        fprintf(stderr, "usage: page_calls write PAGE FILE EVERY, or page_calls read PAGE\n");
        return 1;
    }
    printf("%.0f\n", processor_time() - start);
    return 0;
}
