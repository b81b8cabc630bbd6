/* Makes the calls that bench/store.sh times, without a store: appends of 300 bytes to a file, with a sync
   behind each EVERY-th of them and at the end, and a sync of the folder with the first. */
#include <fcntl.h>
#include <libgen.h>
#include <stdio.h>
#include <stdlib.h>
#include <string.h>
#include <unistd.h>

static int fail(const char *what) {
    perror(what);
    return 1;
}

int main(int argc, char **argv) {
    if (argc != 4) {
        fprintf(stderr, "usage: store_calls FILE APPENDS EVERY\n");
        return 1;
    }
    long appends = atol(argv[2]), every = atol(argv[3]), since = 0;
    char bytes[300];
    memset(bytes, 'x', sizeof bytes);
    int file = open(argv[1], O_RDWR | O_CREAT, 0666);
    if (file < 0)
        return fail("open");
    int folder = open(dirname(strdup(argv[1])), O_RDONLY);
    if (folder < 0 || fsync(folder) < 0)
        return fail("folder");
    off_t at = 0;
    for (long n = 0; n < appends; n++) {
        if (pwrite(file, bytes, sizeof bytes, at) != sizeof bytes)
            return fail("pwrite");
        at += sizeof bytes;
        if (++since >= every) {
            if (fsync(file) < 0)
                return fail("fsync");
            since = 0;
        }
    }
    return fsync(file) < 0 ? fail("fsync") : 0;
}
