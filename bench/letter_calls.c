/* Makes the calls that bench/letters.sh times, without a store: batches of LETTERS letters, all alike, are appended to the
   queue of the folder "letters" in the one where it is run, by a policy: their records behind the last segment and into new
   ones, each with a sync, and one of the folder where names changed, then the slot that names the segments which count, with
   a sync, and then the segments that left are removed. FILE begins with the record that is written each time. A segment takes records up to an eighth of LIMIT bytes,
   and all segments together LIMIT bytes. A slot has 32 bytes, of which the last four are a CRC-32 of those before. It prints
   the milliseconds of processor time that this took. */
#include <fcntl.h>
#include <stdint.h>
#include <stdio.h>
#include <stdlib.h>
#include <string.h>
#include <unistd.h>

#include "calls.h"

enum { SLOT = 32, SUMMED = 28, NAME = 32, MOST = 1 << 16 };

struct queue {
    int folder, slots, last_file, names_changed;
    uint64_t limit, turn, total;
    uint32_t first, last;
    uint64_t sizes[MOST]; /* of the segments, by their numbers */
};

static uint64_t number(const unsigned char *from, int bytes) {
    uint64_t number = 0;
    for (int at = 0; at < bytes; at++)
        number = number << 8 | from[at];
    return number;
}

static void name_of(char *name, uint32_t segment) {
    if (segment)
        snprintf(name, NAME, "letters/dead.%u.log", segment);
    else
        snprintf(name, NAME, "letters/dead.log");
}

static int opened(uint32_t segment) {
    char name[NAME];
    name_of(name, segment);
    int file = open(name, O_RDWR | O_CREAT, 0666);
    if (file < 0)
        fail(name);
    return file;
}

/* Names the segments that count. */
static void record(struct queue *q) {
    unsigned char slot[SLOT] = {0, 2};
    put(slot + 2, q->turn, 8);
    put(slot + 10, q->first, 4);
    put(slot + 14, q->last, 4);
    put(slot + 18, q->sizes[q->last], 8);
    put(slot + SUMMED, crc32(slot, SUMMED), 4);
    if (pwrite(q->slots, slot, SLOT, (q->turn & 1) * SLOT) != SLOT || fsync(q->slots) < 0)
        fail("slot");
}

/* Writes the first `length` bytes behind the last segment, and syncs. */
static void lay(struct queue *q, const unsigned char *bytes, uint64_t length) {
    if (length && pwrite(q->last_file, bytes, length, q->sizes[q->last]) != (ssize_t)length)
        fail("segment");
    q->sizes[q->last] += length;
}

static void append(struct queue *q, const unsigned char *bytes, uint64_t length, uint64_t one) {
    const unsigned char *piece = bytes;
    uint64_t taken = 0;
    int files[16], count = 0;
    for (uint64_t at = 0; at < length; at += one) {
        uint64_t held = q->sizes[q->last] + taken;
        if (held && held + one > q->limit / 8) {
            lay(q, piece, taken);
            files[count++] = q->last_file;
            piece += taken;
            taken = 0;
            q->names_changed = 1;
            q->last_file = opened(++q->last);
        }
        taken += one;
    }
    lay(q, piece, taken);
    files[count++] = q->last_file;
    for (int at = 0; at < count; at++)
        if (fsync(files[at]) < 0)
            fail("segment");
    if (q->names_changed && fsync(q->folder) < 0)
        fail("folder");
    q->names_changed = 0;
    for (int at = 0; at + 1 < count; at++)
        close(files[at]);
    q->total += length;
}

int main(int argc, char **argv) {
    if (argc != 6) {
        fprintf(stderr, "usage: letter_calls hold|drop_newer|drop_older LIMIT BATCHES LETTERS FILE\n");
        return 1;
    }
    static struct queue q;
    q.limit = strtoull(argv[2], 0, 10);
    long batches = atol(argv[3]), letters = atol(argv[4]);
    int is_newer = !strcmp(argv[1], "drop_newer"), is_older = !strcmp(argv[1], "drop_older");
    unsigned char head[4];
    int file = open(argv[5], O_RDONLY);
    if (file < 0 || read(file, head, 4) != 4)
        fail(argv[5]);
    uint64_t one = number(head, 4) + 8;
    unsigned char *letter = malloc(one), *bytes = malloc(one * letters);
    if (!letter || !bytes || pread(file, letter, one, 0) != (ssize_t)one)
        fail(argv[5]);
    double start = processor_time();
    q.slots = open("letters/dead.seg", O_RDWR | O_CREAT, 0666);
    q.folder = open("letters", O_RDONLY);
    if (q.slots < 0 || q.folder < 0 || fsync(q.folder) < 0)
        fail("letters");
    q.last_file = opened(0);
    record(&q);
    for (long n = 0; n < batches; n++) {
        uint64_t length = 0, gone = q.first;
        for (long at = 0; at < letters; at++)
            if (!is_newer || q.total + length + one <= q.limit) {
                memcpy(bytes + length, letter, one);
                length += one;
            }
        while (is_older && q.total + length > q.limit && q.first < q.last)
            q.total -= q.sizes[q.first++];
        append(&q, bytes, length, one);
        q.turn++;
        record(&q);
        for (; gone < q.first; gone++) {
            char name[NAME];
            name_of(name, gone);
            if (unlink(name) < 0)
                fail(name);
            q.names_changed = 1;
        }
    }
    printf("%.0f\n", processor_time() - start);
    return 0;
}
