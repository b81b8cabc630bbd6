/* Makes the calls that bench/queue.sh times, without a store: the rows whose elements stand in FILE, a page, are written one
   by one into the queue of the folder "queue" in the one where it is run, each batch of 125 of them is read in blocks of
   64 KiB, and behind every 1,024 the files that changed are synced, the slots that say what is new are written, and these are
   synced; and with `purge` the pages go of which all is recorded as given. A page has at most CAPACITY bytes. A slot has 48
   bytes, of which the last four are a CRC-32 of the 44 in front. It prints the milliseconds of processor time that this
   took. */
#include <fcntl.h>
#include <stdint.h>
#include <stdio.h>
#include <stdlib.h>
#include <string.h>
#include <sys/file.h>
#include <sys/stat.h>
#include <unistd.h>

#include "calls.h"

enum { BATCH = 125, EVERY = 1024, BLOCK = 65536, SLOT = 48, SUMMED = 44, HEAD = 12, FRAME = 16, NAME = 40, MOST = 1 << 16 };

struct page {
    int file, slots, changed, slots_changed;
    uint32_t number, count;
    uint64_t least, length, from, turn;
};

static struct page pages[MOST]; /* from the first that is held up to the head */
static uint32_t first, head;
static int folder, names_changed, head_slots;
static uint64_t head_turn, given = 1; /* the number behind the last row that was given */
static uint32_t read_page;            /* where the next row is that is to be given */
static uint64_t read_at = 1, block_at, block_held;
static unsigned char block[BLOCK];

static uint64_t size_of(const unsigned char *element) {
    return ((uint64_t)element[8] << 24 | element[9] << 16 | element[10] << 8 | element[11]) + FRAME;
}

static const char *name_of(const char *kind, uint32_t number) {
    static char name[NAME];
    snprintf(name, NAME, "queue/%s.%u", kind, number);
    return name;
}

static int made(const char *name) {
    int file = open(name, O_RDWR | O_CREAT | O_EXCL, 0666);
    if (file < 0)
        fail(name);
    names_changed = 1;
    return file;
}

static uint64_t end_of(const struct page *p) {
    return p->least + p->count;
}

/* The first number of a page that was not given. */
static uint64_t first_open(const struct page *p) {
    return given < p->least ? p->least : given < end_of(p) ? given : end_of(p);
}

static void sync_file(int file, int *changed) {
    if (*changed && fsync(file) < 0)
        fail("sync");
    *changed = 0;
}

static void sync_all(int *head_changed) {
    for (uint32_t n = first; n <= head; n++) {
        sync_file(pages[n].file, &pages[n].changed);
        sync_file(pages[n].slots, &pages[n].slots_changed);
    }
    sync_file(head_slots, head_changed);
    sync_file(folder, &names_changed);
}

static void write_slot(int file, const struct page *p, uint64_t turn) {
    unsigned char slot[SLOT] = {0, 1};
    put(slot + 2, turn, 8);
    put(slot + 10, p->number, 4);
    put(slot + 14, first_open(p), 8);
    put(slot + 22, p->least, 8);
    put(slot + 30, p->count, 4);
    put(slot + 34, p->length, 8);
    put(slot + SUMMED, crc32(slot, SUMMED), 4);
    if (pwrite(file, slot, SLOT, (turn & 1) * SLOT) != SLOT)
        fail("slot");
}

/* Writes the slot of the head page. */
static void write_head(void) {
    int changed = 1;
    write_slot(head_slots, &pages[head], head_turn++);
    sync_all(&changed);
}

static void mark(void) {
    int unchanged = 0;
    sync_all(&unchanged);
    for (uint32_t n = first; n < head; n++)
        if (first_open(&pages[n]) != pages[n].from) {
            write_slot(pages[n].slots, &pages[n], ++pages[n].turn);
            pages[n].slots_changed = 1;
            pages[n].from = first_open(&pages[n]);
        }
    write_head();
}

/* Makes the file of a page, with its first byte. */
static void begin(uint32_t number, uint64_t least) {
    struct page *p = &pages[number];
    *p = (struct page){.number = number, .least = least, .from = least, .length = 1, .slots = -1, .changed = 1};
    p->file = made(name_of("page", number));
    if (pwrite(p->file, "\2", 1, 0) != 1)
        fail("page");
}

/* Begins a page behind the head page, of which all is recorded first. */
static void roll(void) {
    int unchanged = 0;
    struct page *old = &pages[head];
    mark();
    old->from = first_open(old);
    old->slots = made(name_of("checkpoint", head));
    write_slot(old->slots, old, 0);
    old->slots_changed = 1;
    if (head + 1 == MOST)
        fail("too many pages");
    begin(head + 1, end_of(old));
    head++;
    sync_all(&unchanged);
    write_head();
}

static void write_row(const unsigned char *element, uint64_t size, uint64_t capacity) {
    if (pages[head].count && pages[head].length + size > capacity)
        roll();
    struct page *p = &pages[head];
    if (pwrite(p->file, element, size, p->length) != (ssize_t)size)
        fail("page");
    p->changed = 1;
    p->length += size;
    p->count++;
}

/* The bytes of the page that is read, from the next row on, at least so many. */
static const unsigned char *bytes_of_next(uint64_t count) {
    if (read_at < block_at || read_at + count > block_at + block_held) {
        ssize_t more;
        block_at = read_at;
        block_held = 0;
        while (block_held < BLOCK
               && (more = pread(pages[read_page].file, block + block_held, BLOCK - block_held, block_at + block_held)) > 0)
            block_held += more;
        if (block_held < count)
            fail("read");
    }
    return block + (read_at - block_at);
}

static void take_batch(void) {
    for (int n = 0; n < BATCH; n++, given++) {
        while (given >= end_of(&pages[read_page])) {
            read_page++;
            read_at = 1;
            block_held = 0;
        }
        uint64_t size = size_of(bytes_of_next(HEAD));
        bytes_of_next(size);
        read_at += size;
    }
}

/* Removes the pages below the head of which all is recorded as given. They come first. */
static void purge(void) {
    for (; first < head && pages[first].from >= end_of(&pages[first]); first++) {
        struct page *p = &pages[first];
        int unchanged = 0;
        if (unlink(name_of("page", first)) < 0)
            fail("purge");
        close(p->file);
        p->changed = 0;
        names_changed = 1;
        sync_all(&unchanged);
        if (unlink(name_of("checkpoint", first)) < 0)
            fail("purge");
        close(p->slots);
        names_changed = 1;
    }
}

static unsigned char *load(const char *name, size_t *size) {
    FILE *file = fopen(name, "rb");
    if (!file || fseek(file, 0, SEEK_END) < 0)
        fail(name);
    *size = ftell(file);
    rewind(file);
    unsigned char *bytes = malloc(*size);
    if (!bytes || fread(bytes, 1, *size, file) != *size)
        fail(name);
    fclose(file);
    return bytes;
}

static void start(void) {
    int unchanged = 0;
    int lock = open("queue.lock", O_RDWR | O_CREAT, 0666);
    if (lock < 0 || flock(lock, LOCK_EX) < 0)
        fail("queue.lock");
    if (mkdir("queue", 0777) < 0)
        fail("queue");
    folder = open("queue", O_RDONLY);
    if (folder < 0)
        fail("queue");
    begin(0, 1);
    sync_all(&unchanged);
    head_slots = made("queue/checkpoint.head");
    write_head();
}

int main(int argc, char **argv) {
    if (argc != 4) {
        fprintf(stderr, "usage: queue_calls keep|purge CAPACITY FILE\n");
        return 1;
    }
    int purges = !strcmp(argv[1], "purge");
    uint64_t capacity = strtoull(argv[2], 0, 10);
    size_t length;
    unsigned char *bytes = load(argv[3], &length);
    double began = processor_time();
    start();
    long rows = 0;
    for (size_t at = 1, size; at + FRAME <= length; at += size) {
        size = size_of(bytes + at);
        write_row(bytes + at, size, capacity);
        rows++;
        if (rows % BATCH == 0)
            take_batch();
        if (rows % EVERY == 0) {
            mark();
            if (purges)
                purge();
        }
    }
    printf("%.0f\n", processor_time() - began);
    return 0;
}
