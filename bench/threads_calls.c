/* The peer of bench/threads.sh: adds to a counter that other threads may read, and parcels there and back between two
   threads, on two rings of sixteen slots, each with one writer and one reader. */
#include <pthread.h>
#include <stdatomic.h>
#include <stdio.h>
#include <stdlib.h>
#include <string.h>

enum { SLOTS = 16, EVENT_BYTES = 160 };

struct parcel {
    unsigned long number;
    char *address;
    void *events;
    size_t count;
};

struct answer {
    unsigned long number;
    int heard;
};

/* Places of a ring: `put` is written by one thread alone, and `taken` by the other. */
struct places {
    _Alignas(64) atomic_size_t put;
    _Alignas(64) atomic_size_t taken;
};

static struct places parcels_at, answers_at;
static struct parcel parcels[SLOTS];
static struct answer answers[SLOTS];

static size_t wait_for_slot(struct places *at) {
    size_t put = atomic_load_explicit(&at->put, memory_order_relaxed);
    while (put - atomic_load_explicit(&at->taken, memory_order_acquire) == SLOTS)
        __builtin_ia32_pause();
    return put;
}

static size_t wait_for_item(struct places *at) {
    size_t taken = atomic_load_explicit(&at->taken, memory_order_relaxed);
    while (atomic_load_explicit(&at->put, memory_order_acquire) == taken)
        __builtin_ia32_pause();
    return taken;
}

static void *answer_all(void *given) {
    unsigned long count = *(unsigned long *)given;
    for (unsigned long n = 1; n <= count; n++) {
        size_t taken = wait_for_item(&parcels_at);
        struct parcel parcel = parcels[taken % SLOTS];
        atomic_store_explicit(&parcels_at.taken, taken + 1, memory_order_release);
        free(parcel.address);
        free(parcel.events);
        size_t put = wait_for_slot(&answers_at);
        answers[put % SLOTS] = (struct answer){.number = n, .heard = 1};
        atomic_store_explicit(&answers_at.put, put + 1, memory_order_release);
    }
    return NULL;
}

static unsigned long send_all(unsigned long count) {
    unsigned long heard = 0;
    for (unsigned long n = 1; n <= count; n++) {
        struct parcel parcel = {.number = n, .address = malloc(1), .events = malloc(EVENT_BYTES), .count = 1};
        parcel.address[0] = 'q';
        memset(parcel.events, 0, EVENT_BYTES);
        size_t put = wait_for_slot(&parcels_at);
        parcels[put % SLOTS] = parcel;
        atomic_store_explicit(&parcels_at.put, put + 1, memory_order_release);
        size_t taken = wait_for_item(&answers_at);
        heard += answers[taken % SLOTS].heard;
        atomic_store_explicit(&answers_at.taken, taken + 1, memory_order_release);
    }
    return heard;
}

static unsigned long add_all(unsigned long count) {
    static atomic_ulong word;
    for (unsigned long n = 0; n < count; n++) {
        unsigned long was = atomic_load(&word);
        atomic_store(&word, was == -1ul ? was : was + 1);
    }
    return atomic_load(&word);
}

int main(int argc, char **argv) {
    if (argc != 3) {
        fprintf(stderr, "usage: threads_calls counters ADDS\n       threads_calls parcels PARCELS\n");
        return 1;
    }
    unsigned long count = strtoul(argv[2], NULL, 10);
    unsigned long done;
    if (strcmp(argv[1], "parcels") == 0) {
        pthread_t answers_them;
        pthread_create(&answers_them, NULL, answer_all, &count);
        done = send_all(count);
        pthread_join(answers_them, NULL);
    } else {
        done = add_all(count);
    }
    printf("%lu\n", done);
    return 0;
}
