/* What keys of one bucket cost: lookups of an absent key of a bucket that has so many present ones, in lists of 10,000
 * at capacity 4096, the fastest of some runs by the thread's own clock. tests/bench/chains.sh compiles and runs it. */
#include <inttypes.h>
#include <stdio.h>
#include <stdlib.h>
#include <time.h>

#include "../../hosts/c/lopresnik.h"

#define CAPACITY 4096
#define BUCKETS 5857
#define LOOKUPS 10000
#define TURNS 9

static uint64_t keys[CAPACITY];
static int64_t values[CAPACITY];
static uint32_t rows[LOPRESNIK_ROW * (CAPACITY + 2)];
static uint32_t buckets[BUCKETS];
static struct lopresnik_ticket tickets[LOPRESNIK_TICKETS];
static struct lopresnik_coordinator coordinator;
#define MAP keys, CAPACITY, values, CAPACITY, rows, sizeof rows / sizeof *rows, buckets, BUCKETS, \
            tickets, LOPRESNIK_TICKETS, &coordinator

static uint8_t bytes[40 * LOOKUPS];
static int64_t answers[LOPRESNIK_ANSWER_CELLS * LOOKUPS], out_keys[64], out_values[64];

static size_t put(size_t at, uint64_t number) {
    for (; number >= 128; number /= 128) bytes[at++] = (uint8_t)(number % 128 + 128);
    bytes[at++] = (uint8_t)number;
    return at;
}

/* Nanoseconds that a list of so many bytes takes; ends the program where not so many calls were made. */
static double run(size_t length, size_t calls) {
    struct timespec before, after;
    clock_gettime(CLOCK_THREAD_CPUTIME_ID, &before);
    struct lopresnik_ran ran = lopresnik_run_list(MAP, bytes, length, false, answers, sizeof answers / sizeof *answers,
                                                  out_keys, 64, out_values, 64);
    clock_gettime(CLOCK_THREAD_CPUTIME_ID, &after);
    if (ran.end != LOPRESNIK_ENDED || ran.calls != calls) exit(1);
    return (double)(after.tv_sec - before.tv_sec) * 1e9 + (double)(after.tv_nsec - before.tv_nsec);
}

int main(void) {
    static const size_t counts[] = {1, 16, 64, 256, 1024, 4096};
    for (size_t c = 0; c < sizeof counts / sizeof *counts; c++) {
        if (lopresnik_set_up(MAP, CAPACITY, 0) != LOPRESNIK_DONE) return 1;
        size_t length = 0;
        for (uint64_t i = 0; i < counts[c]; i++) {
            length = put(put(length, 1), 2 * i * BUCKETS);
            length = put(put(length, 2), (uint64_t)rand());
        }
        run(length, counts[c]);
        length = 0;
        for (size_t i = 0; i < LOOKUPS; i++) length = put(put(length, 0), 2 * (uint64_t)CAPACITY * BUCKETS);
        double fastest = run(length, LOOKUPS);
        for (int turn = 1; turn < TURNS; turn++) {
            double time = run(length, LOOKUPS);
            if (time < fastest) fastest = time;
        }
        printf("%5zu keys in one bucket: %.0f ns a lookup\n", counts[c], fastest / LOOKUPS);
    }
    return 0;
}
