/* An example in C: a map of findings, a long range that others change meanwhile, and a list of calls.
 *
 *     cc -std=c11 -Ihosts/c hosts/c/example.c target/staticlib/liblopresnik.a -o example
 *
 * or, after hosts/install.sh PREFIX,
 *
 *     cc -std=c11 hosts/c/example.c $(pkg-config --cflags --libs lopresnik) -o example
 */
#include <inttypes.h>
#include <stdio.h>
#include <stdlib.h>

#include <lopresnik.h>

#define CAPACITY 64

/* The memory of one map. Nothing else is kept anywhere. */
static unsigned char memory[LOPRESNIK_MEMORY(CAPACITY)];

/* The first number of a call that must be made. */
static int64_t must(struct lopresnik_answer answer, const char *call) {
    if (answer.refusal != LOPRESNIK_DONE) {
        fprintf(stderr, "%s: refused with %" PRId64 "\n", call, answer.refusal);
        exit(1);
    }
    return answer.first;
}

static void print_pairs(const char *what, int64_t count, const int64_t *out_keys, const int64_t *out_values) {
    printf("%s:", what);
    for (int64_t i = 0; i < count; i++) printf(" %" PRId64 "->%" PRId64, out_keys[i], out_values[i]);
    printf("\n");
}

/* A range is opened; another worker removes 20 and inserts 25; the range does not see it. */
static void take_range(struct lopresnik_map *map) {
    int64_t out_keys[64], out_values[64];
    uint32_t version = (uint32_t)must(lopresnik_map_open_range(map, 0, 99), "open");
    uint32_t node = (uint32_t)must(lopresnik_map_remove(map, 20), "remove");
    must(lopresnik_map_hand_over(map, node), "hand over");
    must(lopresnik_map_insert(map, 25, 5, 0), "insert");
    struct lopresnik_answer step;
    do {
        step = lopresnik_map_step_range(map, version, out_keys, out_values, 2);
        print_pairs("step", must(step, "step"), out_keys, out_values);
    } while (step.second == 0);
    int64_t count = must(lopresnik_map_fast_range(map, 0, 99, out_keys, out_values, 64), "fast range");
    print_pairs("fast range", count, out_keys, out_values);
    printf("close: %" PRId64 " due\n", must(lopresnik_map_close_range(map, version), "close"));
    printf("sweep: %" PRId64 " freed\n", must(lopresnik_map_sweep(map), "sweep"));
}

/* Three calls in one list: lookup 10, fast range 0 to 99, tally. */
static void run_list(struct lopresnik_map *map) {
    int64_t out_keys[64], out_values[64], answers[3 * LOPRESNIK_ANSWER_CELLS];
    uint8_t bytes[3 * LOPRESNIK_CALL_BYTES];
    struct lopresnik_list list;
    lopresnik_list_over(&list, bytes, sizeof bytes);
    lopresnik_list_add(&list, LOPRESNIK_LOOKUP, 10, 0, 0);
    lopresnik_list_add(&list, LOPRESNIK_FAST_RANGE, 0, 99, 0);
    lopresnik_list_add(&list, LOPRESNIK_TALLY, 0, 0, 0);
    struct lopresnik_ran ran = lopresnik_map_run_list(map, &list, 0, answers, 15, out_keys, out_values, 64);
    printf("list: end %" PRIu32 ", %zu bytes, %zu calls, %zu pairs\n", ran.end, ran.used, ran.calls, ran.pairs);
    if (ran.end == LOPRESNIK_FULL) {
        /* The pairs of the range left fewer than 64 places for the next call: go on with the rest. */
        print_pairs("its pairs", (int64_t)ran.pairs, out_keys, out_values);
        ran = lopresnik_map_run_list(map, &list, ran.used, answers, 15, out_keys, out_values, 64);
        printf("the rest: end %" PRIu32 ", %zu calls; %" PRId64 " present, %" PRId64 " held, %" PRId64 " free\n",
               ran.end, ran.calls, answers[2], answers[3], answers[4]);
    }
}

int main(void) {
    struct lopresnik_map map;
    uint32_t refusal = lopresnik_map_init(&map, memory, sizeof memory, CAPACITY, 0);
    if (refusal != LOPRESNIK_DONE) {
        fprintf(stderr, "set-up: refused with %" PRIu32 "\n", refusal);
        return 1;
    }
    /* The last number is a coin: in earnest, a random number for each insert. */
    must(lopresnik_map_insert(&map, 10, 1, 0), "insert");
    must(lopresnik_map_insert(&map, 20, 2, 1), "insert");
    must(lopresnik_map_insert(&map, 30, 3, 0), "insert");
    printf("lookup 20: %" PRId64 "\n", must(lopresnik_map_lookup(&map, 20), "lookup"));
    printf("succ 20: %" PRId64 "\n", must(lopresnik_map_succ(&map, 20), "succ"));
    printf("insert 20 again: refused with %" PRId64 "\n", lopresnik_map_insert(&map, 20, 9, 0).refusal);
    take_range(&map);
    run_list(&map);

    /* Damage is found, and nothing is followed. */
    map.coordinator->due = 4000000000;
    printf("damaged: %s, lookup refused with %" PRId64 "\n", lopresnik_map_sound(&map) ? "sound" : "not sound",
           lopresnik_map_lookup(&map, 10).refusal);
    return 0;
}
