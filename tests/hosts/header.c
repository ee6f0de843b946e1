/* What hosts/c/lopresnik.h adds to the archive: sizes, one block of memory, calls that only read, lists. The file
 * is C11 and C++17 alike. Ends with 1 and a line on the first fault. */
#include <stdio.h>
#include <stdlib.h>
#include <string.h>

#include <lopresnik.h>

#define GREATEST 4096
#define FENCE 64
#define FENCE_BYTE 0xA5

static unsigned char block[LOPRESNIK_MEMORY(GREATEST) + 2 * FENCE];

static void check(bool holds, const char *what, size_t number) {
    if (holds) return;
    printf("header: %s (%zu)\n", what, number);
    exit(1);
}

/* ---- Sizes. */

/* Set-up of tables with these lengths. */
static uint32_t set_up_with(struct lopresnik_map map, size_t rows, size_t buckets, uint32_t capacity) {
    map.rows_length = rows;
    map.buckets_length = buckets;
    return lopresnik_map_set_up(&map, capacity, 0);
}

/* The macros against the table that the archive has: exactly its capacities, and exactly its lengths. */
static void check_sizes(void) {
    struct lopresnik_map map;
    size_t found = 0;
    check(lopresnik_map_over(&map, block, sizeof block, GREATEST) == LOPRESNIK_DONE, "the greatest", GREATEST);
    memset(block, 0, sizeof block);
    for (uint32_t capacity = 0; capacity <= GREATEST; capacity++) {
        size_t rows = LOPRESNIK_ROWS(capacity), buckets = LOPRESNIK_BUCKETS(capacity);
        uint32_t fitting = LOPRESNIK_NOT_SOUND;
        map.keys_length = map.values_length = capacity;
        if (buckets == 0) fitting = LOPRESNIK_NO_SUCH_CAPACITY;
        else found++;
        check(set_up_with(map, rows, buckets, capacity) == (buckets == 0 ? fitting : (uint32_t)LOPRESNIK_DONE),
              "set-up and the macros differ", capacity);
        check(set_up_with(map, rows - 1, buckets, capacity) == fitting, "fewer rows", capacity);
        check(set_up_with(map, rows, buckets / 2, capacity) == fitting, "fewer buckets", capacity);
    }
    check(found == 7, "seven capacities", found);
}

/* ---- One block of memory. */

static bool is_aligned(const void *part, size_t to) { return (uintptr_t)part % to == 0; }

static bool is_within(const void *part, size_t size, const unsigned char *memory, size_t room) {
    const unsigned char *begin = (const unsigned char *)part;
    return memory <= begin && size <= room && begin + size <= memory + room;
}

static void check_layout(const struct lopresnik_map *map, const unsigned char *memory, size_t room,
                         uint32_t capacity) {
    size_t count = capacity;
    check(map->keys_length == count && map->values_length == count, "keys and values", capacity);
    check(map->rows_length == LOPRESNIK_ROWS(capacity), "rows", capacity);
    check(map->buckets_length == LOPRESNIK_BUCKETS(capacity), "buckets", capacity);
    check(map->tickets_length == LOPRESNIK_TICKETS, "tickets", capacity);
    check(is_aligned(map->keys, 8) && is_aligned(map->values, 8) && is_aligned(map->tickets, 8) &&
              is_aligned(map->rows, 4) && is_aligned(map->buckets, 4) && is_aligned(map->coordinator, 4),
          "a part is not aligned", capacity);
    check(is_within(map->keys, 8 * count, memory, room) && is_within(map->values, 8 * count, memory, room) &&
              is_within(map->rows, 4 * map->rows_length, memory, room) &&
              is_within(map->buckets, 4 * map->buckets_length, memory, room) &&
              is_within(map->tickets, sizeof(struct lopresnik_ticket) * LOPRESNIK_TICKETS, memory, room) &&
              is_within(map->coordinator, sizeof(struct lopresnik_coordinator), memory, room),
          "a part is outside", capacity);
}

/* Filled, the small maps to the last node; what belonged to two parts would not stay sound. */
static void fill(struct lopresnik_map *map, uint32_t capacity) {
    uint32_t count = capacity < 100 ? capacity : 100;
    uint64_t coin = 1;
    for (uint32_t i = 0; i < count; i++) {
        coin = coin * 6364136223846793005u + 1442695040888963407u;
        check(lopresnik_map_insert(map, (int64_t)i * 7919 % 65537, i, coin >> 20).first == (int64_t)i, "insert", i);
    }
    check(lopresnik_map_tally(map).first == (int64_t)count, "not all are present", capacity);
}

/* Wherever the block begins, with a fence before and behind it. */
static void check_blocks(void) {
    static const uint32_t capacities[] = {64, 128, 256, 512, 1024, 2048, 4096};
    for (size_t i = 0; i < 7; i++) {
        uint32_t capacity = capacities[i];
        size_t size = LOPRESNIK_MEMORY(capacity);
        for (size_t shift = 0; shift < 9; shift++) {
            unsigned char *memory = block + FENCE - 16 + shift;
            struct lopresnik_map map;
            memset(block, FENCE_BYTE, sizeof block);
            check(lopresnik_map_init(&map, memory, size - 1, capacity, 0) == LOPRESNIK_NOT_SOUND, "too small", size);
            check(lopresnik_map_init(&map, memory, size, capacity + 1, 0) == LOPRESNIK_NO_SUCH_CAPACITY, "none", size);
            check(block[FENCE] == FENCE_BYTE, "a refused set-up touched the memory", shift);
            check(lopresnik_map_init(&map, memory, size, capacity, 0) == LOPRESNIK_DONE, "set-up", size);
            check_layout(&map, memory, size, capacity);
            fill(&map, capacity);
            for (unsigned char *at = block; at < memory; at++) check(*at == FENCE_BYTE, "before the block", shift);
            for (unsigned char *at = memory + size; at < block + sizeof block; at++)
                check(*at == FENCE_BYTE, "behind the block", shift);
        }
    }
}

/* ---- Calls that only read. */

/* Through a map that cannot be changed. */
static void read_all(const struct lopresnik_map *map, int64_t refusal) {
    int64_t out_keys[64], out_values[64];
    struct lopresnik_answer range = lopresnik_map_fast_range(map, 0, 20, out_keys, out_values, 64);
    check(lopresnik_map_lookup(map, 10).refusal == refusal, "lookup", 10);
    check(lopresnik_map_ceil(map, 11).refusal == refusal, "ceil", 11);
    check(lopresnik_map_floor(map, 11).refusal == refusal, "floor", 11);
    check(lopresnik_map_succ(map, 10).refusal == refusal, "succ", 10);
    check(lopresnik_map_pred(map, 20).refusal == refusal, "pred", 20);
    check(range.refusal == refusal, "fast range", 20);
    check(lopresnik_map_tally(map).refusal == refusal, "tally", 0);
    check(lopresnik_map_sound(map) == (refusal == LOPRESNIK_DONE), "sound", 0);
    if (refusal != LOPRESNIK_DONE) return;
    check(lopresnik_map_lookup(map, 10).first == 1, "lookup", 10);
    check(lopresnik_map_ceil(map, 11).first == 20 && lopresnik_map_floor(map, 11).first == 10, "near", 11);
    check(lopresnik_map_succ(map, 10).first == 20 && lopresnik_map_pred(map, 20).first == 10, "next", 10);
    check(range.first == 2 && out_keys[1] == 20 && out_values[1] == 2, "fast range", 20);
}

static void check_reading(void) {
    static unsigned char before[sizeof block];
    struct lopresnik_map map;
    check(lopresnik_map_init(&map, block, sizeof block, 64, 0) == LOPRESNIK_DONE, "set-up", 64);
    lopresnik_map_insert(&map, 10, 1, 0);
    lopresnik_map_insert(&map, 20, 2, 1);
    check(lopresnik_map_open_range(&map, 0, 99).first == 1, "open", 1);
    memcpy(before, block, sizeof block);
    read_all(&map, LOPRESNIK_DONE);
    for (size_t tickets = 0; tickets <= 17; tickets++) {
        map.tickets_length = tickets;
        read_all(&map, tickets == LOPRESNIK_TICKETS ? LOPRESNIK_DONE : LOPRESNIK_NOT_SOUND);
    }
    check(memcmp(before, block, sizeof block) == 0, "reading changed the tables", 0);
}

/* ---- Lists. */

static void check_lists(void) {
    uint8_t bytes[40];
    int64_t answers[40 * LOPRESNIK_ANSWER_CELLS], out_keys[64], out_values[64];
    struct lopresnik_list list;
    struct lopresnik_map map;
    check(lopresnik_map_init(&map, block, sizeof block, 64, 0) == LOPRESNIK_DONE, "set-up", 64);
    lopresnik_list_over(&list, bytes, sizeof bytes);
    check(lopresnik_list_add(&list, LOPRESNIK_INSERT, INT64_MIN, -7, UINT64_MAX), "an insert fits", list.length);
    check(!lopresnik_list_add(&list, 14, 0, 0, 0), "no such code", 14);
    check(!lopresnik_list_add(&list, LOPRESNIK_HAND_OVER, 4294967296, 0, 0), "no such node", 0);
    check(!lopresnik_list_add(&list, LOPRESNIK_STEP_RANGE, 1, -1, 0), "no such room", 0);
    while (lopresnik_list_add(&list, LOPRESNIK_LOOKUP, INT64_MIN, 0, 0)) continue;
    check(lopresnik_list_add(&list, LOPRESNIK_TALLY, 0, 0, 0), "a tally fits", list.length);
    struct lopresnik_ran ran = lopresnik_map_run_list(&map, &list, 0, answers, 200, out_keys, out_values, 63);
    check(ran.end == LOPRESNIK_FULL && ran.used == 0 && ran.calls == 0, "room that can never suffice", ran.end);
    ran = lopresnik_map_run_list(&map, &list, 0, answers, 200, out_keys, out_values, 64);
    check(ran.end == LOPRESNIK_ENDED && ran.calls == list.calls && ran.used == list.length, "the list", ran.calls);
    check(answers[0] == LOPRESNIK_INSERT && answers[1] == 0 && answers[2] == 0, "insert", 0);
    check(answers[5] == LOPRESNIK_LOOKUP && answers[6] == 0 && answers[7] == -7, "lookup", 1);
    check(answers[5 * list.calls - 5] == LOPRESNIK_TALLY && answers[5 * list.calls - 3] == 1, "tally", list.calls);
    check(lopresnik_write_header(bytes, LOPRESNIK_HEADER_BYTES, 4294967295u, 4294967295u) == 10, "header", 10);
    check(lopresnik_write_header(bytes, LOPRESNIK_HEADER_BYTES - 1, 4294967295u, 4294967295u) == 0, "header", 9);
}

int main(void) {
    check(lopresnik_version() == LOPRESNIK_VERSION, "the archive has another version", lopresnik_version());
    check_sizes();
    check_blocks();
    check_reading();
    check_lists();
    printf("header: seven capacities, one block, reading, lists\n");
    return 0;
}
