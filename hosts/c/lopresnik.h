/* Lopresnik: the findings map and its coordinator, for C (C11) and C++ (C++11).
 *
 * The map has signed 64-bit keys and values and lives in memory that the caller lends to every call.
 * The library allocates nothing, keeps nothing between calls, and has no state of its own.
 * One call is one transaction. Calls on the same tables must take turns; nothing here locks.
 *
 * In short:
 *
 *     static unsigned char memory[LOPRESNIK_MEMORY(64)];
 *     struct lopresnik_map map;
 *     if (lopresnik_map_init(&map, memory, sizeof memory, 64, 0) != LOPRESNIK_DONE) ..
 *     struct lopresnik_answer answer = lopresnik_map_insert(&map, key, value, coin);
 *
 * The header has three parts: the declarations of the archive's functions, which take each part of the
 * tables with its length; struct lopresnik_map with an inline function for each of them; and struct
 * lopresnik_list, which writes calls to bytes, so that many can be made at once.
 *
 * Sizes. A map has one of seven capacities, and the parts of its tables have exactly these lengths:
 *
 *     capacity C   64   128   256   512   1024   2048   4096
 *     buckets      97   191   367   733   1471   2927   5857
 *
 *     keys C, values C, rows 32 * (C + 2), buckets as above, tickets 16
 *
 * The contents before set-up may be anything. Every call tests the lengths and whether the tables are
 * sound, so damaged tables are refused (1) and never followed. That test takes time in proportion to the
 * capacity; a list of calls tests once.
 *
 * What must be true of what is lent, since no library can test it: each pointer points to as many
 * elements as its length says (a length of 0 allows any pointer that is aligned and not null), it is
 * aligned for its type, and no part overlaps another. A struct is lent with all of its fields set.
 *
 * A refused call changes nothing: neither tables nor pair buffers. What a pair buffer has beyond the
 * pairs handed out stays as it was.
 */
#ifndef LOPRESNIK_H
#define LOPRESNIK_H

#include <stdbool.h>
#include <stddef.h>
#include <stdint.h>
#include <string.h>

#ifdef __cplusplus
extern "C" {
#endif

/* The version of the interface that this header declares; lopresnik_version() answers that of the archive.
 * It rises when a function, a struct or the layout of the tables changes. */
#define LOPRESNIK_VERSION 1

/* There are so many tickets, so at most this many ranges are open. */
#define LOPRESNIK_TICKETS 16
/* Cells of `rows` for each node and both sentinels. */
#define LOPRESNIK_ROW 32
/* A fast range hands out at most so many pairs, and a call of a list needs as many free places. */
#define LOPRESNIK_FAST_RANGE_LIMIT 64
/* Cells that lopresnik_run_list writes for each call: code, refusal or 0, three numbers. */
#define LOPRESNIK_ANSWER_CELLS 5
/* No call is written in more bytes, and no header. */
#define LOPRESNIK_CALL_BYTES 31
#define LOPRESNIK_HEADER_BYTES 10

/* The length of `rows` at a capacity of the table. */
#define LOPRESNIK_ROWS(capacity) ((size_t)LOPRESNIK_ROW * ((size_t)(capacity) + 2))
/* The length of `buckets`, 0 where the capacity is not in the table. */
#define LOPRESNIK_BUCKETS(capacity)      \
    ((capacity) == 64     ? (size_t)97   \
     : (capacity) == 128  ? (size_t)191  \
     : (capacity) == 256  ? (size_t)367  \
     : (capacity) == 512  ? (size_t)733  \
     : (capacity) == 1024 ? (size_t)1471 \
     : (capacity) == 2048 ? (size_t)2927 \
     : (capacity) == 4096 ? (size_t)5857 \
                          : (size_t)0)
/* Bytes of one block that has room for all parts of a map, wherever it begins: see lopresnik_map_over. */
#define LOPRESNIK_MEMORY(capacity)                                                          \
    (16 * (size_t)(capacity) + LOPRESNIK_TICKETS * sizeof(struct lopresnik_ticket) +        \
     4 * LOPRESNIK_ROWS(capacity) + 4 * LOPRESNIK_BUCKETS(capacity) +                       \
     sizeof(struct lopresnik_coordinator) + 7)

/* An open range. Tickets belong to the library: lend them, do not change them. */
struct lopresnik_ticket {
    uint32_t version;
    uint64_t low;
    uint64_t high;
    uint32_t rest;
    uint32_t held;
};

/* The version counter, how many ranges are open, how many nodes are due. */
struct lopresnik_coordinator {
    uint32_t counter;
    uint32_t ranges;
    uint32_t due;
};

/* Why a call was refused; 0 where it was made. */
enum lopresnik_refusal {
    LOPRESNIK_DONE = 0,
    LOPRESNIK_NOT_SOUND = 1,            /* a part has the wrong length, or the tables are not sound */
    LOPRESNIK_NO_SUCH_CAPACITY = 2,     /* set-up: the capacity is not in the table */
    LOPRESNIK_KEY_PRESENT = 3,          /* insert */
    LOPRESNIK_KEY_ABSENT = 4,           /* lookup, remove */
    LOPRESNIK_NO_FREE_NODE = 5,         /* insert */
    LOPRESNIK_BOUNDS_REVERSED = 6,      /* fast range, open */
    LOPRESNIK_TOO_MANY_PAIRS = 7,       /* fast range: more than 64 present pairs */
    LOPRESNIK_TOO_FEW_PLACES = 8,       /* fast range: fewer places than pairs; step: no place */
    LOPRESNIK_ALL_TICKETS_OPEN = 9,     /* open: sixteen ranges are open */
    LOPRESNIK_LAST_VERSION = 10,        /* open: the counter is at 4294967295 */
    LOPRESNIK_NO_SUCH_RANGE = 11,       /* step, close: no open range of that version */
    LOPRESNIK_NODE_NOT_PENDING = 12,    /* hand over */
    LOPRESNIK_NO_PRESENT_KEY = 13,      /* ceil, floor, succ, pred */
    LOPRESNIK_OTHER_VERSION = 1000      /* of this header alone: the archive has another version */
};

/* The codes of the calls, as schedule files, lists and answers have them. */
enum lopresnik_code {
    LOPRESNIK_LOOKUP = 0,
    LOPRESNIK_INSERT = 1,
    LOPRESNIK_REMOVE = 2,
    LOPRESNIK_HAND_OVER = 3,
    LOPRESNIK_CEIL = 4,
    LOPRESNIK_FLOOR = 5,
    LOPRESNIK_SUCC = 6,
    LOPRESNIK_PRED = 7,
    LOPRESNIK_FAST_RANGE = 8,
    LOPRESNIK_OPEN_RANGE = 9,
    LOPRESNIK_STEP_RANGE = 10,
    LOPRESNIK_CLOSE_RANGE = 11,
    LOPRESNIK_SWEEP = 12,
    LOPRESNIK_TALLY = 13
};

/* An answer: the call's code in a schedule file; its refusal, or 0 and its numbers in the order said at
 * each call (0 where it has fewer). The same five cells stand in the answers of a list. */
struct lopresnik_answer {
    int64_t code;
    int64_t refusal;
    int64_t first;
    int64_t second;
    int64_t third;
};

/* Why a list of calls ended. */
enum lopresnik_end {
    LOPRESNIK_ENDED = 0,   /* no byte is left */
    LOPRESNIK_STOP = 1,    /* `at` is the offset of a number that is malformed, cut off or out of range */
    LOPRESNIK_MORE = 2,    /* the bytes end within a call, and more may follow: go on with the rest */
    LOPRESNIK_FULL = 3,    /* the room might not suffice for the next call: go on with the rest. Where no
                            * call was made it can never suffice: lend five cells and 64 places */
    LOPRESNIK_REFUSED = 4  /* `at` is the refusal's number; nothing changed */
};

/* What a list came to: why it ended, and how many bytes, calls and pairs were used. */
struct lopresnik_ran {
    uint32_t end;
    size_t at;
    size_t used;
    size_t calls;
    size_t pairs;
};

/* The structs are laid out as the archive has them. */
#ifdef __cplusplus
#define LOPRESNIK_HOLDS(condition) static_assert(condition, #condition)
#else
#define LOPRESNIK_HOLDS(condition) _Static_assert(condition, #condition)
#endif
LOPRESNIK_HOLDS(sizeof(size_t) == 8 && sizeof(bool) == 1);
LOPRESNIK_HOLDS(sizeof(struct lopresnik_ticket) == 32);
LOPRESNIK_HOLDS(offsetof(struct lopresnik_ticket, low) == 8);
LOPRESNIK_HOLDS(offsetof(struct lopresnik_ticket, rest) == 24);
LOPRESNIK_HOLDS(sizeof(struct lopresnik_coordinator) == 12);
LOPRESNIK_HOLDS(sizeof(struct lopresnik_answer) == 8 * LOPRESNIK_ANSWER_CELLS);
LOPRESNIK_HOLDS(sizeof(struct lopresnik_ran) == 40);
LOPRESNIK_HOLDS(offsetof(struct lopresnik_ran, at) == 8);

/* ---- The functions of the archive. */

/* The version of the interface that the archive has: must be LOPRESNIK_VERSION. */
uint32_t lopresnik_version(void);

/* The tables as parameters: lent to change, or only to be read. */
#define LOPRESNIK_TABLES                                                                             \
    uint64_t *keys, size_t keys_length, int64_t *values, size_t values_length, uint32_t *rows,       \
        size_t rows_length, uint32_t *buckets, size_t buckets_length,                                \
        struct lopresnik_ticket *tickets, size_t tickets_length,                                     \
        struct lopresnik_coordinator *coordinator
#define LOPRESNIK_READ_TABLES                                                                        \
    const uint64_t *keys, size_t keys_length, const int64_t *values, size_t values_length,           \
        const uint32_t *rows, size_t rows_length, const uint32_t *buckets, size_t buckets_length,    \
        struct lopresnik_ticket *tickets, size_t tickets_length,                                     \
        struct lopresnik_coordinator *coordinator

/* An empty map whose versions begin at start. Answers 0 or the refusal: 2, 1. */
uint32_t lopresnik_set_up(LOPRESNIK_TABLES, uint32_t capacity, uint32_t start);

/* The key's value. Refused: 1, 4. */
struct lopresnik_answer lopresnik_lookup(LOPRESNIK_READ_TABLES, int64_t key);

/* The node's number. The node's height is 1 plus the number of trailing one bits of the coin, at most
 * the level count: give each insert a fresh random coin. Refused: 1, 3, 5. */
struct lopresnik_answer lopresnik_insert(LOPRESNIK_TABLES, int64_t key, int64_t value, uint64_t coin);

/* The number of the node, which is pending now: hand it over. Refused: 1, 4. */
struct lopresnik_answer lopresnik_remove(LOPRESNIK_TABLES, int64_t key);

/* 1 where the pending node is free at once, 0 where an open range holds it. Refused: 1, 12. */
struct lopresnik_answer lopresnik_hand_over(LOPRESNIK_TABLES, uint32_t node);

/* The nearest present key at or above, at or below, above, below. Refused: 1, 13. */
struct lopresnik_answer lopresnik_ceil(LOPRESNIK_READ_TABLES, int64_t key);
struct lopresnik_answer lopresnik_floor(LOPRESNIK_READ_TABLES, int64_t key);
struct lopresnik_answer lopresnik_succ(LOPRESNIK_READ_TABLES, int64_t key);
struct lopresnik_answer lopresnik_pred(LOPRESNIK_READ_TABLES, int64_t key);

/* The count of all pairs with low <= key <= high, handed out rising. Refused: 1, 6, 7, 8. */
struct lopresnik_answer lopresnik_fast_range(LOPRESNIK_READ_TABLES, int64_t low, int64_t high,
                                             int64_t *out_keys, size_t out_keys_length,
                                             int64_t *out_values, size_t out_values_length);

/* The version of a range opened now: its steps hand out the pairs that are present now, whatever
 * changes meanwhile. Refused: 1, 6, 9, 10. */
struct lopresnik_answer lopresnik_open_range(LOPRESNIK_READ_TABLES, int64_t low, int64_t high);

/* The count of the next pairs, as many as both buffers have places for, then 1 where none is left.
 * Refused: 1, 11, 8. */
struct lopresnik_answer lopresnik_step_range(LOPRESNIK_READ_TABLES, uint32_t version,
                                             int64_t *out_keys, size_t out_keys_length,
                                             int64_t *out_values, size_t out_values_length);

/* How many nodes this close made due: sweep them. Refused: 1, 11. */
struct lopresnik_answer lopresnik_close_range(LOPRESNIK_READ_TABLES, uint32_t version);

/* 1 where the first due node was freed, else 0; then how many stay due. Refused: 1. */
struct lopresnik_answer lopresnik_sweep(LOPRESNIK_TABLES);

/* Present nodes, nodes held by open ranges, free nodes. Refused: 1. */
struct lopresnik_answer lopresnik_tally(LOPRESNIK_READ_TABLES);

/* Makes the calls that the bytes hold, written as in a schedule file without its header, one after
 * another, and tests once whether the tables are sound. A refused call does not end the list. Each call
 * has five cells of `answers`: its code, its refusal or 0, its numbers. The pairs of all calls stand one
 * behind another in the pair buffers. `more`: further bytes may follow those that are lent. */
struct lopresnik_ran lopresnik_run_list(LOPRESNIK_TABLES, const uint8_t *bytes, size_t bytes_length,
                                        bool more, int64_t *answers, size_t answers_length,
                                        int64_t *out_keys, size_t out_keys_length,
                                        int64_t *out_values, size_t out_values_length);

/* Writes a call at the front of the buffer, as a schedule file has it, and answers its length. `first`,
 * `second` and `third` are its numbers in the order of the call's parameters (key, value and coin; low and
 * high; version and room; node); those that it does not have are not looked at. 0, and nothing changed,
 * where there is no such code, where a version, node or room is not below 2^32, or where the buffer is too
 * short, which one of LOPRESNIK_CALL_BYTES never is. */
size_t lopresnik_write_call(uint8_t *buffer, size_t buffer_length, uint32_t code, int64_t first,
                            int64_t second, uint64_t third);

/* Writes the header of a schedule file at the front of the buffer and answers its length. 0, and nothing
 * changed, where the buffer is too short, which one of LOPRESNIK_HEADER_BYTES never is. */
size_t lopresnik_write_header(uint8_t *buffer, size_t buffer_length, uint32_t capacity, uint32_t start);

/* ---- A map as one struct. */

/* The parts of a map's tables that are lent to every call. */
struct lopresnik_map {
    uint64_t *keys;
    size_t keys_length;
    int64_t *values;
    size_t values_length;
    uint32_t *rows;
    size_t rows_length;
    uint32_t *buckets;
    size_t buckets_length;
    struct lopresnik_ticket *tickets;
    size_t tickets_length;
    struct lopresnik_coordinator *coordinator;
};

/* A map's parts as arguments. */
#define LOPRESNIK_PARTS(map)                                                                              \
    (map)->keys, (map)->keys_length, (map)->values, (map)->values_length, (map)->rows,                    \
        (map)->rows_length, (map)->buckets, (map)->buckets_length, (map)->tickets, (map)->tickets_length, \
        (map)->coordinator

/* Copies of tickets and coordinator. The archive's functions take both to change; a call that only reads is
 * lent these instead, so that the map stays as it is. */
struct lopresnik_copies {
    struct lopresnik_ticket tickets[LOPRESNIK_TICKETS];
    size_t tickets_length;
    struct lopresnik_coordinator coordinator;
};

/* Makes the copies. Another number of tickets than sixteen is refused, and so is none at all. */
static inline void lopresnik_copy(const struct lopresnik_map *map, struct lopresnik_copies *copies) {
    bool is_whole = map->tickets_length == LOPRESNIK_TICKETS;
    if (is_whole) memcpy(copies->tickets, map->tickets, sizeof copies->tickets);
    copies->tickets_length = is_whole ? (size_t)LOPRESNIK_TICKETS : 0;
    memcpy(&copies->coordinator, map->coordinator, sizeof copies->coordinator);
}

/* A map's parts as arguments of a call that only reads. */
#define LOPRESNIK_READ_PARTS(map, copies)                                                      \
    (map)->keys, (map)->keys_length, (map)->values, (map)->values_length, (map)->rows,         \
        (map)->rows_length, (map)->buckets, (map)->buckets_length, (copies)->tickets,          \
        (copies)->tickets_length, &(copies)->coordinator

/* Lays the parts of a map out in one block of memory of at least LOPRESNIK_MEMORY(capacity) bytes, each
 * aligned for its type; touches nothing in it. So a block that holds a map already can be taken up again
 * where it begins at the same place modulo 8. Answers 0, or 2 where the capacity is not in the table, or 1
 * where the block is too small. */
static inline uint32_t lopresnik_map_over(struct lopresnik_map *map, void *memory, size_t size,
                                          uint32_t capacity) {
    if (LOPRESNIK_BUCKETS(capacity) == 0) return LOPRESNIK_NO_SUCH_CAPACITY;
    if (size < LOPRESNIK_MEMORY(capacity)) return LOPRESNIK_NOT_SOUND;
    unsigned char *place = (unsigned char *)memory + (8 - (uintptr_t)memory % 8) % 8;
    map->keys = (uint64_t *)(void *)place;
    map->keys_length = capacity;
    place += 8 * map->keys_length;
    map->values = (int64_t *)(void *)place;
    map->values_length = capacity;
    place += 8 * map->values_length;
    map->tickets = (struct lopresnik_ticket *)(void *)place;
    map->tickets_length = LOPRESNIK_TICKETS;
    place += sizeof(struct lopresnik_ticket) * map->tickets_length;
    map->rows = (uint32_t *)(void *)place;
    map->rows_length = LOPRESNIK_ROWS(capacity);
    place += 4 * map->rows_length;
    map->buckets = (uint32_t *)(void *)place;
    map->buckets_length = LOPRESNIK_BUCKETS(capacity);
    place += 4 * map->buckets_length;
    map->coordinator = (struct lopresnik_coordinator *)(void *)place;
    return LOPRESNIK_DONE;
}

/* An empty map whose versions begin at start. Answers 0 or the refusal: 1000 where the archive has another
 * version than this header, 2, 1. */
static inline uint32_t lopresnik_map_set_up(struct lopresnik_map *map, uint32_t capacity, uint32_t start) {
    if (lopresnik_version() != LOPRESNIK_VERSION) return LOPRESNIK_OTHER_VERSION;
    return lopresnik_set_up(LOPRESNIK_PARTS(map), capacity, start);
}

/* Lays a map out in one block of memory, clears it and sets it up: lopresnik_map_over, then
 * lopresnik_map_set_up. Answers 0 or the refusal: 2, 1, 1000. */
static inline uint32_t lopresnik_map_init(struct lopresnik_map *map, void *memory, size_t size,
                                          uint32_t capacity, uint32_t start) {
    uint32_t refusal = lopresnik_map_over(map, memory, size, capacity);
    if (refusal != LOPRESNIK_DONE) return refusal;
    memset(memory, 0, size);
    return lopresnik_map_set_up(map, capacity, start);
}

/* The key's value. Refused: 1, 4. */
static inline struct lopresnik_answer lopresnik_map_lookup(const struct lopresnik_map *map, int64_t key) {
    struct lopresnik_copies copies;
    lopresnik_copy(map, &copies);
    return lopresnik_lookup(LOPRESNIK_READ_PARTS(map, &copies), key);
}

/* The nearest present key at or above. Refused: 1, 13. */
static inline struct lopresnik_answer lopresnik_map_ceil(const struct lopresnik_map *map, int64_t key) {
    struct lopresnik_copies copies;
    lopresnik_copy(map, &copies);
    return lopresnik_ceil(LOPRESNIK_READ_PARTS(map, &copies), key);
}

/* The nearest present key at or below. Refused: 1, 13. */
static inline struct lopresnik_answer lopresnik_map_floor(const struct lopresnik_map *map, int64_t key) {
    struct lopresnik_copies copies;
    lopresnik_copy(map, &copies);
    return lopresnik_floor(LOPRESNIK_READ_PARTS(map, &copies), key);
}

/* The nearest present key above. Refused: 1, 13. */
static inline struct lopresnik_answer lopresnik_map_succ(const struct lopresnik_map *map, int64_t key) {
    struct lopresnik_copies copies;
    lopresnik_copy(map, &copies);
    return lopresnik_succ(LOPRESNIK_READ_PARTS(map, &copies), key);
}

/* The nearest present key below. Refused: 1, 13. */
static inline struct lopresnik_answer lopresnik_map_pred(const struct lopresnik_map *map, int64_t key) {
    struct lopresnik_copies copies;
    lopresnik_copy(map, &copies);
    return lopresnik_pred(LOPRESNIK_READ_PARTS(map, &copies), key);
}

/* The count of all pairs with low <= key <= high, handed out rising; both buffers have `places` places.
 * Refused: 1, 6, 7, 8. */
static inline struct lopresnik_answer lopresnik_map_fast_range(const struct lopresnik_map *map, int64_t low,
                                                               int64_t high, int64_t *out_keys,
                                                               int64_t *out_values, size_t places) {
    struct lopresnik_copies copies;
    lopresnik_copy(map, &copies);
    return lopresnik_fast_range(LOPRESNIK_READ_PARTS(map, &copies), low, high, out_keys, places, out_values,
                                places);
}

/* Present nodes, nodes held by open ranges, free nodes. Refused: 1. */
static inline struct lopresnik_answer lopresnik_map_tally(const struct lopresnik_map *map) {
    struct lopresnik_copies copies;
    lopresnik_copy(map, &copies);
    return lopresnik_tally(LOPRESNIK_READ_PARTS(map, &copies));
}

/* Whether the lengths are right and the tables are sound: just then a tally is not refused. */
static inline bool lopresnik_map_sound(const struct lopresnik_map *map) {
    return lopresnik_map_tally(map).refusal == LOPRESNIK_DONE;
}

/* Inserts the key; answers the node's number. Give each insert a fresh random coin. Refused: 1, 3, 5. */
static inline struct lopresnik_answer lopresnik_map_insert(struct lopresnik_map *map, int64_t key,
                                                           int64_t value, uint64_t coin) {
    return lopresnik_insert(LOPRESNIK_PARTS(map), key, value, coin);
}

/* Removes the key; answers the number of its node, which is pending now: hand it over. Refused: 1, 4. */
static inline struct lopresnik_answer lopresnik_map_remove(struct lopresnik_map *map, int64_t key) {
    return lopresnik_remove(LOPRESNIK_PARTS(map), key);
}

/* 1 where the pending node is free at once, 0 where an open range holds it. Refused: 1, 12. */
static inline struct lopresnik_answer lopresnik_map_hand_over(struct lopresnik_map *map, uint32_t node) {
    return lopresnik_hand_over(LOPRESNIK_PARTS(map), node);
}

/* The version of a range opened now: its steps hand out the pairs that are present now, whatever changes
 * meanwhile. Refused: 1, 6, 9, 10. */
static inline struct lopresnik_answer lopresnik_map_open_range(struct lopresnik_map *map, int64_t low,
                                                               int64_t high) {
    return lopresnik_open_range(LOPRESNIK_PARTS(map), low, high);
}

/* The count of the next pairs, at most `places`, which both buffers have, then 1 where none is left.
 * Refused: 1, 11, 8. */
static inline struct lopresnik_answer lopresnik_map_step_range(struct lopresnik_map *map, uint32_t version,
                                                               int64_t *out_keys, int64_t *out_values,
                                                               size_t places) {
    return lopresnik_step_range(LOPRESNIK_PARTS(map), version, out_keys, places, out_values, places);
}

/* How many nodes this close made due: sweep them. Refused: 1, 11. */
static inline struct lopresnik_answer lopresnik_map_close_range(struct lopresnik_map *map, uint32_t version) {
    return lopresnik_close_range(LOPRESNIK_PARTS(map), version);
}

/* 1 where the first due node was freed, else 0; then how many stay due. Refused: 1. */
static inline struct lopresnik_answer lopresnik_map_sweep(struct lopresnik_map *map) {
    return lopresnik_sweep(LOPRESNIK_PARTS(map));
}

/* ---- Lists of calls. */

/* Calls as bytes, in memory of the caller's: `room` bytes, of which `length` are used by `calls` calls. */
struct lopresnik_list {
    uint8_t *bytes;
    size_t room;
    size_t length;
    size_t calls;
};

/* An empty list over this memory. */
static inline void lopresnik_list_over(struct lopresnik_list *list, uint8_t *bytes, size_t room) {
    list->bytes = bytes;
    list->room = room;
    list->length = 0;
    list->calls = 0;
}

/* Adds a call with its numbers, as lopresnik_write_call takes them. False, and nothing changed, where there
 * is no such call or its bytes do not fit. */
static inline bool lopresnik_list_add(struct lopresnik_list *list, uint32_t code, int64_t first,
                                      int64_t second, uint64_t third) {
    size_t length = lopresnik_write_call(list->bytes + list->length, list->room - list->length, code, first,
                                         second, third);
    if (length == 0) return false;
    list->length += length;
    list->calls++;
    return true;
}

/* Makes the calls that the bytes hold, with soundness tested once: lopresnik_run_list. `answers` has
 * `answers_length` cells, both pair buffers have `places` places. */
static inline struct lopresnik_ran lopresnik_map_run_bytes(struct lopresnik_map *map, const uint8_t *bytes,
                                                           size_t bytes_length, bool more, int64_t *answers,
                                                           size_t answers_length, int64_t *out_keys,
                                                           int64_t *out_values, size_t places) {
    return lopresnik_run_list(LOPRESNIK_PARTS(map), bytes, bytes_length, more, answers, answers_length,
                              out_keys, places, out_values, places);
}

/* Makes the calls of a list from byte `from` on: 0 at first, then what the runs before have used. */
static inline struct lopresnik_ran lopresnik_map_run_list(struct lopresnik_map *map,
                                                          const struct lopresnik_list *list, size_t from,
                                                          int64_t *answers, size_t answers_length,
                                                          int64_t *out_keys, int64_t *out_values,
                                                          size_t places) {
    size_t begin = from < list->length ? from : list->length;
    return lopresnik_map_run_bytes(map, list->bytes + begin, list->length - begin, false, answers,
                                   answers_length, out_keys, out_values, places);
}

#ifdef __cplusplus
}
#endif

#endif
