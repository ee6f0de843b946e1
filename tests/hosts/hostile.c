/* Hostile memory from C: hostile ROUNDS. Each part of the tables and each buffer lies right before or right
 * behind a page that may not be touched; cells are damaged, lengths are wrong, bytes are anything. No call may
 * touch what it was not lent, a refusal may change nothing, sound tables may not be refused with 1 and must be
 * sound afterwards, and wrong lengths must be refused. Calls that only read find memory that cannot be written.
 * Ends with 1 and a line on the first fault. */
#define _DEFAULT_SOURCE
#include <stdio.h>
#include <stdlib.h>
#include <string.h>
#include <sys/mman.h>

#include <lopresnik.h>

/* No page of any machine is larger. */
#define PAGE 65536
#define CAPACITY 64
#define KEYS 40
#define PLACES 64
#define ANSWERS 50
#define BYTES 256
/* A part may be lent with so many cells too many. */
#define SPARE 2

static uint64_t state = 88172645463325252u;

static uint64_t random_number(void) {
    state ^= state << 13;
    state ^= state >> 7;
    state ^= state << 17;
    return state;
}

static size_t below(size_t limit) { return (size_t)(random_number() % limit); }

static void fault(const char *what, unsigned long round) {
    printf("hostile: round %lu: %s\n", round, what);
    exit(1);
}

/* ---- Memory between two pages that may not be touched. */

struct block {
    unsigned char *pages;
    size_t size;   /* of the pages between the two */
    unsigned char *begin;
    size_t length; /* of what is lent */
    unsigned char *before;
};

static struct block new_block(size_t most) {
    struct block block = {NULL, (most + PAGE - 1) / PAGE * PAGE, NULL, 0, NULL};
    unsigned char *pages = mmap(NULL, block.size + 2 * PAGE, PROT_READ | PROT_WRITE,
                                MAP_PRIVATE | MAP_ANONYMOUS, -1, 0);
    if (pages == MAP_FAILED || mprotect(pages, PAGE, PROT_NONE) != 0 ||
        mprotect(pages + PAGE + block.size, PAGE, PROT_NONE) != 0)
        fault("no memory", 0);
    block.pages = pages + PAGE;
    block.before = malloc(block.size);
    if (block.before == NULL) fault("no memory", 0);
    return block;
}

/* The memory of this length, at one end of the pages or at the other. */
static void *place(struct block *block, size_t length) {
    block->length = length;
    block->begin = below(2) ? block->pages : block->pages + block->size - length;
    return block->begin;
}

static void remember(struct block *block) { memcpy(block->before, block->begin, block->length); }

static bool is_same(const struct block *block) {
    return memcmp(block->before, block->begin, block->length) == 0;
}

static void fill_random(struct block *block) {
    for (size_t i = 0; i < block->length; i++) block->begin[i] = (unsigned char)random_number();
}

/* ---- The tables, and what is lent of them. */

struct tables {
    uint64_t keys[CAPACITY];
    int64_t values[CAPACITY];
    uint32_t rows[LOPRESNIK_ROWS(CAPACITY)];
    uint32_t buckets[LOPRESNIK_BUCKETS(CAPACITY)];
    struct lopresnik_ticket tickets[LOPRESNIK_TICKETS];
    struct lopresnik_coordinator coordinator;
};

static struct lopresnik_map map_of(struct tables *tables) {
    struct lopresnik_map map = {tables->keys,    CAPACITY,
                                tables->values,  CAPACITY,
                                tables->rows,    LOPRESNIK_ROWS(CAPACITY),
                                tables->buckets, LOPRESNIK_BUCKETS(CAPACITY),
                                tables->tickets, LOPRESNIK_TICKETS,
                                &tables->coordinator};
    return map;
}

enum { AT_KEYS, AT_VALUES, AT_ROWS, AT_BUCKETS, AT_TICKETS, AT_COORDINATOR, PARTS };
enum { AT_OUT_KEYS = PARTS, AT_OUT_VALUES, AT_ANSWERS, AT_BYTES, BLOCKS };

static struct block blocks[BLOCKS];

/* A length that is right, or rarely any other. */
static size_t length_of(size_t right, bool is_wrong) { return is_wrong ? below(right + SPARE + 1) : right; }

/* Puts a part of this length into its block: the cells that there are, and any others behind them. */
static void *lend(int at, const void *cells, size_t width, size_t right, size_t length) {
    void *memory = place(&blocks[at], width * length);
    fill_random(&blocks[at]);
    memcpy(memory, cells, width * (length < right ? length : right));
    remember(&blocks[at]);
    return memory;
}

/* Lends the tables; one part may have a wrong length. */
static struct lopresnik_map lend_tables(const struct tables *tables, int wrong) {
    struct lopresnik_map map = map_of((struct tables *)tables);
    map.keys_length = length_of(map.keys_length, wrong == AT_KEYS);
    map.values_length = length_of(map.values_length, wrong == AT_VALUES);
    map.rows_length = length_of(map.rows_length, wrong == AT_ROWS);
    map.buckets_length = length_of(map.buckets_length, wrong == AT_BUCKETS);
    map.tickets_length = length_of(map.tickets_length, wrong == AT_TICKETS);
    map.keys = lend(AT_KEYS, tables->keys, 8, CAPACITY, map.keys_length);
    map.values = lend(AT_VALUES, tables->values, 8, CAPACITY, map.values_length);
    map.rows = lend(AT_ROWS, tables->rows, 4, LOPRESNIK_ROWS(CAPACITY), map.rows_length);
    map.buckets = lend(AT_BUCKETS, tables->buckets, 4, LOPRESNIK_BUCKETS(CAPACITY), map.buckets_length);
    map.tickets = lend(AT_TICKETS, tables->tickets, sizeof(struct lopresnik_ticket), LOPRESNIK_TICKETS,
                       map.tickets_length);
    map.coordinator = lend(AT_COORDINATOR, &tables->coordinator, sizeof(struct lopresnik_coordinator), 1, 1);
    return map;
}

static bool has_right_lengths(const struct lopresnik_map *map) {
    return map->keys_length == CAPACITY && map->values_length == CAPACITY &&
           map->rows_length == LOPRESNIK_ROWS(CAPACITY) &&
           map->buckets_length == LOPRESNIK_BUCKETS(CAPACITY) && map->tickets_length == LOPRESNIK_TICKETS;
}

/* A ticket has four bytes that belong to no field. */
static bool has_same_tickets(const struct lopresnik_map *map) {
    for (size_t i = 0; i < map->tickets_length; i++) {
        struct lopresnik_ticket now = map->tickets[i], then;
        memcpy(&then, blocks[AT_TICKETS].before + i * sizeof then, sizeof then);
        if (now.version != then.version || now.low != then.low || now.high != then.high ||
            now.rest != then.rest || now.held != then.held)
            return false;
    }
    return true;
}

static bool is_unchanged(const struct lopresnik_map *map) {
    for (int at = 0; at < BLOCKS; at++)
        if (at == AT_TICKETS ? !has_same_tickets(map) : !is_same(&blocks[at])) return false;
    return true;
}

/* ---- Tables in use: present, pending, held and due nodes, open ranges. */

static uint32_t some_version(const struct lopresnik_map *map) {
    return below(8) == 0 ? (uint32_t)random_number() : map->tickets[below(LOPRESNIK_TICKETS)].version;
}

static void use(struct lopresnik_map *map) {
    int64_t out_keys[3], out_values[3];
    for (int i = 0; i < 30; i++) {
        int64_t key = (int64_t)below(KEYS);
        struct lopresnik_answer answer;
        switch (below(6)) {
            case 0:
            case 1: lopresnik_map_insert(map, key, i, random_number()); break;
            case 2:
                answer = lopresnik_map_remove(map, key);
                if (answer.refusal == LOPRESNIK_DONE && below(4) != 0)
                    lopresnik_map_hand_over(map, (uint32_t)answer.first);
                break;
            case 3: lopresnik_map_open_range(map, 0, KEYS); break;
            case 4: lopresnik_map_step_range(map, some_version(map), out_keys, out_values, 3); break;
            default:
                lopresnik_map_close_range(map, some_version(map));
                lopresnik_map_sweep(map);
        }
    }
}

/* A number that may well pass for a node, or any. */
static uint32_t likely(void) { return below(3) ? (uint32_t)below(CAPACITY + 6) : (uint32_t)random_number(); }

static void damage(struct tables *tables) {
    switch (below(6)) {
        case 0: tables->buckets[below(LOPRESNIK_BUCKETS(CAPACITY))] = likely(); break;
        case 1: tables->tickets[below(4)].version = likely(); break;
        case 2: tables->tickets[below(4)].rest = likely(); break;
        case 3: tables->tickets[below(4)].held = likely(); break;
        case 4: tables->keys[below(CAPACITY)] = random_number(); break;
        default: tables->rows[below(LOPRESNIK_ROWS(CAPACITY))] = likely();
    }
    switch (below(12)) {
        case 0: tables->coordinator.counter = likely(); break;
        case 1: tables->coordinator.ranges = likely(); break;
        case 2: tables->coordinator.due = likely();
    }
    /* Rarely all of the rows. */
    if (below(50) == 0)
        for (size_t i = 0; i < LOPRESNIK_ROWS(CAPACITY); i++) tables->rows[i] = likely();
}

/* ---- One call, of any kind. */

/* The refusal of a random call; of a list, of the list as a whole. */
static int64_t call(struct lopresnik_map *map) {
    int64_t *out_keys = (int64_t *)(void *)blocks[AT_OUT_KEYS].begin;
    int64_t *out_values = (int64_t *)(void *)blocks[AT_OUT_VALUES].begin;
    size_t keys_room = blocks[AT_OUT_KEYS].length / 8, values_room = blocks[AT_OUT_VALUES].length / 8;
    int64_t key = (int64_t)below(KEYS);
    uint32_t version = map->tickets_length == 0 ? 1 : map->tickets[0].version;
    struct lopresnik_ran ran;
    switch (below(16)) {
        case 0: return lopresnik_lookup(LOPRESNIK_PARTS(map), key).refusal;
        case 1: return lopresnik_insert(LOPRESNIK_PARTS(map), key, 1, random_number()).refusal;
        case 2: return lopresnik_remove(LOPRESNIK_PARTS(map), key).refusal;
        case 3: return lopresnik_hand_over(LOPRESNIK_PARTS(map), likely()).refusal;
        case 4: return lopresnik_ceil(LOPRESNIK_PARTS(map), key).refusal;
        case 5: return lopresnik_floor(LOPRESNIK_PARTS(map), key).refusal;
        case 6: return lopresnik_succ(LOPRESNIK_PARTS(map), key).refusal;
        case 7: return lopresnik_pred(LOPRESNIK_PARTS(map), key).refusal;
        case 8:
            return lopresnik_fast_range(LOPRESNIK_PARTS(map), 0, key, out_keys, keys_room, out_values,
                                        values_room)
                .refusal;
        case 9: return lopresnik_open_range(LOPRESNIK_PARTS(map), 0, key).refusal;
        case 10:
            return lopresnik_step_range(LOPRESNIK_PARTS(map), version, out_keys, keys_room, out_values,
                                        values_room)
                .refusal;
        case 11: return lopresnik_close_range(LOPRESNIK_PARTS(map), version).refusal;
        case 12: return lopresnik_sweep(LOPRESNIK_PARTS(map)).refusal;
        case 13: return lopresnik_tally(LOPRESNIK_PARTS(map)).refusal;
        default:
            ran = lopresnik_run_list(LOPRESNIK_PARTS(map), blocks[AT_BYTES].begin, blocks[AT_BYTES].length,
                                     below(2) == 0, (int64_t *)(void *)blocks[AT_ANSWERS].begin,
                                     blocks[AT_ANSWERS].length / 8, out_keys, keys_room, out_values,
                                     values_room);
            return ran.end == LOPRESNIK_REFUSED ? (int64_t)ran.at : LOPRESNIK_DONE;
    }
}

/* Buffers of any length, with bytes of which many are calls. */
static void lend_buffers(void) {
    place(&blocks[AT_OUT_KEYS], 8 * below(PLACES + 1));
    place(&blocks[AT_OUT_VALUES], 8 * below(PLACES + 1));
    place(&blocks[AT_ANSWERS], 8 * below(ANSWERS + 1));
    place(&blocks[AT_BYTES], below(BYTES + 1));
    for (int at = PARTS; at < BLOCKS; at++) fill_random(&blocks[at]);
    for (size_t i = 0; i < blocks[AT_BYTES].length; i++)
        if (below(4)) blocks[AT_BYTES].begin[i] %= 14;
    for (int at = PARTS; at < BLOCKS; at++) remember(&blocks[at]);
}

static unsigned long refused_damage, refused_lengths, made_damaged, made_sound;

static void try_call(const struct tables *sound, unsigned long round) {
    struct tables tables = *sound;
    int hurt = (int)below(3);
    for (int i = 0; i < hurt; i++) damage(&tables);
    lend_buffers();
    struct lopresnik_map map = lend_tables(&tables, below(8) == 0 ? (int)below(AT_COORDINATOR) : PARTS);
    bool is_right = has_right_lengths(&map);
    int64_t refusal = call(&map);
    if (refusal < 0 || refusal > LOPRESNIK_NO_PRESENT_KEY) fault("a refusal that there is not", round);
    if (refusal != LOPRESNIK_DONE && !is_unchanged(&map)) fault("a refused call changed something", round);
    if (refusal == LOPRESNIK_NOT_SOUND) {
        if (is_right && hurt == 0) fault("sound tables were refused", round);
        if (is_right) refused_damage++;
        else refused_lengths++;
        return;
    }
    if (!is_right) fault("wrong lengths were not refused", round);
    if (!lopresnik_map_sound(&map)) fault("tables that were not refused are not sound afterwards", round);
    if (hurt) made_damaged++;
    else made_sound++;
}

/* ---- Calls that only read, on memory that cannot be written. */

static void protect_parts(int access) {
    for (int at = 0; at < PARTS; at++)
        if (mprotect(blocks[at].pages, blocks[at].size, access) != 0) fault("no protection", 0);
}

static void try_reading(const struct tables *sound, unsigned long round) {
    const struct lopresnik_map map = lend_tables(sound, PARTS);
    int64_t out_keys[PLACES], out_values[PLACES], key = (int64_t)below(KEYS);
    protect_parts(PROT_READ);
    bool has_key = lopresnik_map_lookup(&map, key).refusal == LOPRESNIK_DONE;
    bool is_near = (lopresnik_map_ceil(&map, key).first == key) == has_key &&
                   (lopresnik_map_floor(&map, key).first == key) == has_key &&
                   lopresnik_map_succ(&map, key).first != key && lopresnik_map_pred(&map, key).first != key;
    bool is_range = lopresnik_map_fast_range(&map, key, key, out_keys, out_values, PLACES).first == has_key;
    bool is_sound = lopresnik_map_sound(&map) && lopresnik_map_tally(&map).refusal == LOPRESNIK_DONE;
    protect_parts(PROT_READ | PROT_WRITE);
    /* Where there is no key near, the answer's number is 0. */
    if (key != 0 && !is_near) fault("a nearest key is not as the lookup", round);
    if (!is_range || !is_sound) fault("reading answers another", round);
}

/* ---- Set-up, and the writers. */

static void try_set_up(const struct tables *any, unsigned long round) {
    static const uint32_t capacities[] = {0, 63, 64, 65, 128, 4096, 4294967295u};
    uint32_t capacity = capacities[below(7)];
    lend_buffers();
    struct lopresnik_map map = lend_tables(any, below(2) ? (int)below(AT_COORDINATOR) : PARTS);
    uint32_t right = LOPRESNIK_BUCKETS(capacity) == 0                       ? LOPRESNIK_NO_SUCH_CAPACITY
                     : capacity != CAPACITY || !has_right_lengths(&map) ? LOPRESNIK_NOT_SOUND
                                                                            : LOPRESNIK_DONE;
    if (lopresnik_set_up(LOPRESNIK_PARTS(&map), capacity, 7) != right) fault("set-up answers another", round);
    if (right != LOPRESNIK_DONE && !is_unchanged(&map)) fault("a refused set-up changed something", round);
    if (right == LOPRESNIK_DONE && lopresnik_map_tally(&map).third != CAPACITY) fault("not set up", round);
}

/* A number at an end of a width, or any. */
static int64_t edge(void) {
    static const int64_t edges[] = {0, -1, 63, 64, 4294967295, 4294967296, INT64_MAX, INT64_MIN};
    return below(3) ? edges[below(8)] : (int64_t)random_number();
}

static bool is_small(int64_t number) { return 0 <= number && number <= 4294967295; }

/* Whether the call that is asked for is one. */
static bool is_call(uint32_t code, int64_t first, int64_t second) {
    switch (code) {
        case LOPRESNIK_HAND_OVER:
        case LOPRESNIK_CLOSE_RANGE: return is_small(first);
        case LOPRESNIK_STEP_RANGE: return is_small(first) && is_small(second);
        default: return code <= LOPRESNIK_TALLY;
    }
}

/* The written call, alone in a list, is read as that call. */
static void read_back(const struct tables *sound, const uint8_t *bytes, size_t length, uint32_t code,
                      unsigned long round) {
    static struct tables tables;
    int64_t answers[LOPRESNIK_ANSWER_CELLS], out_keys[64], out_values[64];
    tables = *sound;
    struct lopresnik_map map = map_of(&tables);
    struct lopresnik_ran ran =
        lopresnik_map_run_bytes(&map, bytes, length, false, answers, 5, out_keys, out_values, 64);
    if (ran.end != LOPRESNIK_ENDED || ran.used != length || ran.calls != 1 || answers[0] != (int64_t)code)
        fault("a written call is not read back", round);
}

static void try_write(const struct tables *sound, unsigned long round) {
    uint8_t whole[LOPRESNIK_CALL_BYTES] = {0};
    uint32_t code = below(20) == 0 ? (uint32_t)random_number() : (uint32_t)below(16);
    int64_t first = edge(), second = edge();
    uint64_t third = (uint64_t)edge();
    bool is_header = below(8) == 0;
    size_t length = is_header
                        ? lopresnik_write_header(whole, LOPRESNIK_HEADER_BYTES, (uint32_t)first, (uint32_t)second)
                        : lopresnik_write_call(whole, sizeof whole, code, first, second, third);
    if ((length != 0) != (is_header || is_call(code, first, second))) fault("a call is no call", round);
    if (length != 0 && !is_header) read_back(sound, whole, length, code, round);
    uint8_t *buffer = place(&blocks[AT_BYTES], below(LOPRESNIK_CALL_BYTES + 3));
    size_t room = blocks[AT_BYTES].length;
    fill_random(&blocks[AT_BYTES]);
    remember(&blocks[AT_BYTES]);
    size_t wrote = is_header ? lopresnik_write_header(buffer, room, (uint32_t)first, (uint32_t)second)
                             : lopresnik_write_call(buffer, room, code, first, second, third);
    if (wrote != (length <= room ? length : 0)) fault("another length was written", round);
    if (memcmp(buffer, whole, wrote) != 0) fault("other bytes were written", round);
    if (memcmp(buffer + wrote, blocks[AT_BYTES].before + wrote, room - wrote) != 0)
        fault("a writer changed what lies behind", round);
}

int main(int count, char **words) {
    static struct tables tables;
    unsigned long rounds = count == 2 ? strtoul(words[1], NULL, 10) : 0;
    static const size_t most[BLOCKS] = {8 * (CAPACITY + SPARE), 8 * (CAPACITY + SPARE),
                                        4 * (LOPRESNIK_ROWS(CAPACITY) + SPARE),
                                        4 * (LOPRESNIK_BUCKETS(CAPACITY) + SPARE),
                                        sizeof(struct lopresnik_ticket) * (LOPRESNIK_TICKETS + SPARE),
                                        sizeof(struct lopresnik_coordinator), 8 * PLACES, 8 * PLACES,
                                        8 * ANSWERS, BYTES};
    if (rounds == 0) {
        printf("usage: hostile ROUNDS\n");
        return 2;
    }
    for (int at = 0; at < BLOCKS; at++) blocks[at] = new_block(most[at]);
    struct lopresnik_map map = map_of(&tables);
    if (lopresnik_map_set_up(&map, CAPACITY, 0) != LOPRESNIK_DONE) fault("no set-up", 0);
    for (unsigned long round = 0; round < rounds; round++) {
        use(&map);
        try_call(&tables, round);
        try_reading(&tables, round);
        try_set_up(&tables, round);
        try_write(&tables, round);
    }
    printf("hostile: %lu rounds; refused %lu damaged tables and %lu wrong lengths, made %lu calls on damaged "
           "tables that are sound and %lu on others\n",
           rounds, refused_damage, refused_lengths, made_damaged, made_sound);
    /* A test that does not meet all of these shows nothing. */
    if (rounds >= 200 && (!refused_damage || !refused_lengths || !made_damaged || !made_sound))
        fault("not everything was met", rounds);
    return 0;
}
