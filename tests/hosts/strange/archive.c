/* An archive that is not ours: it has the version VERSION of the interface, and every call is refused with a
 * number that nobody knows. Hosts must meet both with an error of their own. */
#include "lopresnik.h"

#define REFUSAL 99

static struct lopresnik_answer refused(int64_t code) {
    struct lopresnik_answer answer = {code, REFUSAL, 0, 0, 0};
    return answer;
}

/* The parameters that are not looked at. */
#define IGNORE_TABLES                                                                           \
    (void)keys, (void)keys_length, (void)values, (void)values_length, (void)rows,               \
        (void)rows_length, (void)buckets, (void)buckets_length, (void)tickets,                  \
        (void)tickets_length, (void)coordinator

#define REFUSE_ONE(name, code, tables, type)                     \
    struct lopresnik_answer name(tables, type number) {          \
        IGNORE_TABLES, (void)number;                             \
        return refused(code);                                    \
    }

uint32_t lopresnik_version(void) { return VERSION; }

uint32_t lopresnik_set_up(LOPRESNIK_TABLES, uint32_t capacity, uint32_t start) {
    IGNORE_TABLES, (void)capacity, (void)start;
    return REFUSAL;
}

REFUSE_ONE(lopresnik_lookup, 0, LOPRESNIK_READ_TABLES, int64_t)

struct lopresnik_answer lopresnik_insert(LOPRESNIK_TABLES, int64_t key, int64_t value, uint64_t coin) {
    IGNORE_TABLES, (void)key, (void)value, (void)coin;
    return refused(1);
}

REFUSE_ONE(lopresnik_remove, 2, LOPRESNIK_TABLES, int64_t)
REFUSE_ONE(lopresnik_hand_over, 3, LOPRESNIK_TABLES, uint32_t)
REFUSE_ONE(lopresnik_ceil, 4, LOPRESNIK_READ_TABLES, int64_t)
REFUSE_ONE(lopresnik_floor, 5, LOPRESNIK_READ_TABLES, int64_t)
REFUSE_ONE(lopresnik_succ, 6, LOPRESNIK_READ_TABLES, int64_t)
REFUSE_ONE(lopresnik_pred, 7, LOPRESNIK_READ_TABLES, int64_t)

struct lopresnik_answer lopresnik_fast_range(LOPRESNIK_READ_TABLES, int64_t low, int64_t high,
                                             int64_t *out_keys, size_t out_keys_length,
                                             int64_t *out_values, size_t out_values_length) {
    IGNORE_TABLES, (void)low, (void)high, (void)out_keys, (void)out_keys_length, (void)out_values,
        (void)out_values_length;
    return refused(8);
}

struct lopresnik_answer lopresnik_open_range(LOPRESNIK_READ_TABLES, int64_t low, int64_t high) {
    IGNORE_TABLES, (void)low, (void)high;
    return refused(9);
}

struct lopresnik_answer lopresnik_step_range(LOPRESNIK_READ_TABLES, uint32_t version, int64_t *out_keys,
                                             size_t out_keys_length, int64_t *out_values,
                                             size_t out_values_length) {
    IGNORE_TABLES, (void)version, (void)out_keys, (void)out_keys_length, (void)out_values,
        (void)out_values_length;
    return refused(10);
}

REFUSE_ONE(lopresnik_close_range, 11, LOPRESNIK_READ_TABLES, uint32_t)

struct lopresnik_answer lopresnik_sweep(LOPRESNIK_TABLES) {
    IGNORE_TABLES;
    return refused(12);
}

struct lopresnik_answer lopresnik_tally(LOPRESNIK_READ_TABLES) {
    IGNORE_TABLES;
    return refused(13);
}

struct lopresnik_ran lopresnik_run_list(LOPRESNIK_TABLES, const uint8_t *bytes, size_t bytes_length,
                                        bool more, int64_t *answers, size_t answers_length,
                                        int64_t *out_keys, size_t out_keys_length, int64_t *out_values,
                                        size_t out_values_length) {
    struct lopresnik_ran ran = {LOPRESNIK_REFUSED, REFUSAL, 0, 0, 0};
    /* With more bytes to come it ends for a reason that nobody knows. */
    if (more) ran.end = REFUSAL;
    IGNORE_TABLES, (void)bytes, (void)bytes_length, (void)answers, (void)answers_length, (void)out_keys,
        (void)out_keys_length, (void)out_values, (void)out_values_length;
    return ran;
}

size_t lopresnik_write_call(uint8_t *buffer, size_t buffer_length, uint32_t code, int64_t first,
                            int64_t second, uint64_t third) {
    (void)buffer, (void)buffer_length, (void)code, (void)first, (void)second, (void)third;
    return 0;
}

size_t lopresnik_write_header(uint8_t *buffer, size_t buffer_length, uint32_t capacity, uint32_t start) {
    (void)buffer, (void)buffer_length, (void)capacity, (void)start;
    return 0;
}
