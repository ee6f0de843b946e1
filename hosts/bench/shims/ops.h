/* One operation of a workload, as src/work.rs has it. */
#ifndef OPS_H
#define OPS_H
#include <stddef.h>
#include <stdint.h>

enum { LOOKUP, INSERT, REMOVE, RANGE, OPEN, STEP, CLOSE };

struct op {
    uint64_t kind;
    int64_t key;  /* of a range: the lower bound */
    int64_t with; /* an insert's value, a range's upper bound */
    uint64_t coin;
};

/* Where answers go: one cell an operation, pairs one behind another. */
struct out {
    int64_t *answers;
    int64_t *keys;
    int64_t *values;
    size_t pairs;
};

#define ABSENT INT64_MIN
#define STEP_PAIRS 64
#endif
