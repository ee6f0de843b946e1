/* LMDB over a list of operations, in a folder that should lie in memory, without any sync. Operations
 * run in one transaction until a range is opened, stepped or closed; an open range is a transaction of
 * its own that reads, while changes go on and are committed before each step. */
#include <lmdb.h>
#include <stdio.h>
#include <stdlib.h>
#include <string.h>
#include "ops.h"

struct subject {
    MDB_env *environment;
    MDB_dbi base;
    MDB_txn *work;  /* of the operations */
    MDB_cursor *at; /* in it */
    int changing;   /* whether `work` may change the map */
    MDB_txn *reader;
    MDB_cursor *rest;
    int more;
    int64_t high;
};

static int may(int status) {
    if (status != MDB_SUCCESS && status != MDB_NOTFOUND && status != MDB_KEYEXIST) {
        fprintf(stderr, "lmdb: %s\n", mdb_strerror(status));
        abort();
    }
    return status;
}

/* Keys in the order of unsigned numbers. */
static uint64_t rank(int64_t key) { return (uint64_t)key ^ (UINT64_C(1) << 63); }
static int64_t unrank(const MDB_val *key) {
    uint64_t rank;
    memcpy(&rank, key->mv_data, sizeof rank);
    return (int64_t)(rank ^ (UINT64_C(1) << 63));
}
static int64_t value_of(const MDB_val *value) {
    int64_t number;
    memcpy(&number, value->mv_data, sizeof number);
    return number;
}

static void begin(struct subject *subject, int changing) {
    if (subject->work) return;
    may(mdb_txn_begin(subject->environment, NULL, changing ? 0 : MDB_RDONLY, &subject->work));
    may(mdb_cursor_open(subject->work, subject->base, &subject->at));
    subject->changing = changing;
}

static void commit(struct subject *subject) {
    if (!subject->work) return;
    mdb_cursor_close(subject->at);
    may(mdb_txn_commit(subject->work));
    subject->work = NULL;
}

static void close_range(struct subject *subject) {
    if (!subject->reader) return;
    mdb_cursor_close(subject->rest);
    mdb_txn_abort(subject->reader);
    subject->reader = NULL;
}

struct subject *lmdb_new(const char *folder) {
    struct subject *subject = calloc(1, sizeof *subject);
    may(mdb_env_create(&subject->environment));
    may(mdb_env_set_mapsize(subject->environment, (size_t)256 << 20));
    may(mdb_env_open(subject->environment, folder,
                     MDB_NOSYNC | MDB_NOMETASYNC | MDB_WRITEMAP | MDB_NOTLS | MDB_NOMEMINIT, 0600));
    begin(subject, 0);
    commit(subject);
    MDB_txn *first;
    may(mdb_txn_begin(subject->environment, NULL, 0, &first));
    may(mdb_dbi_open(first, NULL, MDB_INTEGERKEY, &subject->base));
    may(mdb_drop(first, subject->base, 0));
    may(mdb_txn_commit(first));
    return subject;
}

void lmdb_free(struct subject *subject) {
    close_range(subject);
    commit(subject);
    mdb_env_close(subject->environment);
    free(subject);
}

/* Hands out pairs from where the cursor is; `*more` says whether it is on one. */
static int64_t hand_out(MDB_cursor *at, MDB_val *key, MDB_val *value, int *more, int64_t high, int64_t most,
                        struct out *out) {
    int64_t count = 0;
    while (*more && count < most && unrank(key) <= high) {
        out->keys[out->pairs] = unrank(key);
        out->values[out->pairs++] = value_of(value);
        count++;
        *more = may(mdb_cursor_get(at, key, value, MDB_NEXT)) == MDB_SUCCESS;
    }
    return count;
}

static void open_range(struct subject *subject, int64_t low, int64_t high) {
    uint64_t from = rank(low);
    MDB_val key = {sizeof from, &from}, value;
    commit(subject);
    may(mdb_txn_begin(subject->environment, NULL, MDB_RDONLY, &subject->reader));
    may(mdb_cursor_open(subject->reader, subject->base, &subject->rest));
    subject->more = may(mdb_cursor_get(subject->rest, &key, &value, MDB_SET_RANGE)) == MDB_SUCCESS;
    subject->high = high;
}

static int64_t step(struct subject *subject, struct out *out) {
    MDB_val key, value;
    commit(subject);
    if (subject->more) may(mdb_cursor_get(subject->rest, &key, &value, MDB_GET_CURRENT));
    return hand_out(subject->rest, &key, &value, &subject->more, subject->high, STEP_PAIRS, out);
}

static int64_t run_one(struct subject *subject, const struct op *op, int changing, struct out *out) {
    uint64_t from = rank(op->key);
    int64_t given = op->with;
    MDB_val key = {sizeof from, &from}, value = {sizeof given, &given};
    int more;
    switch (op->kind) {
    case OPEN: open_range(subject, op->key, op->with); return 0;
    case STEP: return step(subject, out);
    case CLOSE: close_range(subject); return 0;
    default: break;
    }
    begin(subject, changing);
    switch (op->kind) {
    case LOOKUP:
        return may(mdb_cursor_get(subject->at, &key, &value, MDB_SET)) == MDB_SUCCESS ? value_of(&value) : ABSENT;
    case INSERT: return may(mdb_cursor_put(subject->at, &key, &value, MDB_NOOVERWRITE)) == MDB_SUCCESS;
    case REMOVE:
        if (may(mdb_cursor_get(subject->at, &key, &value, MDB_SET)) != MDB_SUCCESS) return 0;
        may(mdb_cursor_del(subject->at, 0));
        return 1;
    default:
        more = may(mdb_cursor_get(subject->at, &key, &value, MDB_SET_RANGE)) == MDB_SUCCESS;
        return hand_out(subject->at, &key, &value, &more, op->with, INT64_MAX, out);
    }
}

void lmdb_run(struct subject *subject, const struct op *ops, size_t count, struct out *out) {
    int changing = 0;
    for (size_t i = 0; i < count; i++) changing |= ops[i].kind == INSERT || ops[i].kind == REMOVE;
    for (size_t i = 0; i < count; i++) out->answers[i] = run_one(subject, &ops[i], changing, out);
    commit(subject);
}
