// std::map over a list of operations. A long range is a copy of the map.
#include <map>
#include "ops.h"

using Map = std::map<int64_t, int64_t>;

struct Subject {
    Map map;
    Map snapshot;
    Map::const_iterator rest;
    int64_t high = 0;
};

extern "C" Subject *std_map_new() { return new Subject; }
extern "C" Subject *std_map_copy(const Subject *from) {
    Subject *subject = new Subject;
    subject->map = from->map;
    return subject;
}
extern "C" void std_map_free(Subject *subject) { delete subject; }

static int64_t hand_out(Map::const_iterator &at, Map::const_iterator end, int64_t high, int64_t most, out *out) {
    int64_t count = 0;
    for (; count < most && at != end && at->first <= high; ++at, ++count) {
        out->keys[out->pairs] = at->first;
        out->values[out->pairs++] = at->second;
    }
    return count;
}

static int64_t run_one(Subject &subject, const op &op, out *out) {
    Map &map = subject.map;
    switch (op.kind) {
    case LOOKUP: {
        auto found = map.find(op.key);
        return found == map.end() ? ABSENT : found->second;
    }
    case INSERT: return map.emplace(op.key, op.with).second;
    case REMOVE: return map.erase(op.key);
    case RANGE: {
        Map::const_iterator at = map.lower_bound(op.key);
        return hand_out(at, map.end(), op.with, INT64_MAX, out);
    }
    case OPEN:
        subject.snapshot = map;
        subject.rest = subject.snapshot.lower_bound(op.key);
        subject.high = op.with;
        return 0;
    case STEP: return hand_out(subject.rest, subject.snapshot.end(), subject.high, STEP_PAIRS, out);
    default: subject.snapshot.clear(); return 0;
    }
}

extern "C" void std_map_run(Subject *subject, const op *ops, size_t count, out *out) {
    for (size_t i = 0; i < count; i++) out->answers[i] = run_one(*subject, ops[i], out);
}
