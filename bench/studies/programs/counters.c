/* Rules with counters. */
#include "corpus.h"

/* A quota for a part of the buckets. */
RULE(quota, 1, "taken:64:1:10") { return app->bucket < 5000 && TAKE(0, 0, 10); }

/* The second release while it lasts, and else the first by one of two quotas. */
RULE(two_quotas, 2, "early:64:2:3,rest:64:1:5000") {
    if (app->flags & VERSION_KNOWN && TAKE(0, 1, 3))
        return 2;
    return app->version[0] >= 2 ? TAKE(0, 0, 3) : TAKE(1, 0, 5000);
}

/* A counter that is looked up, and a limit. */
RULE(seen, 1, "seen:64:12") {
    uint64_t *seen = lookup(MAP(0), app->bucket & 15);
    if (!seen)
        return 0;
    __sync_fetch_and_add(seen, 1);
    return *seen <= 2;
}

/* How often each first number came, in 32 bits. */
RULE(majors, 1, "majors:32:9") {
    uint32_t key = app->version[0];
    if (key > 8)
        key = 8;
    uint32_t *count = lookup(MAP(0), key);
    if (count)
        *count += 1;
    return app->bucket < 100 * (1 + key);
}

/* Once for each first number that is above the last one. */
RULE(once, 1, "last:64:1") {
    uint64_t *last = CELL(0, 0), was = *last;
    if (was >= app->version[0])
        return 0;
    return __sync_bool_compare_and_swap(last, was, app->version[0]);
}

/* A quota for each first number. */
RULE(by_key, 1, "taken:64:10:2") {
    uint64_t *taken = lookup(MAP(0), app->version[0]);
    return taken && OPAQUE(__sync_fetch_and_add(taken, 1)) < 2;
}

/* Two counters that are looked up, counted and compared. */
RULE(two_lookups, 1, "first:64:4,second:64:4") {
    uint64_t *first = lookup(MAP(0), app->bucket & 3);
    uint64_t *second = lookup(MAP(1), app->version[0] & 3);
    if (!first || !second)
        return 0;
    *first += 1;
    *second += 2;
    return *first > *second;
}
