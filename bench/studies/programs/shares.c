/* Rules by the bucket, and by buckets of their own. */
#include "corpus.h"

/* A percentage of the bucket, beside one that grows with the version. */
RULE(percent, 1, "") {
    uint32_t wanted = app->version[0] * 10;
    if (wanted > 100)
        wanted = 100;
    return app->bucket * 100u / 10000 < wanted;
}

/* The number of limits that the bucket has passed. */
RULE(limits, 4, "") {
    const uint16_t below[4] = {100, 500, 2500, 9000};
    uint64_t passed = 0;
    UNROLL
    for (int i = 0; i < 4; i++)
        if (app->bucket >= below[i])
            passed++;
    return passed;
}

/* Arms of different weights. */
RULE(weights, 4, "") {
    const uint32_t weight[4] = {1000, 2500, 500, 6000};
    uint32_t place = bucket_of(77), sum = 0;
    UNROLL
    for (int i = 0; i < 4; i++) {
        sum += weight[i];
        if (place < sum)
            return i + 1;
    }
    return 0;
}

/* Three arms of one weight, by comparisons and by a quotient. */
RULE(arms, 3, "") {
    uint64_t place = bucket_of(20261124);
    return place < 3334 ? 1 : place < 6667 ? 2 : 3;
}

RULE(arm_by_quotient, 3, "") { return bucket_of(20261124) / 3334 + 1; }

/* Three arms by a remainder. */
RULE(thirds, 3, "") { return app->flags & UPDATECHECK ? app->bucket % 3 + 1 : 0; }

/* Four arms by a quotient of the bucket itself. */
RULE(quarters, 4, "") { return app->bucket / 2500 + 1; }

/* Ten groups by a quotient. Half of a group has the group's own release, and the rest one by a
   remainder. */
RULE(groups, 64, "") {
    if (app->version[0] >= 3)
        return 0;
    uint32_t group = app->bucket / 1000 % 10, place = app->bucket % 1000;
    return place < 500 ? 1 + group * 6 : place % 7;
}

/* A switch with cases one after the other. */
RULE(eighths, 3, "") {
    switch (app->bucket & 7) {
    case 0: return 1;
    case 1: return 3;
    case 2: return 2;
    case 3: return 0;
    case 4: return 2;
    case 5: return 2;
    case 6: return 1;
    default: return 0;
    }
}

/* A hash by products. */
RULE(multiplied, 2, "") {
    uint64_t hash = app->bucket + ((uint64_t)app->version[0] << 20);
    hash = (hash ^ hash >> 33) * 0xff51afd7ed558ccd;
    hash = (hash ^ hash >> 33) * 0xc4ceb9fe1a85ec53;
    hash ^= hash >> 33;
    return hash % 1000 < 50 ? 2 : hash >> 63;
}

/* A hash by shifts alone. */
RULE(shifted, 1, "") {
    uint64_t hash = 0x9e3779b97f4a7c15 ^ app->bucket;
    hash ^= hash << 13;
    hash ^= hash >> 7;
    hash ^= hash << 17;
    return ((hash + app->version[0]) & 1023) < 51;
}
