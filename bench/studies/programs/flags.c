/* Rules by flags, and numbers that are put together from bits. */
#include "corpus.h"

/* Flags by masks. */
RULE(masks, 1, "") {
    const uint8_t wanted = VERSION_KNOWN | UPDATECHECK;
    if ((app->flags & wanted) != wanted || app->flags & (EVENT | PING))
        return 0;
    return app->flags & COHORT_KNOWN ? app->bucket < 9000 : app->bucket < 100;
}

/* How many flags are set, one after the other. */
RULE(counted, 6, "") {
    uint32_t count = 0;
    UNROLL
    for (int bit = 0; bit < 6; bit++)
        count += app->flags >> bit & 1;
    return count;
}

/* The two upper flags. */
RULE(upper, 3, "") { return app->flags >> 4; }

/* A flag and a bit of the version: 0, 1, 4 or 5. */
RULE(joined, 5, "") { return (app->flags & PING) | (app->version[0] & 1); }

RULE(differing, 5, "") {
    uint32_t flags = app->flags & (PING | VERSION_KNOWN);
    return flags ^ (app->bucket < 100 ? PING : 0);
}

/* One flag adds one, another takes one away. */
RULE(difference, 2, "") {
    int more = (app->flags & VERSION_KNOWN) != 0, less = (app->flags & PING) != 0;
    return 1 + more - less;
}

/* Points with a sign, kept within 0 and 3. */
RULE(points, 3, "") {
    int sum = 0;
    if (app->flags & VERSION_KNOWN)
        sum += 1;
    if (app->version[0] >= 3)
        sum += 2;
    if (app->bucket < 5000)
        sum += 1;
    if (app->flags & EVENT)
        sum -= 2;
    return sum < 0 ? 0 : sum > 3 ? 3 : sum;
}
