/* Rules by the version's numbers. */
#include "corpus.h"

/* Whether a version is below another one, at it or above: -1, 0 or 1. */
INLINE int compared(const uint32_t *version, const uint32_t *with) {
    UNROLL
    for (int i = 0; i < 4; i++) {
        if (version[i] < with[i])
            return -1;
        if (version[i] > with[i])
            return 1;
    }
    return 0;
}

/* From 1.4.0.12 up to 2.0, by four numbers. */
RULE(between, 1, "") {
    const uint32_t least[4] = {1, 4, 0, 12}, most[4] = {2, 0, 0, 0};
    if (compared(app->version, least) < 0)
        return 0;
    return compared(app->version, most) <= 0;
}

/* Two numbers as one. */
RULE(packed, 2, "") {
    uint64_t version = TWO(app->version[0], app->version[1]);
    if (version >= TWO(3, 2))
        return 0;
    return version >= TWO(2, 10) ? 2 : version > TWO(1, 0);
}

/* A switch with distant cases, with work in its arms. */
RULE(by_major, 2, "") {
    switch (app->version[0]) {
    case 1:
    case 2: return app->bucket < 100;
    case 5: return app->flags & COHORT_KNOWN ? 2 : 1;
    case 17: return app->version[1] > 3 ? 2 : 0;
    case 90: return ATTR_IS(PLATFORM, "win");
    default: return 0;
    }
}

/* One of the numbers, by the bucket. */
RULE(number_at, 1, "") { return app->version[app->bucket & 3] > 5; }

/* Numbers with their bytes turned round. */
RULE(swapped, 1, "") {
    uint32_t key = __builtin_bswap32(app->version[0]) ^ __builtin_bswap16(app->bucket);
    uint64_t wide = __builtin_bswap64(TWO(app->version[0], app->version[1]));
    return (key >> 24) < 50 && (wide & 0xff) != 7;
}

/* A sum over the version's and the bucket's bytes. */
RULE(checksum, 3, "") {
    const uint8_t *bytes = (const uint8_t *)app;
    uint32_t sum = 0;
    UNROLL
    for (int i = 0; i < 18; i++)
        sum = (sum << 3 | sum >> 29) ^ bytes[i];
    return (sum >> 16 ^ sum) & 3;
}

/* Numbers in a copy of the context. */
RULE(copied, 2, "") {
    struct context copy = *app;
    volatile uint32_t *numbers = copy.version;
    copy.version[3] = copy.version[0] + copy.version[1];
    return numbers[3] > 10 ? 2 : numbers[2] > 1;
}
