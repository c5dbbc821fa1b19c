/* Rules that are refused, each by the fault that its comment names first, and with MENDED the same
   ones, or what comes nearest, as they are accepted. */
#include "corpus.h"

/* F1: a loop that turns as often as a number of the app says. Mended it turns ten times, of which
   those count that it says. */
RULE(loop, 1, "") {
    uint64_t sum = 0;
#ifdef MENDED
    UNROLL
    for (uint32_t i = 0; i < 10; i++)
        if (i < app->version[0])
            sum += app->version[1] >> i;
#else
    for (uint32_t i = 0; i < app->version[0]; i++)
        sum += app->version[1] >> (i & 31);
#endif
    return sum < 100;
}

#ifdef MENDED
#define FUNCTION INLINE
#else
#define FUNCTION static __attribute__((noinline))
#endif

FUNCTION uint64_t wave(const struct context *app) { return bucket_of(app->version[0]) / 2500; }

/* I3: a call of a function that isn't inlined. */
RULE(call, 1, "") { return wave(app) == app->version[1]; }

#ifndef MENDED
static const uint8_t releases[8] = {0, 1, 2, 1, 0, 2, 2, 1};
#endif

/* V9: a table that is read at a variable index, which lies in .rodata. Eight small numbers fit in
   one number. */
RULE(table, 2, "") {
#ifdef MENDED
    return OFFER(0x12201210u >> 4 * (app->bucket & 7) & 3, 2);
#else
    return releases[app->bucket & 7];
#endif
}

/* V10: the address of a literal, which is one in .rodata, too. */
RULE(literal, 1, "") {
#ifdef MENDED
    return ATTR_IS(VERSION, "1.0") && app->bucket < 9000;
#else
    return attr_is(VERSION, "1.0", 3) && app->bucket < 9000;
#endif
}

/* V3: a counter at a variable index from the first. A lookup finds it, and says where there is
   none. */
RULE(index_from_first, 1, "seen:64:16") {
#ifdef MENDED
    uint64_t *seen = lookup(MAP(0), app->bucket & 15);
    if (!seen)
        return 0;
#else
    uint64_t *seen = (uint64_t *)CELL(0, 0) + (app->bucket & 15);
#endif
    return OPAQUE(__sync_fetch_and_add(seen, 1)) < 2;
}

/* V1: a counter that is one of two. Where the paths meet nothing is known of it, so each path does
   its own addition. */
RULE(either_counter, 1, "old:64:1,new:64:1") {
#ifdef MENDED
    if (app->version[0] < 2)
        return TAKE(0, 0, 5);
    return TAKE(1, 0, 5);
#else
    uint64_t *taken = app->version[0] < 2 ? CELL(0, 0) : CELL(1, 0);
    return OPAQUE(__sync_fetch_and_add(taken, 1)) < 5;
#endif
}

/* V10: a text whose length is found as the rule runs. Mended both texts are asked for. */
RULE(text_length, 1, "") {
#ifdef MENDED
    uint64_t is_short = ATTR_IS(VERSION, "2.1"), is_long = ATTR_IS(VERSION, "2.10");
    return app->bucket & 1 ? is_short : is_long;
#else
    char text[] = "2.10";
    return attr_is(VERSION, text, app->bucket & 1 ? 3 : 4);
#endif
}

/* V1: a text with bytes between its members that nobody sets. */
RULE(padding, 1, "") {
    struct {
        char kind;
#ifdef MENDED
        char unused[3];
#endif
        uint32_t number;
    } text;
    text.kind = 'k';
#ifdef MENDED
    text.unused[0] = text.unused[1] = text.unused[2] = 0;
#endif
    text.number = app->version[0];
    return attr_is(AP, &text, sizeof text) || app->bucket < 10;
}

/* V4: an array on the stack at a variable index. An unrolled loop reads all of it. */
RULE(stack, 1, "") {
    volatile uint16_t below[4] = {10, 100, 1000, app->bucket};
    uint32_t stage = app->version[0] & 3;
#ifdef MENDED
    uint64_t chosen = 0;
    UNROLL
    for (uint32_t i = 0; i < 4; i++)
        chosen |= (i == stage) & (app->bucket < below[i]);
    return chosen;
#else
    return app->bucket < below[stage];
#endif
}

/* V14: an addition to a counter with a quota, of which nobody uses the old value. TAKE asks for it
   all the same. */
RULE(unused, 1, "early:64:1:100") {
#ifdef MENDED
    TAKE(0, 0, 100);
#else
    __sync_fetch_and_add((uint64_t *)CELL(0, 0), 1);
#endif
    return app->bucket < 500;
}

/* V13: a number that is a release as the compiler knows, and the verifier doesn't. */
RULE(number, 8, "") {
    uint64_t set = __builtin_popcount(app->version[0] & 255);
#ifdef MENDED
    return OFFER(set, 8);
#else
    return set > 8 ? 0 : set;
#endif
}
