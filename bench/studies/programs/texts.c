/* Rules by texts, and numbers that are kept over calls of helpers. */
#include "corpus.h"

/* Texts one after the other. */
RULE(brand, 2, "") {
    if (ATTR_IS(BRAND, "GGLS"))
        return 2;
    if (ATTR_IS(AP, "x64-beta-multi-chrome") || ATTR_IS(AP, "beta"))
        return app->bucket < 5000;
    return app->version[0] == 1;
}

/* A list of texts, in a loop. */
RULE(listed, 1, "") {
    static const char texts[4][8] = {"1.0", "1.4.0", "2.10", "3.2"};
    static const uint8_t lengths[4] = {3, 5, 4, 3};
    UNROLL
    for (int i = 0; i < 4; i++) {
        char text[8];
        __builtin_memcpy(text, texts[i], 8);
        if (attr_is(VERSION, text, lengths[i]))
            return 1;
    }
    return 0;
}

/* A text that is put together: "b:" and the bucket's digits. */
RULE(cohort, 1, "") {
    struct {
        char prefix[2], digits[4];
    } text = {{'b', ':'}, {0}};
    uint32_t rest = app->bucket;
    UNROLL
    for (int i = 3; i >= 0; i--) {
        text.digits[i] = '0' + rest % 10;
        rest /= 10;
    }
    return attr_is(COHORT, &text, sizeof text) || text.digits[3] < '5';
}

/* Six numbers that are read first, and used after four calls. */
RULE(kept_numbers, 3, "") {
    uint32_t major = app->version[0], minor = app->version[1], build = app->version[2];
    uint32_t today = app->today, installed = app->installed, bucket = app->bucket;
    uint64_t lengths = attr_len(VERSION) + attr_len(AP), place = bucket_of(9);
    if (lengths > 20 || ATTR_IS(LANG, "de"))
        return place < 100;
    if (major == 2 && minor > 4 && build < 5000)
        return bucket < 1000 ? 3 : 2;
    return today - installed > 100 || place + bucket < 5000;
}

INLINE uint32_t within(uint32_t number) { return number > 3 ? 3 : number; }

/* Choices that are bounded first, and used after calls. */
RULE(kept_choices, 3, "") {
    uint32_t first = within(app->version[0]), second = within(app->version[1]);
    uint32_t third = within(app->version[2]), fourth = within(app->version[3]);
    uint32_t fifth = within(app->today), sixth = within(app->bucket);
    if (ATTR_IS(VERSION, "1.0"))
        return first;
    if (ATTR_IS(LANG, "fr"))
        return second;
    if (ATTR_IS(VERSION, "1.4.0.12"))
        return third;
    if (ATTR_IS(LANG, "nl"))
        return fourth;
    if (ATTR_IS(VERSION, "2.0"))
        return fifth;
    return attr_len(VERSION) ? sixth : (first + second + third + fourth + fifth + sixth) & 3;
}
