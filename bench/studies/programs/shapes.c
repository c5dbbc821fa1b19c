/* Rules of which the compiler's shapes are worth a look. */
#include "corpus.h"

/* Tails that are shared, by goto. */
RULE(tails, 2, "") {
    uint64_t choice = 1;
    if (!(app->flags & UPDATECHECK))
        goto none;
    if (app->version[0] == 17)
        goto second;
    if (app->version[0] < 3) {
        if (app->bucket > 4000)
            goto none;
        if (app->flags & COHORT_KNOWN)
            goto second;
    }
    if (app->second < 3600 && ATTR_IS(BRAND, "TEST"))
        goto none;
    return choice;
second:
    choice = 2;
    if (app->bucket < 9000)
        return choice;
none:
    return 0;
}

/* One of two fields, by its address. */
RULE(either_field, 1, "") {
    const uint32_t *field = app->bucket & 1 ? &app->version[1] : &app->version[0];
    return *field > 3;
}

/* A number that goes through memory each time. */
RULE(through_memory, 3, "") {
    volatile uint32_t number = app->version[0];
    if (number > 3)
        number = 3;
    return number;
}
