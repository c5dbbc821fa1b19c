/* Products, quotients and remainders of numbers without sign. */
#include "corpus.h"

/* In both widths, by constants and by registers. The last remainder bounds the choice: it is known
   to be 64 at most. */
RULE(quotients, 64, "") {
    uint64_t count = (uint64_t)app->bucket + 1;
    uint64_t wide = ((uint64_t)app->version[0] << 32 | app->version[1]) * count;
    uint32_t a = app->version[2], b = app->version[3];
    uint64_t sum = wide / 1000003 + wide % 1000003 + wide / count;
    if (b)
        sum += wide % b + a / b + a % b + a * b;
    return (sum + a / 7 + a % 7) % 65;
}
