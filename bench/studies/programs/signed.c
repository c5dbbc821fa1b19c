/* Quotients and remainders of numbers with a sign, which clang has from -mcpu=v4 on. */
#include "corpus.h"

/* In both widths, by constants and by registers: on both sides of 0, to the least number of each
   width. No divisor is 0 or -1: C knows no quotient by 0, and none of the least number by -1. */
RULE(signed_quotients, 64, "") {
    int64_t wide = (int64_t)((uint64_t)app->version[0] << 32 | app->version[1]);
    int32_t a = (int32_t)app->version[2], b = (int32_t)app->version[3];
    int64_t by = (int64_t)app->bucket - 5000;
    uint64_t sum = (uint64_t)(wide / -13) + (uint64_t)(wide % 1000003);
    sum += (uint64_t)(int64_t)(a / 3) + (uint64_t)(int64_t)(a % -11);
    if (b != 0 && b != -1)
        sum += (uint64_t)(int64_t)(a / b) + (uint64_t)(int64_t)(a % b);
    if (by != 0 && by != -1)
        sum += (uint64_t)(wide / by) ^ (uint64_t)(wide % by);
    return sum % 65;
}
