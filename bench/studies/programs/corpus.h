/* What the rules of bench/studies/compiled are written with: rollout.h, and RULE, so that a file may
   have many. A rule has a name, its releases, and its arrays as `--arrays` declares them.

   With PLAIN nothing is opaque, as where a writer does without TAKE and OFFER. With OFFERED each
   rule offers what it chooses. */
#ifndef CORPUS_H
#define CORPUS_H

#include "rollout.h"

#ifdef PLAIN
#undef OPAQUE
#define OPAQUE(number) (number)
#endif

#ifdef OFFERED
#define RULE(name, releases, arrays)                                                           \
    INLINE uint64_t name##_number(const struct context *app);                                  \
    uint64_t name(const struct context *app) { return OFFER(name##_number(app), releases); }   \
    INLINE uint64_t name##_number(const struct context *app)
#else
#define RULE(name, releases, arrays) uint64_t name(const struct context *app)
#endif

/* Two numbers as one. */
#define TWO(first, second) ((uint64_t)(first) << 32 | (second))

/* gcc 12 calls a helper by a function that has its number, unrolls by a word of its own, and makes
   an addition that gives the old value a call of its library. */
#if defined(__bpf__) && !defined(__clang__)
#define HELPER(number) __attribute__((kernel_helper(number)))
void *lookup_helper(const void *map, uint64_t key) HELPER(1);
uint64_t attr_is_helper(uint64_t number, const void *text, uint64_t length) HELPER(2);
uint64_t attr_len_helper(uint64_t number) HELPER(3);
uint64_t bucket_of_helper(uint64_t salt) HELPER(4);
#define lookup lookup_helper
#define attr_is attr_is_helper
#define attr_len attr_len_helper
#define bucket_of bucket_of_helper

#undef UNROLL
#define UNROLL _Pragma("GCC unroll 64")

#define __sync_fetch_and_add(cell, number)                                                     \
    ({                                                                                         \
        register void *added_ __asm__("r1") = (cell);                                          \
        register uint64_t old_ __asm__("r2") = (number);                                       \
        __asm__ volatile(".byte %2, 0x21, 0, 0\n\t.long 1"                                     \
                         : "+r"(old_)                                                          \
                         : "r"(added_), "i"(sizeof *(cell) == 4 ? 0xc3 : 0xdb)                 \
                         : "memory");                                                          \
        old_;                                                                                  \
    })
#endif

#endif
