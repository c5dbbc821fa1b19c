/* The header for rules in C (docs/C.md): the context, attributes, helpers and counters. For clang
   from 14 on. On the host the helpers are functions that a test supplies (it may be
   bench/studies/programs/host.c), and a rule is C like any other. */
#ifndef ROLLOUT_H
#define ROLLOUT_H

typedef __UINT8_TYPE__ uint8_t;
typedef __UINT16_TYPE__ uint16_t;
typedef __UINT32_TYPE__ uint32_t;
typedef __UINT64_TYPE__ uint64_t;
typedef __INT32_TYPE__ int32_t;
typedef __INT64_TYPE__ int64_t;

/* The app that asks, and the moment. A missing number of the version is 0. Days are counted from
   2007-01-01; an unknown day of installation is 4294967295. */
struct context {
    uint32_t version[4];
    uint16_t bucket; /* 0 to 9999 */
    uint8_t flags, zero;
    uint32_t installed, today, second; /* two days, and the second of today */
    uint8_t zeroes[32];
};

/* The rule: 0 is no release, k the k-th. The file has no other function that isn't INLINE. */
uint64_t rule(const struct context *app);

enum flag {
    VERSION_KNOWN = 1,
    UPDATECHECK = 2,
    PING = 4,
    EVENT = 8,
    COHORT_KNOWN = 16,
    INSTALLDATE_KNOWN = 32
};

enum attribute { APPID, VERSION, BRAND, AP, LANG, COHORT, PLATFORM };

#define INLINE static inline __attribute__((always_inline))

#ifdef __bpf__

/* Goes before a loop whose number of turns is known. */
#define UNROLL _Pragma("clang loop unroll(full)")

/* The address of the array's cell at the key, or 0 if it has none: compare it with 0. */
static void *(*const lookup)(const void *map, uint64_t key) = (void *)1;
/* Whether the attribute is these bytes of the stack, 0 to 64 of them. ATTR_IS takes a literal. */
static uint64_t (*const attr_is)(uint64_t number, const void *text, uint64_t length) = (void *)2;
/* How many bytes the attribute has, 0 to 1024. */
static uint64_t (*const attr_len)(uint64_t number) = (void *)3;
/* The app's bucket under a salt, 0 to 9999. */
static uint64_t (*const bucket_of)(uint64_t salt) = (void *)4;

/* The array of a number, counted from 0, for `lookup`. */
#define MAP(array)                                                                             \
    ({                                                                                         \
        register void *map_ __asm__("r1");                                                     \
        __asm__(".byte 0x18, 0x51, 0, 0\n\t.long %1, 0, 0" : "=r"(map_) : "i"(array));         \
        map_;                                                                                  \
    })

/* The address of an array's cell; both numbers are constants. It is read and written in its own
   width: by uint64_t * or by uint32_t *. */
#define CELL(array, index)                                                                     \
    ({                                                                                         \
        register void *cell_ __asm__("r1");                                                    \
        __asm__(".byte 0x18, 0x61, 0, 0\n\t.long %1, 0, %2"                                    \
                : "=r"(cell_)                                                                  \
                : "i"(array), "i"(8 * (index)));                                               \
        cell_;                                                                                 \
    })

#else

#define UNROLL
void *lookup(const void *map, uint64_t key);
uint64_t attr_is(uint64_t number, const void *text, uint64_t length);
uint64_t attr_len(uint64_t number);
uint64_t bucket_of(uint64_t salt);
const void *host_map(unsigned array);
void *host_cell(unsigned array, unsigned index);
#define MAP(array) host_map(array)
#define CELL(array, index) host_cell(array, index)

#endif

/* The number, hidden from the compiler, which forgets here what it knows about it. */
#define OPAQUE(number)                                                                         \
    ({                                                                                         \
        uint64_t opaque_ = (number);                                                           \
        __asm__ volatile("" : "+r"(opaque_));                                                  \
        opaque_;                                                                               \
    })

/* Whether the attribute is the text, a literal of at most 64 bytes. */
#define ATTR_IS(attribute, text)                                                               \
    ({                                                                                         \
        char text_[] = text;                                                                   \
        attr_is(attribute, text_, sizeof text_ - 1);                                           \
    })

/* Takes one from a 64-bit cell with this quota; true if one was left. The old value is made opaque,
   since a compiler that doesn't need it uses an addition that returns none (V14). */
#define TAKE(array, index, quota)                                                              \
    (OPAQUE(__sync_fetch_and_add((uint64_t *)CELL(array, index), 1)) < (quota))

/* The release of this number, or none if there isn't one. Without OPAQUE a compiler drops a
   comparison that it knows to be useless, and the verifier, which doesn't know, refuses (V13). */
#define OFFER(release, most)                                                                   \
    ({                                                                                         \
        uint64_t release_ = OPAQUE(release);                                                   \
        release_ <= (most) ? release_ : 0;                                                     \
    })

#endif
