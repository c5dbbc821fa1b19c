/* What a rule is on this machine: its helpers and counters, as a server has them. The words are a
   rule's name, and its arrays as `--arrays` declares them. For each line of input, a version's text
   (- for none) and a bucket, it prints the rule's choice; counters stay from line to line. */
#include <dlfcn.h>
#include <inttypes.h>
#include <stdio.h>
#include <string.h>

#include "rollout.h"

enum { ARRAYS = 8, LENGTH = 4096, BUCKETS = 10000 };

static uint64_t cells[ARRAYS][LENGTH];
static unsigned lengths[ARRAYS];
static struct context app;
static char version[64];

const void *host_map(unsigned array) { return cells[array]; }

void *host_cell(unsigned array, unsigned index) { return &cells[array][index]; }

void *lookup(const void *map, uint64_t key) {
    unsigned array = (unsigned)(((const uint64_t *)map - cells[0]) / LENGTH);
    return key < lengths[array] ? &cells[array][key] : 0;
}

/* The app has its version's text, and no other attribute. */
uint64_t attr_len(uint64_t number) { return number == VERSION ? strlen(version) : 0; }

uint64_t attr_is(uint64_t number, const void *text, uint64_t length) {
    return length == attr_len(number) && memcmp(text, version, length) == 0;
}

static uint64_t with_byte(uint64_t hash, uint8_t byte) { return (hash ^ byte) * 1099511628211; }

uint64_t bucket_of(uint64_t salt) {
    uint64_t hash = 14695981039346656037u;
    for (unsigned power = 1000; power; power /= 10)
        hash = with_byte(hash, (uint8_t)('0' + app.bucket / power % 10));
    for (unsigned byte = 0; byte < 8; byte++)
        hash = with_byte(hash, (uint8_t)(salt >> 8 * byte));
    return hash % BUCKETS;
}

/* The lengths of the arrays of a text, NAME:WIDTH:LENGTH or NAME:WIDTH:LENGTH:QUOTA each. */
static void declare(const char *arrays) {
    for (unsigned array = 0; array < ARRAYS && arrays; array++) {
        sscanf(arrays, "%*[^:]:%*u:%u", &lengths[array]);
        arrays = strchr(arrays, ',');
        arrays = arrays ? arrays + 1 : 0;
    }
}

static void set_version(void) {
    memset(app.version, 0, sizeof app.version);
    app.flags = UPDATECHECK;
    if (strcmp(version, "-") == 0) {
        version[0] = 0;
        return;
    }
    uint32_t *v = app.version;
    sscanf(version, "%" SCNu32 ".%" SCNu32 ".%" SCNu32 ".%" SCNu32, v, v + 1, v + 2, v + 3);
    app.flags |= VERSION_KNOWN;
}

int main(int count, char **words) {
    if (count != 3)
        return 2;
    uint64_t (*rule)(const struct context *app) = 0;
    *(void **)&rule = dlsym(RTLD_DEFAULT, words[1]);
    if (!rule)
        return 2;
    declare(words[2]);
    app.installed = UINT32_MAX;
    while (scanf("%63s %" SCNu16, version, &app.bucket) == 2) {
        set_version();
        printf("%" PRIu64 "\n", rule(&app));
    }
    return 0;
}
