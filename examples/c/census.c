/* A census, and a quota: array 0 counts requests by the first number of the version, and those from
   16 on together. The first hundred below 3.0 whose platform is "win" get the second release, and all
   others below 2.0 the first.
   --releases 2 --arrays seen:32:17,early:64:1:100 */
#include "rollout.h"

uint64_t rule(const struct context *app) {
    uint32_t major = app->version[0];
    uint32_t *seen = lookup(MAP(0), major < 16 ? major : 16);
    if (seen)
        __sync_fetch_and_add(seen, 1);
    if (major < 3 && ATTR_IS(PLATFORM, "win") && TAKE(1, 0, 100))
        return 2;
    return major < 2;
}
