/* A share that grows by itself: from day 7273 (2026-11-30) on the first release goes to 1 percent of
   the machines below 2.0.4, then to 4, 9, 16 percent and so on from day to day, up to all of them. A
   machine that was installed in the last week waits.
   --releases 1 */
#include "rollout.h"

#define START 7273

INLINE int is_below(const struct context *app, uint32_t first, uint32_t second, uint32_t third) {
    if (app->version[0] != first)
        return app->version[0] < first;
    if (app->version[1] != second)
        return app->version[1] < second;
    return app->version[2] < third;
}

uint64_t rule(const struct context *app) {
    if (!(app->flags & UPDATECHECK) || !is_below(app, 2, 0, 4) || app->today < START)
        return 0;
    if (app->flags & INSTALLDATE_KNOWN && app->today - app->installed < 7)
        return 0;
    uint64_t days = app->today - START + 1;
    return days >= 10 || bucket_of(4711) < 100 * days * days;
}
