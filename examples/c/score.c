/* Points for what is known of a machine, and the release by its points: 0 to 3.
   --releases 3 */
#include "rollout.h"

uint64_t rule(const struct context *app) {
    uint64_t points = 0;
    if (app->flags & COHORT_KNOWN)
        points += 1;
    if (app->version[0] >= 2)
        points += 2;
    if (app->bucket < 5000)
        points += 1;
    if (points && app->flags & EVENT)
        points -= 1;
    return OFFER(points, 3);
}
