/* By language: of the machines below 3.0 those in German, Portuguese or Japanese get the second
   release once their buckets are open, one after the other; everybody else below 2.0 the first.
   --releases 2 */
#include "rollout.h"

INLINE int is_open(int language) {
    switch (language) {
    case 0: return ATTR_IS(LANG, "de");
    case 1: return ATTR_IS(LANG, "pt-BR") || ATTR_IS(LANG, "pt-PT");
    default: return ATTR_IS(LANG, "ja");
    }
}

uint64_t rule(const struct context *app) {
    const uint16_t below[3] = {1000, 2500, 5000};
    if (app->version[0] >= 3)
        return 0;
    UNROLL
    for (int language = 0; language < 3; language++)
        if (app->bucket < below[language] && is_open(language))
            return 2;
    return app->version[0] < 2;
}
