/* Rules by days and hours. */
#include "corpus.h"

/* By the age of an installation. */
RULE(by_age, 3, "") {
    if (app->flags & INSTALLDATE_KNOWN) {
        uint32_t age = app->installed > app->today ? 0 : app->today - app->installed;
        if (age > 365) {
            if (app->version[0] < 2)
                return 3;
            if (app->bucket < 1000)
                return 2;
        } else if (age > 30) {
            return app->bucket < 500 ? 2 : 1;
        }
        return 1;
    }
    if (app->second > 8 * 3600 && app->second < 18 * 3600)
        return app->bucket < 10;
    return app->version[0] == 0;
}

/* The same difference with a sign. */
RULE(signed_age, 2, "") {
    int32_t age = (int32_t)(app->today - app->installed);
    if (age < 0)
        return 0;
    return age < 7 ? 1 : age > 30 ? 2 : 0;
}

/* From nine to five, but in the first minute of an hour. */
RULE(hours, 1, "") {
    uint32_t hour = app->second / 3600, minute = app->second / 60 % 60;
    return hour >= 9 && hour < 17 && minute != 0;
}

/* A release for each third of the day. */
RULE(third_of_day, 3, "") { return app->second / 28800 + 1; }

/* The days since an installation, up to 3. */
RULE(days, 3, "") {
    uint32_t days = app->today - app->installed;
    return days > 3 ? 3 : days;
}

/* The second release where the installation is later than today, by the sign of a difference. */
RULE(by_sign, 2, "") { return (uint32_t)((int32_t)(app->today - app->installed) >> 31) & 2; }

/* A share that grows with the square of the days, and one that grows by a percent a day. */
RULE(squared, 1, "") {
    uint32_t days = app->version[0];
    if (days > 14)
        days = 14;
    return app->bucket < days * days * 51;
}

RULE(daily, 1, "") {
    uint32_t percent = app->version[0] < 7 ? 0 : app->version[0] - 7;
    if (percent > 100)
        percent = 100;
    return app->bucket < percent * 100;
}
