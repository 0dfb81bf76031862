/*
 * Two builds of the library in one process, in turn (bench/beside).
 *
 *   beside fill|look-up|count MAN TURNS
 *
 * Look-up and count take every seventh placement of the kings and White's man, legal or not,
 * either side to move. Prints each build's least processor time in milliseconds; exit status 1 says that
 * they answer differently. Both builds take their arguments in the order of sledgewren.h.
 */
#define _POSIX_C_SOURCE 199309L
#include <stdint.h>
#include <stdio.h>
#include <stdlib.h>
#include <string.h>
#include <time.h>

#include "sledgewren.h"

enum { BYTES = 59136, PLACEMENTS = 64 * 64 * 64, EVERY = 7 };

#define DECLARE(build)                                                                          \
    uint32_t build##_fill(uint32_t, const uint8_t *, size_t, const uint8_t *, size_t, uint8_t *, \
                          size_t);                                                              \
    uint64_t build##_look_up(uint8_t, uint8_t, uint8_t, uint32_t, uint32_t, uint32_t,           \
                             const uint8_t *, size_t, const uint8_t *, size_t, const uint8_t *, \
                             size_t);                                                           \
    uint32_t build##_count(uint8_t, uint8_t, uint8_t, uint32_t, uint32_t);

DECLARE(before)
DECLARE(after)

struct build {
    uint32_t (*fill)(uint32_t, const uint8_t *, size_t, const uint8_t *, size_t, uint8_t *, size_t);
    uint64_t (*look_up)(uint8_t, uint8_t, uint8_t, uint32_t, uint32_t, uint32_t, const uint8_t *,
                        size_t, const uint8_t *, size_t, const uint8_t *, size_t);
    uint32_t (*count)(uint8_t, uint8_t, uint8_t, uint32_t, uint32_t);
};

static const struct build builds[2] = {
    { before_fill, before_look_up, before_count },
    { after_fill, after_look_up, after_count },
};

static uint8_t table[BYTES];

/* One turn's work; the answers as one number. */
static uint64_t work(const struct build *build, char what, uint8_t man)
{
    uint64_t sum = 0;
    if (what == 'f') {
        memset(table, 165, BYTES);
        sum = build->fill(man, SLEDGEWREN_NO_TABLES, table, BYTES);
        for (size_t i = 0; i < BYTES; i++)
            sum = sum * 31 + table[i];
        return sum;
    }
    for (unsigned p = 0; p < 2 * PLACEMENTS; p += EVERY) {
        uint8_t side = p / PLACEMENTS, white = p / 4096 % 64, square = p / 64 % 64, black = p % 64;
        uint32_t first = SLEDGEWREN_A_MAN(man, SLEDGEWREN_WHITE, square);
        sum *= 31;
        if (what == 'l')
            sum += build->look_up(side, white, black, first, SLEDGEWREN_ABSENT, 0,
                                  SLEDGEWREN_NO_TABLES, table, BYTES);
        else
            sum += build->count(side, white, black, first, SLEDGEWREN_ABSENT);
    }
    return sum;
}

static double milliseconds(void)
{
    struct timespec now;
    clock_gettime(CLOCK_PROCESS_CPUTIME_ID, &now);
    return 1e3 * (double)now.tv_sec + (double)now.tv_nsec / 1e6;
}

int main(int argc, char **argv)
{
    if (argc != 4)
        return 2;
    uint8_t man = (uint8_t)atoi(argv[2]);
    int turns = atoi(argv[3]);
    if (argv[1][0] != 'f')
        builds[0].fill(man, SLEDGEWREN_NO_TABLES, table, BYTES);
    double least[2] = { 1e9, 1e9 };
    uint64_t sums[2] = { 0, 0 };
    for (int turn = 0; turn < turns; turn++)
        for (int which = 0; which < 2; which++) {
            double start = milliseconds();
            sums[which] = work(&builds[which], argv[1][0], man);
            double took = milliseconds() - start;
            if (took < least[which])
                least[which] = took;
        }
    printf("%.3f %.3f\n", least[0], least[1]);
    return sums[0] != sums[1];
}
