/*
 * Look-ups by one build of the library (bench/look-ups).
 *
 *   look_ups ordered|shuffled MAN TURNS
 *
 * Takes every third square of the white king with all squares of White's man and of the black king, legal or
 * not, either side to move. Prints the least processor time of a look-up in nanoseconds, then the values and
 * depths as one number and the whole answers as another, whichever the order.
 */
#define _POSIX_C_SOURCE 199309L
#include <stdint.h>
#include <stdio.h>
#include <stdlib.h>
#include <time.h>

#include "sledgewren.h"

enum { BYTES = 59136, PLACEMENTS = 2 * 22 * 64 * 64 };

static uint8_t table[BYTES];
static uint32_t order[PLACEMENTS];

/* Builds before the lent tables took the table first, and no plies. */
#ifdef SLEDGEWREN_NO_TABLES
static uint32_t fill(uint8_t man)
{
    return sledgewren_fill(man, SLEDGEWREN_NO_TABLES, table, BYTES);
}

static uint64_t look_up(uint8_t side, uint8_t white, uint8_t black, uint32_t first)
{
    return sledgewren_look_up(side, white, black, first, SLEDGEWREN_ABSENT, 0, SLEDGEWREN_NO_TABLES,
                              table, BYTES);
}
#else
static uint32_t fill(uint8_t man)
{
    return sledgewren_fill(man, table, BYTES);
}

static uint64_t look_up(uint8_t side, uint8_t white, uint8_t black, uint32_t first)
{
    return sledgewren_look_up(table, BYTES, side, white, black, first, SLEDGEWREN_ABSENT);
}
#endif

static uint64_t answer_at(uint32_t at, uint8_t man)
{
    uint8_t side = at / (22 * 4096), white = at / 4096 % 22 * 3, square = at / 64 % 64, black = at % 64;
    return look_up(side, white, black, SLEDGEWREN_A_MAN(man, SLEDGEWREN_WHITE, square));
}

static double nanoseconds(void)
{
    struct timespec now;
    clock_gettime(CLOCK_PROCESS_CPUTIME_ID, &now);
    return 1e9 * (double)now.tv_sec + (double)now.tv_nsec;
}

int main(int argc, char **argv)
{
    if (argc != 4)
        return 2;
    uint8_t man = (uint8_t)atoi(argv[2]);
    for (uint32_t i = 0; i < PLACEMENTS; i++)
        order[i] = i;
    uint64_t random = 88172645463325252u;
    for (uint32_t i = PLACEMENTS - 1; argv[1][0] == 's' && 0 < i; i--) {
        random ^= random << 13;
        random ^= random >> 7;
        random ^= random << 17;
        uint32_t j = random % (i + 1), kept = order[i];
        order[i] = order[j];
        order[j] = kept;
    }
    if ((fill(man) & 255) != 0)
        return 2;
    double least = 1e18;
    uint64_t values = 0, all = 0;
    for (int turn = atoi(argv[3]); 0 < turn; turn--) {
        double start = nanoseconds();
        values = all = 0;
        for (uint32_t i = 0; i < PLACEMENTS; i++) {
            uint64_t odd = 2 * (uint64_t)order[i] + 1, word = answer_at(order[i], man);
            values += (word & 0xFFFFFF) * odd;
            all += word * odd;
        }
        double took = (nanoseconds() - start) / PLACEMENTS;
        least = took < least ? took : least;
    }
    printf("%.1f %llx %llx\n", least, (unsigned long long)values, (unsigned long long)all);
    return 0;
}
