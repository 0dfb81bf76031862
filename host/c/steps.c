/*
 * Fills the queen's table in steps and tells each one. From the repository's root:
 *
 *   cc -std=c99 -Iinclude host/c/steps.c target/staticlib/libsledgewren.a -o target/c-steps
 */

#include <stdio.h>

#include "sledgewren.h"

static uint8_t table[SLEDGEWREN_TABLE_BYTES];

int main(void)
{
    uint64_t answer = sledgewren_fill_start(SLEDGEWREN_QUEEN, table, sizeof table);
    uint32_t progress = sledgewren_step_progress(answer);
    int depth;

    for (depth = 0; sledgewren_step_refusal(answer) == SLEDGEWREN_NOT_REFUSED; depth++) {
        answer = sledgewren_fill_step(SLEDGEWREN_QUEEN, progress, SLEDGEWREN_NO_TABLES, table, sizeof table);
        progress = sledgewren_step_progress(answer);
        if (sledgewren_progress_stage(progress) != SLEDGEWREN_GOING)
            break;
        printf("depth %d: %lu settled\n", depth, (unsigned long)sledgewren_step_settled(answer));
    }
    if (sledgewren_step_refusal(answer) != SLEDGEWREN_NOT_REFUSED) {
        fprintf(stderr, "refused %d\n", sledgewren_step_refusal(answer));
        return 1;
    }
    printf("queen: greatest depth %d\n", sledgewren_progress_last(progress) - 1);
    return 0;
}
