/*
 * Fills the queen's table, has it checked, looks six positions up, one with Black's queen, plays one
 * out, writes a number with its check digits, and packs the table to a pocket. From the repository's root:
 *
 *   cc -std=c99 -Iinclude host/c/example.c target/staticlib/libsledgewren.a -o target/c-example
 */

#include <stdio.h>

#include "sledgewren.h"

static uint8_t table[SLEDGEWREN_TABLE_BYTES];
static uint8_t pocket[SLEDGEWREN_POCKET_BYTES];

static const char *const sides[] = {"White", "Black"};

static void print_square(unsigned square)
{
    printf("%c%c", (int)('a' + square % 8), (int)('1' + square / 8));
}

/* The value in words: a position without a move is checkmate or stalemate. */
static void print_value(uint64_t answer)
{
    int depth = sledgewren_answer_depth(answer);

    switch (sledgewren_answer_value(answer)) {
    case SLEDGEWREN_WIN:
        printf("win in %d", depth);
        break;
    case SLEDGEWREN_LOSS:
        if (sledgewren_answer_has_move(answer))
            printf("loss in %d", depth);
        else
            printf("checkmate");
        break;
    default:
        printf(sledgewren_answer_has_move(answer) ? "draw" : "stalemate, a draw");
    }
}

static void look_up(uint8_t side, uint8_t white, uint8_t black, uint8_t owner, uint8_t queen)
{
    uint64_t answer = sledgewren_look_up(side, white, black,
                                         SLEDGEWREN_A_MAN(SLEDGEWREN_QUEEN, owner, queen),
                                         SLEDGEWREN_ABSENT, 0, SLEDGEWREN_NO_TABLES, table, sizeof table);

    printf("%s to move, white king ", sides[side]);
    print_square(white);
    printf(", black king ");
    print_square(black);
    printf(", %s's queen ", sides[owner]);
    print_square(queen);
    printf(": ");
    if (sledgewren_answer_refusal(answer) != SLEDGEWREN_NOT_REFUSED) {
        printf("refused %d\n", sledgewren_answer_refusal(answer));
        return;
    }
    print_value(answer);
    if (sledgewren_answer_has_move(answer)) {
        printf(" by ");
        print_square(sledgewren_answer_from(answer));
        if (sledgewren_answer_takes(answer))
            putchar('x');
        print_square(sledgewren_answer_to(answer));
    }
    if (sledgewren_answer_within_fifty(answer)) {
        printf(", within fifty");
    }
    printf("\n");
}

/* Plays the table's moves for both sides, White to move first, to mate, stalemate or bare kings. */
static void play_out(uint8_t white, uint8_t black, uint32_t queen)
{
    uint8_t side = SLEDGEWREN_WHITE;
    int ply;

    printf("played out:");
    for (ply = 0; ply < 40 && sledgewren_man_is_there(queen); ply++) {
        uint64_t answer = sledgewren_look_up(side, white, black, queen, SLEDGEWREN_ABSENT, 0, SLEDGEWREN_NO_TABLES, table,
                                             sizeof table);
        uint64_t played;

        if (!sledgewren_answer_has_move(answer))
            break;
        putchar(' ');
        print_square(sledgewren_answer_from(answer));
        print_square(sledgewren_answer_to(answer));
        played = sledgewren_play(side, white, black, queen, SLEDGEWREN_ABSENT,
                                 sledgewren_answer_from(answer), sledgewren_answer_to(answer),
                                 sledgewren_answer_becomes(answer));
        if (sledgewren_played_refusal(played) != SLEDGEWREN_NOT_REFUSED)
            break;
        if (sledgewren_played_is_not_legal(played))
            break;
        side = sledgewren_played_side(played);
        white = sledgewren_played_white(played);
        black = sledgewren_played_black(played);
        queen = sledgewren_played_first(played);
    }
    printf("\n");
}

static void write_number(uint32_t number)
{
    uint64_t answer = sledgewren_write_number(number);
    int place;

    printf("number %lu: ", (unsigned long)number);
    if (sledgewren_written_refusal(answer) != SLEDGEWREN_NOT_REFUSED) {
        printf("refused %d\n", sledgewren_written_refusal(answer));
        return;
    }
    for (place = 0; place < SLEDGEWREN_TYPED_DIGITS; place++)
        putchar(sledgewren_written_digit(answer, place));
    printf("\n");
}

/* The pocket's tallies, and the first of the positions below by its pocket. */
static void pocket_edition(void)
{
    uint64_t tallies = sledgewren_tallies(pocket, sizeof pocket);
    uint32_t queen = SLEDGEWREN_A_MAN(SLEDGEWREN_QUEEN, SLEDGEWREN_WHITE, 15);
    uint32_t answer = sledgewren_pocket_look_up(SLEDGEWREN_WHITE, 17, 0, queen,
                                                SLEDGEWREN_ABSENT, pocket, sizeof pocket);

    printf("pocket: %d wins, %d draws, %d losses, %d unused or illegal\n",
           sledgewren_tallies_wins(tallies), sledgewren_tallies_draws(tallies),
           sledgewren_tallies_losses(tallies), sledgewren_tallies_none(tallies));
    printf("the first by the pocket: %s\n",
           sledgewren_told_value(answer) == SLEDGEWREN_WIN ? "win" : "not a win");
}

int main(void)
{
    uint32_t filled = sledgewren_fill(SLEDGEWREN_QUEEN, SLEDGEWREN_NO_TABLES, table, sizeof table);
    uint64_t checked = sledgewren_check(SLEDGEWREN_QUEEN, SLEDGEWREN_NO_TABLES, table, sizeof table);

    if (sledgewren_filled_refusal(filled) != SLEDGEWREN_NOT_REFUSED || checked != 0) {
        fprintf(stderr, "the queen's table was refused or is wrong\n");
        return 1;
    }
    printf("queen: greatest depth %d, accepted\n", sledgewren_filled_depth(filled));
    look_up(SLEDGEWREN_WHITE, 17, 0, SLEDGEWREN_WHITE, 15);
    look_up(SLEDGEWREN_BLACK, 17, 0, SLEDGEWREN_WHITE, 9);
    look_up(SLEDGEWREN_BLACK, 36, 0, SLEDGEWREN_WHITE, 17);
    look_up(SLEDGEWREN_BLACK, 63, 0, SLEDGEWREN_WHITE, 9);
    look_up(SLEDGEWREN_WHITE, 17, 0, SLEDGEWREN_WHITE, 9);
    look_up(SLEDGEWREN_BLACK, 0, 17, SLEDGEWREN_BLACK, 15);
    play_out(17, 3, SLEDGEWREN_A_MAN(SLEDGEWREN_QUEEN, SLEDGEWREN_WHITE, 46));
    write_number(2049);
    write_number(2056);
    if (sledgewren_pack(table, sizeof table, pocket, sizeof pocket) != SLEDGEWREN_NOT_REFUSED) {
        return 1;
    }
    pocket_edition();
    return 0;
}
