/*
 * Every field by its name, beside the same bits taken by hand, on answers of the library and on
 * words of all ones and mixed bits. It compiles as C99 and as C++.
 */

#include <stdio.h>
#include <string.h>

#include "sledgewren.h"

static uint8_t table[SLEDGEWREN_TABLE_BYTES];
static uint8_t large[SLEDGEWREN_LARGE_TABLE_BYTES];
static uint8_t four[SLEDGEWREN_FOUR_TABLES_BYTES];
static uint8_t pawns[SLEDGEWREN_PAWN_TABLE_BYTES];
static uint8_t pocket[SLEDGEWREN_POCKET_BYTES];
static int wrong = 0;

static void same(const char *what, uint64_t found, uint64_t expected)
{
    if (found != expected) {
        printf("%s: %llx, not %llx\n", what, (unsigned long long)found, (unsigned long long)expected);
        wrong++;
    }
}

#define BITS(word, first, count) ((word) >> (first) & (((uint64_t)1 << (count)) - 1))
#define FIELD(name, word, first, count) same(#name, (uint64_t)name(word), BITS((uint64_t)(word), first, count))

/* A man's word beside the sixteen bits that it was read from. */
static void man(const char *what, uint32_t word, uint64_t bits)
{
    int there = BITS(bits, 5, 1) == 1;

    same(what, (uint64_t)sledgewren_man_is_there(word), (uint64_t)there);
    same(what, sledgewren_man_kind(word), there ? BITS(bits, 0, 4) : 0);
    same(what, sledgewren_man_colour(word), there ? BITS(bits, 4, 1) : 0);
    same(what, sledgewren_man_square(word), there ? BITS(bits, 8, 8) : 0);
}

static void words_of_64(uint64_t word)
{
    int place;

    FIELD(sledgewren_position_refusal, word, 0, 8);
    FIELD(sledgewren_position_side, word, 8, 8);
    FIELD(sledgewren_position_white, word, 16, 8);
    FIELD(sledgewren_position_square, word, 24, 8);
    FIELD(sledgewren_position_black, word, 32, 8);
    FIELD(sledgewren_position_second, word, 40, 8);
    FIELD(sledgewren_played_refusal, word, 0, 8);
    FIELD(sledgewren_played_side, word, 8, 1);
    FIELD(sledgewren_played_is_not_legal, word, 15, 1);
    FIELD(sledgewren_played_white, word, 16, 8);
    FIELD(sledgewren_played_black, word, 24, 8);
    man("first", sledgewren_played_first(word), BITS(word, 32, 16));
    man("second", sledgewren_played_second(word), BITS(word, 48, 16));
    FIELD(sledgewren_written_refusal, word, 0, 8);
    for (place = 0; place < SLEDGEWREN_TYPED_DIGITS; place++)
        same("digit", (uint8_t)sledgewren_written_digit(word, place), BITS(word, 8 + 8 * place, 8));
    FIELD(sledgewren_step_refusal, word, 0, 8);
    FIELD(sledgewren_step_settled, word, 8, 24);
    FIELD(sledgewren_step_progress, word, 32, 32);
    FIELD(sledgewren_checked_refusal, word, 0, 8);
    FIELD(sledgewren_checked_is_wrong, word, 8, 1);
    FIELD(sledgewren_checked_number, word, 32, 32);
    FIELD(sledgewren_answer_refusal, word, 0, 8);
    FIELD(sledgewren_answer_value, word, 8, 8);
    FIELD(sledgewren_answer_depth, word, 16, 8);
    FIELD(sledgewren_answer_has_move, word, 24, 1);
    FIELD(sledgewren_answer_within_fifty, word, 25, 1);
    FIELD(sledgewren_answer_from, word, 32, 8);
    FIELD(sledgewren_answer_to, word, 40, 8);
    FIELD(sledgewren_answer_takes, word, 48, 1);
    FIELD(sledgewren_answer_becomes, word, 56, 8);
    FIELD(sledgewren_tallies_none, word, 0, 16);
    FIELD(sledgewren_tallies_draws, word, 16, 16);
    FIELD(sledgewren_tallies_wins, word, 32, 16);
    FIELD(sledgewren_tallies_losses, word, 48, 16);
    FIELD(sledgewren_found_refusal, word, 0, 8);
    FIELD(sledgewren_found_length, word, 8, 24);
    FIELD(sledgewren_found_offset, word, 32, 32);
}

static void words_of_32(uint32_t word)
{
    FIELD(sledgewren_count_refusal, word, 0, 8);
    FIELD(sledgewren_count_moves, word, 8, 8);
    FIELD(sledgewren_filled_refusal, word, 0, 8);
    FIELD(sledgewren_filled_is_decided, word, 8, 1);
    FIELD(sledgewren_filled_depth, word, 16, 8);
    FIELD(sledgewren_progress_stage, word, 0, 8);
    FIELD(sledgewren_progress_depth, word, 8, 16);
    FIELD(sledgewren_progress_last, word, 24, 8);
    FIELD(sledgewren_opinion_refusal, word, 0, 8);
    FIELD(sledgewren_opinion_value, word, 8, 8);
    FIELD(sledgewren_opinion_depth, word, 16, 8);
    FIELD(sledgewren_slip_length, word, 0, 8);
    FIELD(sledgewren_slip_held, word, 8, 8);
    FIELD(sledgewren_told_refusal, word, 0, 8);
    FIELD(sledgewren_told_value, word, 8, 8);
    FIELD(sledgewren_version_patch, word, 0, 8);
    FIELD(sledgewren_version_minor, word, 8, 8);
    FIELD(sledgewren_version_major, word, 16, 8);
    FIELD(sledgewren_ending_first, word, 0, 8);
    FIELD(sledgewren_ending_is_rivals, word, 16, 1);
    FIELD(sledgewren_man_kind, word, 0, 8);
    FIELD(sledgewren_man_colour, word, 8, 8);
    FIELD(sledgewren_man_square, word, 16, 8);
}

/* The library's own answers: 01's mate in one, Kb3 Qh2 against Ka1. */
static void answers(void)
{
    uint32_t queen = SLEDGEWREN_A_MAN(SLEDGEWREN_QUEEN, SLEDGEWREN_WHITE, 15);
    uint8_t moves[SLEDGEWREN_MOVES_BYTES], slip[SLEDGEWREN_SLIP_BYTES];
    uint8_t set[SLEDGEWREN_SET_BYTES(0)];
    uint64_t answer;
    uint32_t count;

    same("filled", sledgewren_filled_depth(sledgewren_fill(SLEDGEWREN_QUEEN, SLEDGEWREN_NO_TABLES, table, sizeof table)), 20);
    same("filled back", sledgewren_filled_depth(sledgewren_fill_back(SLEDGEWREN_QUEEN, SLEDGEWREN_NO_TABLES, table, sizeof table)), 20);
    same("accepted", sledgewren_check(SLEDGEWREN_QUEEN, SLEDGEWREN_NO_TABLES, table, sizeof table), 0);
    answer = sledgewren_look_up(0, 17, 0, queen, SLEDGEWREN_ABSENT, 0, SLEDGEWREN_NO_TABLES, table, sizeof table);
    same("value", sledgewren_answer_value(answer), SLEDGEWREN_WIN);
    same("from", sledgewren_answer_from(answer), 15);
    same("to", sledgewren_answer_to(answer), 8);
    count = sledgewren_moves(0, 17, 0, queen, SLEDGEWREN_ABSENT, moves, sizeof moves);
    same("moves", sledgewren_count_moves(count), sledgewren_count_moves(
        sledgewren_count(0, 17, 0, queen, SLEDGEWREN_ABSENT)));
    same("first from", sledgewren_move_from(moves, 0), 15);
    same("first takes", (uint64_t)sledgewren_move_takes(moves, 0), 0);
    same("second to", sledgewren_move_to(moves, 1), moves[5]);
    same("number", sledgewren_number_refusal(sledgewren_number(0, 17, 0, queen, 0)), 0);
    same("touch", sledgewren_number_refusal(sledgewren_number(0, 9, 0, queen, 0)), SLEDGEWREN_KINGS_TOUCH);
    same("absent", (uint64_t)sledgewren_man_is_there(SLEDGEWREN_ABSENT), 0);
    same("there", (uint64_t)sledgewren_man_is_there(queen), 1);
    same("packed", sledgewren_pack(table, sizeof table, pocket, sizeof pocket), 0);
    same("tallied", sledgewren_tallies_refusal(sledgewren_tallies(pocket, sizeof pocket)), 0);
    same("length", sledgewren_tallies_refusal(sledgewren_tallies(pocket, 1)), SLEDGEWREN_TABLE_LENGTH);
    same("opinion", sledgewren_opinion_depth(sledgewren_second_opinion(0, 17, 0, queen, 0, 6)), 1);
    same("told", sledgewren_told_value(sledgewren_pocket_look_up(0, 17, 0, queen, 0, pocket, sizeof pocket)),
         SLEDGEWREN_WIN);
    count = sledgewren_answer_line(SLEDGEWREN_QUEEN, (const uint8_t *)"Q w b3 h2 a1", 12, table,
                                   sizeof table, slip, sizeof slip);
    same("slip", sledgewren_slip_length(count), 11);
    same("held", sledgewren_slip_held(count), SLEDGEWREN_QUEEN);
    same("set", sledgewren_set_start(0, 0, 0, 0, set, sizeof set), 0);
    same("not in set", sledgewren_found_refusal(sledgewren_set_find(0, set, sizeof set)), SLEDGEWREN_NOT_IN_SET);
}

/* Moves played: Qh2-a2 mates, Ka1xb2 leaves bare kings, and a1-a8 is no move of the first. */
static void plays(void)
{
    uint32_t queen = SLEDGEWREN_A_MAN(SLEDGEWREN_QUEEN, SLEDGEWREN_WHITE, 15);
    uint64_t answer = sledgewren_play(0, 17, 0, queen, SLEDGEWREN_ABSENT, 15, 8, 0);

    same("play refusal", sledgewren_played_refusal(answer), SLEDGEWREN_NOT_REFUSED);
    same("play side", sledgewren_played_side(answer), SLEDGEWREN_BLACK);
    same("play white", sledgewren_played_white(answer), 17);
    same("play black", sledgewren_played_black(answer), 0);
    same("play first", sledgewren_played_first(answer), SLEDGEWREN_A_MAN(SLEDGEWREN_QUEEN, SLEDGEWREN_WHITE, 8));
    same("play second", sledgewren_played_second(answer), SLEDGEWREN_ABSENT);
    same("mate", sledgewren_count(1, 17, 0, sledgewren_played_first(answer), SLEDGEWREN_ABSENT), 0);
    queen = SLEDGEWREN_A_MAN(SLEDGEWREN_QUEEN, SLEDGEWREN_WHITE, 9);
    answer = sledgewren_play(1, 63, 0, queen, SLEDGEWREN_ABSENT, 0, 9, 0);
    same("bare kings", sledgewren_played_first(answer), SLEDGEWREN_ABSENT);
    same("bare kings", sledgewren_played_black(answer), 9);
    same("bare kings", sledgewren_played_side(answer), SLEDGEWREN_WHITE);
    same("not legal", sledgewren_play(1, 63, 0, queen, SLEDGEWREN_ABSENT, 0, 56, 0), SLEDGEWREN_NOT_LEGAL);
    same("names a piece", sledgewren_play(1, 63, 0, queen, SLEDGEWREN_ABSENT, 0, 9, 1), SLEDGEWREN_NOT_LEGAL);
    same("refused", sledgewren_play(0, 17, 0, queen, SLEDGEWREN_ABSENT, 9, 0, 0), SLEDGEWREN_OTHER_IN_CHECK);
}

/*
 * Two men: Kc3 Qd4 Rh1 against Ke8 in both orders and both colours, and what a capture leaves. A
 * queen's table lent twice, no table lent where one is needed, and one that is not accepted.
 */
static void two_men(void)
{
    uint32_t queen = SLEDGEWREN_A_MAN(SLEDGEWREN_QUEEN, SLEDGEWREN_WHITE, 27);
    uint32_t rook = SLEDGEWREN_A_MAN(SLEDGEWREN_ROOK, SLEDGEWREN_WHITE, 7);
    uint32_t rival = SLEDGEWREN_A_MAN(SLEDGEWREN_ROOK, SLEDGEWREN_BLACK, 59);
    uint32_t both = SLEDGEWREN_TWO_MEN(SLEDGEWREN_QUEEN, SLEDGEWREN_ROOK, 0);
    uint32_t each = SLEDGEWREN_TWO_MEN(SLEDGEWREN_QUEEN, SLEDGEWREN_ROOK, 1);
    uint32_t queens = SLEDGEWREN_TWO_MEN(SLEDGEWREN_QUEEN, SLEDGEWREN_QUEEN, 0);
    uint8_t moves[SLEDGEWREN_MOVES_BYTES];
    uint32_t number = sledgewren_number(0, 18, 60, queen, rook);
    uint64_t answer = sledgewren_position(both, number);

    same("ending", sledgewren_ending(rook, queen), both);
    same("rivals", sledgewren_ending(rival, queen), each);
    same("alone", sledgewren_ending(rook, SLEDGEWREN_ABSENT), SLEDGEWREN_ROOK);
    same("no ending", sledgewren_ending(SLEDGEWREN_ABSENT, SLEDGEWREN_ABSENT), SLEDGEWREN_NO_ENDING);
    same("second", sledgewren_ending_second(each), SLEDGEWREN_ROOK);
    same("men", (uint64_t)sledgewren_ending_men(each), 2);
    same("bytes", sledgewren_table_bytes(each), SLEDGEWREN_LARGE_TABLE_BYTES);
    same("bytes", sledgewren_table_bytes(SLEDGEWREN_KNIGHT), SLEDGEWREN_TABLE_BYTES);
    same("no bytes", sledgewren_table_bytes(SLEDGEWREN_NO_ENDING), 0);
    same("either order", sledgewren_number(0, 18, 60, rook, queen), number);
    same("back", sledgewren_number(sledgewren_position_side(answer), sledgewren_position_white(answer),
                                   sledgewren_position_black(answer),
                                   SLEDGEWREN_A_MAN(SLEDGEWREN_QUEEN, SLEDGEWREN_WHITE,
                                                    sledgewren_position_square(answer)),
                                   SLEDGEWREN_A_MAN(SLEDGEWREN_ROOK, SLEDGEWREN_WHITE,
                                                    sledgewren_position_second(answer))), number);
    same("none", sledgewren_position_second(sledgewren_position(SLEDGEWREN_QUEEN, 2049)), 64);
    same("counted", sledgewren_moves(0, 18, 60, queen, rook, moves, sizeof moves),
         sledgewren_count(0, 18, 60, rook, queen));
    answer = sledgewren_play(0, 18, 60, queen, rival, 27, 59, 0);
    same("taken", sledgewren_played_first(answer), SLEDGEWREN_A_MAN(SLEDGEWREN_QUEEN, SLEDGEWREN_WHITE, 59));
    same("taken", sledgewren_played_second(answer), SLEDGEWREN_ABSENT);
    same("length", sledgewren_fill(queens, table, sizeof table, table, sizeof table, pocket, sizeof pocket),
         SLEDGEWREN_TABLE_LENGTH);
    same("not lent", sledgewren_look_up(0, 18, 60, queen, rook, 0, SLEDGEWREN_NO_TABLES, large, sizeof large),
         SLEDGEWREN_TABLE_LENGTH);
    same("not accepted", sledgewren_fill(both, table, sizeof table, table, sizeof table, large, sizeof large),
         SLEDGEWREN_NOT_ACCEPTED);
    same("not accepted", sledgewren_check(both, table, sizeof table, table, sizeof table, large, sizeof large),
         SLEDGEWREN_NOT_ACCEPTED);
    same("untouched", sledgewren_check(queens, table, sizeof table, table, sizeof table, large, sizeof large) >> 8 & 1, 1);
}

/*
 * King and pawn: Kc2, pawn a7 against Ka1, White to move, is won in one by a7a8q. The same with
 * Black's pawn, left for right, and on a rank where no pawn stands.
 */
static void pawn(void)
{
    uint32_t white = SLEDGEWREN_A_MAN(SLEDGEWREN_PAWN, SLEDGEWREN_WHITE, 48);
    uint32_t black = SLEDGEWREN_A_MAN(SLEDGEWREN_PAWN, SLEDGEWREN_BLACK, 15);
    uint8_t moves[SLEDGEWREN_MOVES_BYTES];
    uint32_t ending = sledgewren_ending(white, SLEDGEWREN_ABSENT);
    uint64_t answer = sledgewren_play(0, 10, 0, white, SLEDGEWREN_ABSENT, 48, 56, SLEDGEWREN_BECOMES(SLEDGEWREN_ROOK));
    uint32_t man, count;

    same("pawn's ending", ending, SLEDGEWREN_PAWN);
    same("black's", sledgewren_ending(black, SLEDGEWREN_ABSENT), SLEDGEWREN_PAWN);
    same("with a queen", sledgewren_ending(white, SLEDGEWREN_A_MAN(0, 0, 9)), SLEDGEWREN_NO_ENDING);
    same("bytes", sledgewren_table_bytes(ending), SLEDGEWREN_PAWN_TABLE_BYTES);
    same("number", sledgewren_number(0, 10, 0, white, SLEDGEWREN_ABSENT), 82560);
    same("exchanged", sledgewren_number(1, 63, 53, black, SLEDGEWREN_ABSENT), 82560);
    same("square", sledgewren_position_square(sledgewren_position(ending, 82560)), 48);
    same("too high", sledgewren_position(ending, SLEDGEWREN_PAWN_TABLE_BYTES), SLEDGEWREN_NUMBER_TOO_HIGH);
    same("rank 8", sledgewren_count(0, 10, 0, white + (8u << 16), SLEDGEWREN_ABSENT), SLEDGEWREN_BAD_PAWN);
    same("after 3", sledgewren_count(0, 64, 0, white + (8u << 16), SLEDGEWREN_ABSENT), SLEDGEWREN_BAD_SQUARE);
    same("two men", sledgewren_count(0, 10, 0, white, white), SLEDGEWREN_BAD_MAN);
    same("opinion", sledgewren_second_opinion(0, 10, 0, white, SLEDGEWREN_ABSENT, 1), SLEDGEWREN_BAD_MAN);
    count = sledgewren_count_moves(sledgewren_moves(0, 10, 0, white, SLEDGEWREN_ABSENT, moves, sizeof moves));
    for (man = SLEDGEWREN_QUEEN; man <= SLEDGEWREN_KNIGHT; man++)
        same("listed", sledgewren_move_becomes(moves, (int)(count - 4 + man)), SLEDGEWREN_BECOMES(man));
    same("king's", sledgewren_move_becomes(moves, 0), 0);
    same("a rook", sledgewren_played_first(answer), SLEDGEWREN_A_MAN(SLEDGEWREN_ROOK, SLEDGEWREN_WHITE, 56));
    same("no piece", sledgewren_play(0, 10, 0, white, SLEDGEWREN_ABSENT, 48, 56, 0), SLEDGEWREN_NOT_LEGAL);
    same("a pawn", sledgewren_play(0, 10, 0, white, SLEDGEWREN_ABSENT, 48, 56, 5), SLEDGEWREN_NOT_LEGAL);
    for (man = SLEDGEWREN_QUEEN; man <= SLEDGEWREN_KNIGHT; man++)
        same("small", sledgewren_filled_refusal(sledgewren_fill(man, SLEDGEWREN_NO_TABLES,
             four + man * SLEDGEWREN_TABLE_BYTES, SLEDGEWREN_TABLE_BYTES)), SLEDGEWREN_NOT_REFUSED);
    same("lent one", sledgewren_fill(ending, four, SLEDGEWREN_TABLE_BYTES, four, 0, pawns, sizeof pawns),
         SLEDGEWREN_TABLE_LENGTH);
    same("quick", sledgewren_fill_back(ending, four, sizeof four, four, 0, pawns, sizeof pawns), SLEDGEWREN_BAD_MAN);
    same("lent four", sledgewren_filled_refusal(sledgewren_fill(ending, four, sizeof four, four, 0, pawns, sizeof pawns)),
         SLEDGEWREN_NOT_REFUSED);
    same("accepted", sledgewren_check(ending, four, sizeof four, four, 0, pawns, sizeof pawns), 0);
    answer = sledgewren_look_up(0, 10, 0, white, SLEDGEWREN_ABSENT, 0, four, sizeof four, four, 0, pawns, sizeof pawns);
    same("won", sledgewren_answer_value(answer), SLEDGEWREN_WIN);
    same("in one", sledgewren_answer_depth(answer), 1);
    same("a7a8q", sledgewren_answer_becomes(answer), SLEDGEWREN_BECOMES(SLEDGEWREN_QUEEN));
    same("never marked", (uint64_t)sledgewren_answer_within_fifty(answer), 0);
    answer = sledgewren_look_up(1, 63, 53, black, SLEDGEWREN_ABSENT, 0, four, sizeof four, four, 0, pawns, sizeof pawns);
    same("turned", sledgewren_answer_to(answer), 7);
    same("turned", sledgewren_answer_becomes(answer), SLEDGEWREN_BECOMES(SLEDGEWREN_QUEEN));
    four[59136 + 1]++;
    same("not accepted", sledgewren_check(ending, four, sizeof four, four, 0, pawns, sizeof pawns), SLEDGEWREN_NOT_ACCEPTED);
}

/* Header and archive are of one version. */
static void version(void)
{
    char text[16];
    uint32_t number = sledgewren_version_number();

    same("version number", number, SLEDGEWREN_VERSION_NUMBER);
    same("version", (uint64_t)strcmp(sledgewren_version(), SLEDGEWREN_VERSION), 0);
    sprintf(text, "%d.%d.%d", sledgewren_version_major(number), sledgewren_version_minor(number),
            sledgewren_version_patch(number));
    same("version in words", (uint64_t)strcmp(text, SLEDGEWREN_VERSION), 0);
}

int main(void)
{
    static const uint64_t words[] = {0, 1, 7, 0x0123456789ABCDEFu, 0xFEDCBA9876543210u, UINT64_MAX};
    size_t i;

    for (i = 0; i < sizeof words / sizeof words[0]; i++) {
        words_of_64(words[i]);
        words_of_32((uint32_t)words[i]);
    }
    answers();
    plays();
    two_men();
    pawn();
    version();
    printf("%d fields wrong\n", wrong);
    return wrong != 0;
}
