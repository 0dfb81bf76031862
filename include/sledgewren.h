/*
 * Sledgewren: two kings and one piece, two pieces or one pawn of either side. Positions are
 * numbered, their tables filled and checked, positions looked up; with one piece also searched
 * without a table, a desk's lines answered, and tables packed to pockets.
 *
 * Link with libsledgewren.a (x86-64 Linux). C99; C++ may include it.
 *
 * Codes
 *   man      queen 0, rook 1, bishop 2, knight 3; a pawn, who stands alone beside the kings, 4
 *   colour   White's 0, Black's 1
 *   side     to move: White 0, Black 1
 *   square   8 x rank + file: a1 is 0, h1 is 7, h8 is 63
 *   white    the white king's square; black: the black king's
 *   ending   one man: his code; two: SLEDGEWREN_TWO_MEN(first, second, rivals), where the first is
 *            the man earlier in queen, rook, bishop, knight, and rivals is 0 for two men of one
 *            side and 1 for one each. Any other word is refused 1. sledgewren_ending gives the
 *            ending of a position's men.
 *   number   of a position, 0 to 59,135 with one piece, 0 to 3,784,703 with two, 0 to 196,607 with
 *            a pawn; positions that the board's eight maps, an exchange of like men, and an
 *            exchange of the colours turn into each other have one number (the colours stay with
 *            like kinds one each). With a pawn the one map is left for right, and an exchange of
 *            the colours turns the ranks round: (side x 24 + slot) x 4,096 + white king x 64 +
 *            black king, White's pawn on files a to d, his slot (rank - 2) x 4 + file
 *   becomes  what a pawn becomes by a move: 0 for nothing, else 1 + the piece's code, which
 *            SLEDGEWREN_BECOMES gives. Each promotion is a move of its own.
 *
 * A position is given by the side to move, the kings' squares and two words, each a man besides
 * the kings or none: bits 0-7 kind (a man's code), 8-15 colour, 16-23 square; the man is absent
 * where bits 24-31 are 0. SLEDGEWREN_A_MAN makes such a word, SLEDGEWREN_ABSENT is none. One man
 * stands in the first word; two stand in either order and are of any colours. A pawn stands on
 * ranks 2 to 7. Where White's men are not the ending's, the colours, the kings and the side to move
 * are exchanged and the position is looked up so; every square stays (with a pawn the ranks are
 * turned round, and a move's turned back), so that a move is one of the board as given. Pockets,
 * sets, second opinions, typed numbers and lines of the desk keep to one piece: two men, and a
 * pawn, are refused 1 there.
 *
 * A table has one byte a number: 59,136 with one piece, 3,784,704 with two, 196,608 with a pawn.
 * Byte 0: the number is unused or its position illegal; 1: a draw; 2 + n: depth n in plies, a win
 * for the side to move where n is odd and a loss where it is even. Checkmate is a loss in 0.
 *
 * With two men captures lead into tables of one man, which a call is lent beside the ending's own:
 * `small_first` is the table of the first man's kind and `small_second` that of the second's; of
 * like kinds one table is lent twice. With a pawn promotions lead there: `small_first` is the four
 * tables of one piece, the queen's, the rook's, the bishop's and the knight's one after the other,
 * 236,544 bytes, and `small_second` is not read, nor its length asked. With one piece neither is
 * read or asked: SLEDGEWREN_NO_TABLES stands for the four arguments. A piece left alone, or made of
 * a pawn, is looked up in the table of its own ending, with one piece.
 *
 * A pocket is a table packed to two bits a number, 14,784 bytes. Number k has its entry in byte
 * k / 4 at bit 2 x (k mod 4): 0 for byte 0, 1 for a draw, 2 for a win, 3 for a loss.
 * A set holds the tables of several endings: a count, then for each table its man, its offset from
 * the set's start and its length, each 4 bytes with the lowest first, then the tables without gaps
 * in that order. The men rise strictly. A set is right if its bytes are just these and no more.
 *
 * Every function is total: it answers any values and any lengths, never fails, allocates nothing,
 * keeps nothing between calls and calls nothing back. It may be called from several threads as
 * long as none writes to a buffer that another one uses.
 *
 * Values come first, then buffers that are only read, then buffers that are written to, each with
 * its length after it. Values of a position are the side to move, the kings and the two men.
 *
 * A pointer must not be null, even where its length is 0, and must lead to at least as many bytes
 * as its length says. Buffers that one call is lent must not overlap, but that the two small
 * tables may be one.
 *
 * An answer is one integer. A refusal gives its number and nothing else: every other field is 0.
 * The bit ranges below are proved to give each answer back, and no two answers of a function have
 * one integer.
 */

#ifndef SLEDGEWREN_H
#define SLEDGEWREN_H

#include <stddef.h>
#include <stdint.h>

#ifdef __cplusplus
extern "C" {
#endif

/*
 * The version of this header and of the functions it declares. Before 1.0.0 functions, words and
 * refusals may change with the middle number.
 */
#define SLEDGEWREN_VERSION_MAJOR 0
#define SLEDGEWREN_VERSION_MINOR 2
#define SLEDGEWREN_VERSION_PATCH 0
#define SLEDGEWREN_VERSION "0.2.0"
#define SLEDGEWREN_VERSION_NUMBER \
    (SLEDGEWREN_VERSION_MAJOR * 0x10000u + SLEDGEWREN_VERSION_MINOR * 0x100u + \
     SLEDGEWREN_VERSION_PATCH)

/* Lengths of the buffers that the functions are lent. */
#define SLEDGEWREN_TABLE_BYTES 59136
#define SLEDGEWREN_LARGE_TABLE_BYTES 3784704
#define SLEDGEWREN_PAWN_TABLE_BYTES 196608
#define SLEDGEWREN_FOUR_TABLES_BYTES 236544
#define SLEDGEWREN_MOVES_BYTES 248
#define SLEDGEWREN_SLIP_BYTES 16
#define SLEDGEWREN_POCKET_BYTES 14784

/* Digits of a typed number, its check included. */
#define SLEDGEWREN_TYPED_DIGITS 7

/* Length of a set of so many tables: 4 with none, 236,596 with all four. */
#define SLEDGEWREN_SET_BYTES(tables) (4 + (12 + SLEDGEWREN_TABLE_BYTES) * (size_t)(tables))

/* No position has more legal moves; with one piece there are at most 35. */
#define SLEDGEWREN_MOST_MOVES 62

/* The most plies that a second opinion may be asked for. */
#define SLEDGEWREN_MOST_PLIES 6

/* The most plies since the last capture that a look-up may be given. */
#define SLEDGEWREN_MOST_QUIET 99

/* The progress at the beginning of filling in steps. */
#define SLEDGEWREN_START 0u

/* Set in sledgewren_number's answer where it is a refusal. */
#define SLEDGEWREN_NUMBER_REFUSED 0x80000000u

/* sledgewren_play's answer where the move is not legal. */
#define SLEDGEWREN_NOT_LEGAL 0x8000u

/* sledgewren_moves was lent a list, or sledgewren_answer_line a slip, of another length. */
#define SLEDGEWREN_MOVES_LENGTH 255u
#define SLEDGEWREN_SLIP_LENGTH 0xFFFFu

/*
 * The eight bits of an answer from the given one on: SLEDGEWREN_BITS(answer, 16) is 16 to 23. Each
 * field of each word has a function of its own at the end of this file.
 */
#define SLEDGEWREN_BITS(answer, first) ((uint8_t)((uint64_t)(answer) >> (first)))

/* A man besides the kings as one word, and no man. */
#define SLEDGEWREN_A_MAN(man, colour, square) \
    (0x1000000u | (uint32_t)(uint8_t)(man) | (uint32_t)(uint8_t)(colour) << 8 | \
     (uint32_t)(uint8_t)(square) << 16)
#define SLEDGEWREN_ABSENT 0u

/* The ending of two men, the first not after the second; rivals: 0 one side's, 1 one each. */
#define SLEDGEWREN_TWO_MEN(first, second, rivals) \
    ((uint32_t)(uint8_t)(first) | ((uint32_t)(uint8_t)(second) + 1u) << 8 | \
     (uint32_t)((rivals) != 0) << 16)

/* sledgewren_ending's answer where the men are no ending's. */
#define SLEDGEWREN_NO_ENDING 0xFFFFFFFFu

/* What a pawn becomes, as a move's fourth byte and sledgewren_play have it. */
#define SLEDGEWREN_BECOMES(man) ((uint8_t)((man) + 1))

/* The two small tables and their lengths where there is one piece. */
#define SLEDGEWREN_NO_TABLES (const uint8_t *)"", 0, (const uint8_t *)"", 0

enum sledgewren_man {
    SLEDGEWREN_QUEEN = 0,
    SLEDGEWREN_ROOK = 1,
    SLEDGEWREN_BISHOP = 2,
    SLEDGEWREN_KNIGHT = 3,
    SLEDGEWREN_PAWN = 4,
    /* sledgewren_answer_line: the table holds no man's table. Any greater value means the same. */
    SLEDGEWREN_NO_MAN = 4
};

enum sledgewren_side {
    SLEDGEWREN_WHITE = 0,
    SLEDGEWREN_BLACK = 1
};

enum sledgewren_value {
    SLEDGEWREN_WIN = 1,
    SLEDGEWREN_LOSS = 2,
    SLEDGEWREN_DRAW = 3,
    /* sledgewren_second_opinion: neither a win nor a loss within the plies asked */
    SLEDGEWREN_NOT_WITHIN = 4
};

/* The entries of a pocket. */
enum sledgewren_entry {
    SLEDGEWREN_ENTRY_NONE = 0,
    SLEDGEWREN_ENTRY_DRAW = 1,
    SLEDGEWREN_ENTRY_WIN = 2,
    SLEDGEWREN_ENTRY_LOSS = 3
};

/* The stage of a progress. */
enum sledgewren_stage {
    SLEDGEWREN_GOING = 0,
    SLEDGEWREN_DONE = 1,
    /* 10 was given. Any greater value means the same. */
    SLEDGEWREN_GAVE_TEN = 2
};

/*
 * Where several apply the lowest counts, except that a line's shape comes first, then its check,
 * and that 18 stands between 3 and 4.
 */
enum sledgewren_refusal {
    SLEDGEWREN_NOT_REFUSED = 0,
    SLEDGEWREN_BAD_MAN = 1,          /* a man's code above 4, or no ending's word; no man, or an
                                        absent one before a present one; a pawn with a second
                                        man; two men or a pawn where one piece is served */
    SLEDGEWREN_BAD_SIDE = 2,         /* side, or a man's colour, not 0 or 1 */
    SLEDGEWREN_BAD_SQUARE = 3,       /* a square above 63 */
    SLEDGEWREN_SHARED_SQUARE = 4,    /* two men on one square */
    SLEDGEWREN_KINGS_TOUCH = 5,      /* kings touch */
    SLEDGEWREN_OTHER_IN_CHECK = 6,   /* side not to move is in check */
    SLEDGEWREN_TABLE_LENGTH = 7,     /* a table not as long as its ending's, or pocket not 14,784 */
    SLEDGEWREN_NUMBER_TOO_HIGH = 8,  /* number above 59,135, 3,784,703 with two men, 196,607 with a
                                        pawn */
    SLEDGEWREN_NUMBER_UNUSED = 9,    /* number unused */
    SLEDGEWREN_TOO_DEEP = 10,        /* a legal position's true depth exceeds 253 */
    SLEDGEWREN_INCONSISTENT = 11,    /* the byte is not what the successors' bytes require, or a
                                        pocket's entry of a legal position is 0 */
    SLEDGEWREN_BAD_LINE = 12,        /* line of the wrong shape */
    SLEDGEWREN_BAD_CHECK = 13,       /* check digits of a typed number wrong */
    SLEDGEWREN_WRONG_SET = 14,       /* not a right set, or not as long as the endings need */
    SLEDGEWREN_NOT_IN_SET = 15,      /* the ending is not in the set */
    SLEDGEWREN_TOO_MANY_PLIES = 16,  /* more than 6 plies asked for */
    SLEDGEWREN_NOT_ACCEPTED = 17,    /* a small table is not accepted by the checker */
    SLEDGEWREN_BAD_PAWN = 18,        /* a pawn on rank 1 or 8; after 3 and before 4 */
    SLEDGEWREN_TOO_MANY_QUIET = 19   /* more than 99 plies since the last capture */
};

/*
 * The number of a position, or SLEDGEWREN_NUMBER_REFUSED + refusal (1 to 5, 18). It need not be
 * legal: the side not to move may be in check.
 */
uint32_t sledgewren_number(uint8_t side, uint8_t white, uint8_t black, uint32_t first,
                           uint32_t second);

/*
 * The position that a number of an ending stands for. The first man is White's, the second White's
 * or, with one each, Black's. Refusals 1, 8, 9.
 *   bits 0-7 refusal, 8-15 side, 16-23 white king, 24-31 the first man's square, 32-39 black king,
 *   40-47 the second man's square, 64 where there is none
 */
uint64_t sledgewren_position(uint32_t ending, uint32_t number);

/*
 * The ending of a position's men, which may be given in either order and be of any colours; with
 * Black's men for White's it is the same. SLEDGEWREN_NO_ENDING where they are no ending's.
 */
uint32_t sledgewren_ending(uint32_t first, uint32_t second);

/* How many bytes an ending's table has; 0 where there is no such ending. */
uint32_t sledgewren_table_bytes(uint32_t ending);

/*
 * A number as a clerk types it: its five digits and two check digits (ISO 7064 MOD 97-10), so that
 * a line of the desk with one digit altered, or two unequal neighbours exchanged, is refused 13.
 * Refusals 8, 9.
 *   bits 0-7 refusal, 8-15 the first digit as a character, and so on to 56-63, the seventh
 */
uint64_t sledgewren_write_number(uint32_t number);

/*
 * How many legal moves a position has, each promotion one. Refusals 1 to 6, 18.
 *   bits 0-7 refusal, 8-15 count
 */
uint32_t sledgewren_count(uint8_t side, uint8_t white, uint8_t black, uint32_t first,
                          uint32_t second);

/*
 * The legal moves, in order of their from-square, then their to-square, then what a pawn becomes:
 * queen, rook, bishop, knight. The answer is sledgewren_count's. Where len is 248, moves gets 62
 * places of four bytes: from-square, to-square, 1 if the move takes a man and 0 if not, and what a
 * pawn becomes (0 for nothing). The places after the last move hold 0, and all of them on a
 * refusal. With any other len nothing is written and the answer is SLEDGEWREN_MOVES_LENGTH.
 */
uint32_t sledgewren_moves(uint8_t side, uint8_t white, uint8_t black, uint32_t first,
                          uint32_t second, uint8_t *moves, size_t len);

/*
 * The position after a legal move: the piece set on its target, a man that stood there taken off,
 * a pawn on his last rank made what `becomes` says, the other side to move. A man left alone is the
 * first, and with bare kings both are absent: hand side, kings and men to the next call as they
 * are. A move that is not legal is no refusal but an answer of its own, the word
 * SLEDGEWREN_NOT_LEGAL; so is a promotion that names no piece, and any other move that names one:
 * a legal move's three values stand together in sledgewren_moves' list. Refusals 1 to 6, 18.
 *   bits 0-7 refusal, bit 8 side, bit 15 the move is not legal, 16-23 white king, 24-31 black
 *   king, 32-47 the first man, 48-63 the second
 * A man's 16 bits: 0-3 kind, bit 4 colour, bit 5 he is there, 8-15 square; all 0 for none.
 */
uint64_t sledgewren_play(uint8_t side, uint8_t white, uint8_t black, uint32_t first,
                         uint32_t second, uint8_t from, uint8_t to, uint8_t becomes);

/*
 * Writes the true table of an ending, whatever the bytes held before. Each small table that the
 * ending needs is checked first, and 17 says that one is not accepted. Refusals 1, 7 and 17 leave
 * the table's bytes untouched, 10 leaves them all 0.
 *   bits 0-7 refusal, bit 8 some position is decided, 16-23 greatest depth
 */
uint32_t sledgewren_fill(uint32_t ending, const uint8_t *small_first, size_t small_first_len,
                         const uint8_t *small_second, size_t small_second_len, uint8_t *table,
                         size_t len);

/*
 * The same of pieces, quicker: table, answer and refusals are sledgewren_fill's, on any values and
 * bytes, but that king and pawn are refused 1. It works back from the positions just settled, where
 * sledgewren_fill goes over all numbers.
 *   bits 0-7 refusal, bit 8 some position is decided, 16-23 greatest depth
 */
uint32_t sledgewren_fill_back(uint32_t ending, const uint8_t *small_first, size_t small_first_len,
                              const uint8_t *small_second, size_t small_second_len,
                              uint8_t *table, size_t len);

/*
 * Filling in steps, for a caller that shows how far it is. Start sets every legal position's
 * number to 1 and every other one to 0, and hands back SLEDGEWREN_START. The small tables are not
 * asked for. Refusals 1 and 7 leave the table untouched.
 *   bits 0-7 refusal, 8-31 numbers settled (none), 32-63 progress
 */
uint64_t sledgewren_fill_start(uint32_t ending, uint8_t *table, size_t len);

/*
 * One step, on any bytes and any progress: hand each progress to the next step. From a start,
 * with one ending, small tables that sledgewren_check accepts and no other hand on any table, k
 * steps leave the true byte wherever the depth is less than k and the start's byte elsewhere, and
 * the step that says done leaves what sledgewren_fill leaves; that is after 255 steps at most. 17
 * is not asked: the small tables' bytes are read as they stand. Refusals 1 and 7 leave the table
 * and the progress as they were; 10 leaves the table all 0.
 *   bits 0-7 refusal, 8-31 how many numbers the step settled, 32-63 progress
 *
 * A progress is one word and every word is a progress:
 *   bits 0-7    stage
 *   bits 8-23   k, the depth of the next step; above 254 it counts as 254
 *   bits 24-31  1 + the last depth settled, 0 where none was
 * Stage 0, going on: the step writes 2 + k at the legal positions' numbers that hold 1 and whose
 *   successors' bytes, as they stood before it, require depth k. If there are some, the progress
 *   goes on with k + 1; at k = 254 there is no such byte: the answer is refusal 10, the table is
 *   cleared and the stage is 2. If there are none and no small table holds a depth of k or more,
 *   the stage is 1, the table stays, and the greatest depth is the greatest settled. If there are
 *   none and a small table does, the progress goes on with k + 1: with two men or a pawn depths
 *   may skip. Bits 24-31 are asked only where a small table holds a depth of k - 1 or more; else
 *   the step before this one settled its depth, and with one piece that is so always.
 * Stage 1, done: bits 24-31 less 1 are the greatest depth; none is decided where they are 0. The
 *   step repeats that, and table and progress stay.
 * Stage 2 or more, 10 was given: the step answers refusal 10, and table and progress stay.
 */
uint64_t sledgewren_fill_step(uint32_t ending, uint32_t progress, const uint8_t *small_first,
                              size_t small_first_len, const uint8_t *small_second,
                              size_t small_second_len, uint8_t *table, size_t len);

/*
 * Holds every byte of a table to the one that its successors' bytes require. An answer of 0 says
 * that the table is accepted: it is then the true one. Each small table that the ending needs is
 * checked first, and 17 says that one is not accepted. Refusals 1, 7, 17.
 *   bits 0-7 refusal, bit 8 wrong, 32-63 the lowest wrong number
 */
uint64_t sledgewren_check(uint32_t ending, const uint8_t *small_first, size_t small_first_len,
                          const uint8_t *small_second, size_t small_second_len,
                          const uint8_t *table, size_t len);

/*
 * A position's value, its depth in plies and a move, from the table of its ending (which is
 * sledgewren_ending's) and, with two men or a pawn, the small tables. There is no move at checkmate
 * and stalemate, and the depth of a draw is 0. Of several best moves it is the first on the
 * normalised board, carried back: a turned position has its move turned. Refusals 1 to 7, 11 and
 * 18, and after them 19 where `plies` is above SLEDGEWREN_MOST_QUIET.
 *   bits 0-7 refusal, 8-15 value, 16-23 depth, bit 24 a move is given, bit 25 within fifty,
 *   32-39 from, 40-47 to, bit 48 it takes a man, 56-63 what a pawn becomes
 * Bits 32-63 are the move's four bytes in sledgewren_moves' list, the lowest first.
 *
 * `plies` are those since the last capture. A win or a loss is marked within fifty where they and
 * the depth make at most 100: the winner who plays the moves of an accepted table, and claims
 * nothing, then mates before the loser may claim a draw by the fifty-move rule (FIDE 9.3). A draw
 * is never marked, and nothing is with a pawn on the board. Nothing else hangs on `plies`: a caller
 * who does not count them gives 0.
 */
uint64_t sledgewren_look_up(uint8_t side, uint8_t white, uint8_t black, uint32_t first,
                            uint32_t second, uint32_t plies, const uint8_t *small_first,
                            size_t small_first_len, const uint8_t *small_second,
                            size_t small_second_len, const uint8_t *table, size_t len);

/*
 * A second opinion without a table: a search straight from the rules, which takes up to a few
 * milliseconds at 6 plies. The value and the exact depth if that is at most `plies`, else
 * SLEDGEWREN_NOT_WITHIN, with depth 0. It is what sledgewren_look_up says of depths up to
 * `plies`, with every table that sledgewren_check accepts. Refusals 1 to 6, and 16 for more than
 * SLEDGEWREN_MOST_PLIES.
 *   bits 0-7 refusal, 8-15 value, 16-23 depth
 */
uint32_t sledgewren_second_opinion(uint8_t side, uint8_t white, uint8_t black, uint32_t first,
                                   uint32_t second, uint8_t plies);

/*
 * Answers one line of the desk, given without its newline, with a slip. The lent table holds the
 * table of the man held (SLEDGEWREN_NO_MAN or more: of none), and is filled where a line needs
 * another one; keep it and the man held for the next line. Where slip_len is 16, slip gets the
 * slip's bytes, its newline included, and 0 after them. With any other slip_len nothing is
 * written and the answer is SLEDGEWREN_SLIP_LENGTH.
 *   bits 0-7 length of the slip, 8-15 the man held afterwards
 */
uint32_t sledgewren_answer_line(uint8_t held, const uint8_t *line, size_t line_len,
                                uint8_t *table, size_t table_len, uint8_t *slip,
                                size_t slip_len);

/*
 * Packs a table into a pocket, whatever the table's bytes are; the table is only read. An answer
 * of 0 says that it is done. Refusal 7 covers both lengths, and then nothing is written.
 */
uint32_t sledgewren_pack(const uint8_t *table, size_t table_len, uint8_t *pocket,
                         size_t pocket_len);

/*
 * A position's value from the pocket of its ending, without depth or move; one entry is read.
 * On the pocket of an accepted table it is sledgewren_look_up's value, and so the true one.
 * Refusals 1 to 7, and 11 where a legal position's entry is 0.
 *   bits 0-7 refusal, 8-15 value
 */
uint32_t sledgewren_pocket_look_up(uint8_t side, uint8_t white, uint8_t black, uint32_t first,
                                   uint32_t second, const uint8_t *pocket, size_t len);

/*
 * How many numbers have each of a pocket's four entries; together they make 59,136. Refusal 7 is
 * the answer 7, which no tallies make.
 *   bits 0-15 entry 0, 16-31 draws, 32-47 wins, 48-63 losses
 */
uint64_t sledgewren_tallies(const uint8_t *pocket, size_t len);

/*
 * Writes the true tables of the chosen endings as one set: a byte for each man, 0 for no and any
 * other for yes. The answer is 0 or a refusal. 14, where len is not what the choice needs, leaves
 * the bytes untouched; 10 leaves them all 0.
 */
uint32_t sledgewren_set_write(uint8_t queen, uint8_t rook, uint8_t bishop, uint8_t knight,
                              uint8_t *set, size_t len);

/*
 * Writes a set's header and leaves the bytes after it, so that sledgewren_set_fill may fill the
 * endings one by one. The answer is 0 or refusal 14, which leaves all bytes untouched.
 */
uint32_t sledgewren_set_start(uint8_t queen, uint8_t rook, uint8_t bishop, uint8_t knight,
                              uint8_t *set, size_t len);

/*
 * Fills an ending's table in its own part of a right set, whatever that part held before; the
 * other bytes stay as they are. Refusals 1, 14 and 15 leave all bytes untouched, 10 leaves them
 * all 0.
 *   bits 0-7 refusal, bit 8 some position is decided, 16-23 greatest depth
 */
uint32_t sledgewren_set_fill(uint8_t man, uint8_t *set, size_t len);

/*
 * Where a set holds an ending's table, for sledgewren_look_up(.., SLEDGEWREN_NO_TABLES,
 * set + offset, length).
 * Refusals 1, 14, 15. What the table's bytes hold is not asked: sledgewren_check tells.
 *   bits 0-7 refusal, 8-31 length, 32-63 offset
 */
uint64_t sledgewren_set_find(uint8_t man, const uint8_t *set, size_t len);

/*
 * The version of the library that is linked; SLEDGEWREN_VERSION_NUMBER is this header's.
 *   bits 0-7 patch, 8-15 minor, 16-23 major
 */
uint32_t sledgewren_version_number(void);

/* ---- The version as the program sees it that includes this header */

static inline const char *sledgewren_version(void) { return SLEDGEWREN_VERSION; }

/*
 * ---- The fields of each word by name. They read the bit ranges above and nothing else. Of a
 * refused answer only the refusal counts; all its other fields are 0.
 */

/* sledgewren_number: the refusal, or 0, and then the answer itself is the number. */
static inline uint8_t sledgewren_number_refusal(uint32_t answer)
{
    return answer < SLEDGEWREN_NUMBER_REFUSED ? 0 : SLEDGEWREN_BITS(answer, 0);
}

/* sledgewren_position */
static inline uint8_t sledgewren_position_refusal(uint64_t answer) { return SLEDGEWREN_BITS(answer, 0); }
static inline uint8_t sledgewren_position_side(uint64_t answer) { return SLEDGEWREN_BITS(answer, 8); }
static inline uint8_t sledgewren_position_white(uint64_t answer) { return SLEDGEWREN_BITS(answer, 16); }
static inline uint8_t sledgewren_position_square(uint64_t answer) { return SLEDGEWREN_BITS(answer, 24); }
static inline uint8_t sledgewren_position_black(uint64_t answer) { return SLEDGEWREN_BITS(answer, 32); }
static inline uint8_t sledgewren_position_second(uint64_t answer) { return SLEDGEWREN_BITS(answer, 40); }

/* An ending's word: how many men besides the kings, their kinds, and whether they are one each. */
static inline int sledgewren_ending_men(uint32_t ending) { return ending < 0x100 ? 1 : 2; }
static inline uint8_t sledgewren_ending_first(uint32_t ending) { return SLEDGEWREN_BITS(ending, 0); }
static inline uint8_t sledgewren_ending_second(uint32_t ending)
{
    return (uint8_t)(SLEDGEWREN_BITS(ending, 8) - 1);
}
static inline int sledgewren_ending_is_rivals(uint32_t ending) { return ending >> 16 & 1; }

/*
 * sledgewren_play. A man is given as the functions take him, SLEDGEWREN_ABSENT for none; the
 * functions at the end of this file read his kind, colour and square.
 */
static inline uint8_t sledgewren_played_refusal(uint64_t answer) { return SLEDGEWREN_BITS(answer, 0); }
static inline int sledgewren_played_is_not_legal(uint64_t answer)
{
    return SLEDGEWREN_BITS(answer, 8) >> 7;
}
static inline uint8_t sledgewren_played_side(uint64_t answer) { return SLEDGEWREN_BITS(answer, 8) & 1; }
static inline uint8_t sledgewren_played_white(uint64_t answer) { return SLEDGEWREN_BITS(answer, 16); }
static inline uint8_t sledgewren_played_black(uint64_t answer) { return SLEDGEWREN_BITS(answer, 24); }
static inline uint32_t sledgewren_short_man(uint16_t man)
{
    return (man >> 5 & 1) == 0 ? SLEDGEWREN_ABSENT
                               : SLEDGEWREN_A_MAN(man & 15, man >> 4 & 1, man >> 8);
}
static inline uint32_t sledgewren_played_first(uint64_t answer)
{
    return sledgewren_short_man((uint16_t)(answer >> 32));
}
static inline uint32_t sledgewren_played_second(uint64_t answer)
{
    return sledgewren_short_man((uint16_t)(answer >> 48));
}

/* sledgewren_write_number; the places are 0 to 6, and a digit is a character. */
static inline uint8_t sledgewren_written_refusal(uint64_t answer) { return SLEDGEWREN_BITS(answer, 0); }
static inline char sledgewren_written_digit(uint64_t answer, int place)
{
    return (char)SLEDGEWREN_BITS(answer, 8 + 8 * place);
}

/* sledgewren_count; sledgewren_moves too, unless its answer is SLEDGEWREN_MOVES_LENGTH. */
static inline uint8_t sledgewren_count_refusal(uint32_t answer) { return SLEDGEWREN_BITS(answer, 0); }
static inline uint8_t sledgewren_count_moves(uint32_t answer) { return SLEDGEWREN_BITS(answer, 8); }

/* The list that sledgewren_moves writes; the places are 0 to 61. */
static inline uint8_t sledgewren_move_from(const uint8_t *moves, int place) { return moves[4 * place]; }
static inline uint8_t sledgewren_move_to(const uint8_t *moves, int place) { return moves[4 * place + 1]; }
static inline int sledgewren_move_takes(const uint8_t *moves, int place) { return moves[4 * place + 2]; }
static inline uint8_t sledgewren_move_becomes(const uint8_t *moves, int place) { return moves[4 * place + 3]; }

/* sledgewren_fill, sledgewren_set_fill */
static inline uint8_t sledgewren_filled_refusal(uint32_t answer) { return SLEDGEWREN_BITS(answer, 0); }
static inline int sledgewren_filled_is_decided(uint32_t answer) { return SLEDGEWREN_BITS(answer, 8) & 1; }
static inline uint8_t sledgewren_filled_depth(uint32_t answer) { return SLEDGEWREN_BITS(answer, 16); }

/* sledgewren_fill_start, sledgewren_fill_step */
static inline uint8_t sledgewren_step_refusal(uint64_t answer) { return SLEDGEWREN_BITS(answer, 0); }
static inline uint32_t sledgewren_step_settled(uint64_t answer) { return (uint32_t)answer >> 8; }
static inline uint32_t sledgewren_step_progress(uint64_t answer) { return (uint32_t)(answer >> 32); }

/* A progress: its stage, the next step's depth, and 1 + the last depth settled. */
static inline uint8_t sledgewren_progress_stage(uint32_t progress) { return SLEDGEWREN_BITS(progress, 0); }
static inline uint16_t sledgewren_progress_depth(uint32_t progress) { return (uint16_t)(progress >> 8); }
static inline uint8_t sledgewren_progress_last(uint32_t progress) { return SLEDGEWREN_BITS(progress, 24); }

/* sledgewren_check; the table is accepted exactly where the whole answer is 0. */
static inline uint8_t sledgewren_checked_refusal(uint64_t answer) { return SLEDGEWREN_BITS(answer, 0); }
static inline int sledgewren_checked_is_wrong(uint64_t answer) { return SLEDGEWREN_BITS(answer, 8) & 1; }
static inline uint32_t sledgewren_checked_number(uint64_t answer) { return (uint32_t)(answer >> 32); }

/* sledgewren_look_up */
static inline uint8_t sledgewren_answer_refusal(uint64_t answer) { return SLEDGEWREN_BITS(answer, 0); }
static inline uint8_t sledgewren_answer_value(uint64_t answer) { return SLEDGEWREN_BITS(answer, 8); }
static inline uint8_t sledgewren_answer_depth(uint64_t answer) { return SLEDGEWREN_BITS(answer, 16); }
static inline int sledgewren_answer_has_move(uint64_t answer) { return SLEDGEWREN_BITS(answer, 24) & 1; }
static inline int sledgewren_answer_within_fifty(uint64_t answer)
{
    return SLEDGEWREN_BITS(answer, 24) >> 1 & 1;
}
static inline uint8_t sledgewren_answer_from(uint64_t answer) { return SLEDGEWREN_BITS(answer, 32); }
static inline uint8_t sledgewren_answer_to(uint64_t answer) { return SLEDGEWREN_BITS(answer, 40); }
static inline int sledgewren_answer_takes(uint64_t answer) { return SLEDGEWREN_BITS(answer, 48) & 1; }
static inline uint8_t sledgewren_answer_becomes(uint64_t answer) { return SLEDGEWREN_BITS(answer, 56); }

/* sledgewren_second_opinion */
static inline uint8_t sledgewren_opinion_refusal(uint32_t answer) { return SLEDGEWREN_BITS(answer, 0); }
static inline uint8_t sledgewren_opinion_value(uint32_t answer) { return SLEDGEWREN_BITS(answer, 8); }
static inline uint8_t sledgewren_opinion_depth(uint32_t answer) { return SLEDGEWREN_BITS(answer, 16); }

/* sledgewren_answer_line, unless its answer is SLEDGEWREN_SLIP_LENGTH */
static inline uint8_t sledgewren_slip_length(uint32_t answer) { return SLEDGEWREN_BITS(answer, 0); }
static inline uint8_t sledgewren_slip_held(uint32_t answer) { return SLEDGEWREN_BITS(answer, 8); }

/* sledgewren_pocket_look_up (the answers of sledgewren_pack, sledgewren_set_write and
 * sledgewren_set_start are refusals as they stand) */
static inline uint8_t sledgewren_told_refusal(uint32_t answer) { return SLEDGEWREN_BITS(answer, 0); }
static inline uint8_t sledgewren_told_value(uint32_t answer) { return SLEDGEWREN_BITS(answer, 8); }

/* sledgewren_tallies */
static inline uint8_t sledgewren_tallies_refusal(uint64_t answer)
{
    return answer == SLEDGEWREN_TABLE_LENGTH ? SLEDGEWREN_TABLE_LENGTH : 0;
}
static inline uint16_t sledgewren_tallies_none(uint64_t answer) { return (uint16_t)answer; }
static inline uint16_t sledgewren_tallies_draws(uint64_t answer) { return (uint16_t)(answer >> 16); }
static inline uint16_t sledgewren_tallies_wins(uint64_t answer) { return (uint16_t)(answer >> 32); }
static inline uint16_t sledgewren_tallies_losses(uint64_t answer) { return (uint16_t)(answer >> 48); }

/* sledgewren_set_find */
static inline uint8_t sledgewren_found_refusal(uint64_t answer) { return SLEDGEWREN_BITS(answer, 0); }
static inline uint32_t sledgewren_found_length(uint64_t answer) { return (uint32_t)answer >> 8; }
static inline uint32_t sledgewren_found_offset(uint64_t answer) { return (uint32_t)(answer >> 32); }

/* sledgewren_version_number */
static inline uint8_t sledgewren_version_major(uint32_t version) { return SLEDGEWREN_BITS(version, 16); }
static inline uint8_t sledgewren_version_minor(uint32_t version) { return SLEDGEWREN_BITS(version, 8); }
static inline uint8_t sledgewren_version_patch(uint32_t version) { return SLEDGEWREN_BITS(version, 0); }

/* A man's word, as SLEDGEWREN_A_MAN makes it. */
static inline uint8_t sledgewren_man_kind(uint32_t man) { return SLEDGEWREN_BITS(man, 0); }
static inline uint8_t sledgewren_man_colour(uint32_t man) { return SLEDGEWREN_BITS(man, 8); }
static inline uint8_t sledgewren_man_square(uint32_t man) { return SLEDGEWREN_BITS(man, 16); }
static inline int sledgewren_man_is_there(uint32_t man) { return SLEDGEWREN_BITS(man, 24) != 0; }

#ifdef __cplusplus
}
#endif

#endif
