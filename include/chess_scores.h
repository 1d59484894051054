/* Chess scores, exchanges and traces, every one proved: the doors for C.
 *
 * Every function but chess_position_field and chess_expected returns the number 0 where it has an answer, and the answer's numbers then stand where the last
 * pointers point, or beside that 0 (chess_line); or it returns a refusal, the first in the order that is named with the function, and has written nothing.
 *
 * A slice is a pointer and a length. A length that is not the one asked for is refused (SHAPE); what C must see to itself is that the
 * pointers are valid for their lengths, that no pointer is null, not even that of an empty slice, that those written through overlap
 * nothing else that the call is handed, and that a bool is 0 or 1.
 *
 * A position is 14 bitboards, 64 board bytes and a state. Bitboard c, from 2 to 13, has the squares of the pieces of code c (pawn 2,
 * knight 4, king 6, bishop 8, rook 10, queen 12, one more for Black); bitboards 0 and 1 have all of White's and all of Black's. Bit s
 * is square s, a1 = 0, b1 = 1, h8 = 63. Board byte s is the code of the piece on s, or 0. chess_read_line makes one. */
#ifndef CHESS_SCORES_H
#define CHESS_SCORES_H

#include <stdbool.h>
#include <stddef.h>
#include <stdint.h>

#ifdef __cplusplus
extern "C" {
#endif

enum { CHESS_BITBOARDS = 14, CHESS_SQUARES = 64, CHESS_COUNTS = 12, CHESS_NAMED_WEIGHTS = 11, CHESS_ENTRIES = 768, CHESS_SQUARE_WEIGHTS = 768, CHESS_WEIGHTS = 779, CHESS_LIST = 192 };

enum { CHESS_WHITE = 0, CHESS_BLACK = 1 };

/* What a call returns: 0, or the number of the refusal, and the square that it names; CHESS_NO_SQUARE where it names none. */
typedef struct {
    uint8_t number;
    uint8_t square;
} chess_code;

enum { CHESS_NO_SQUARE = 255 };

/* Refusals. 2 was CHESS_BOARD: 14 to 16 come where it came, with a square, and nothing has its number again. */
enum {
    CHESS_SHAPE = 1,      /* a length, a side, a colour or a piece code that none has */
    CHESS_SCORE = 3,      /* a number leaves 16 bits on the way to the score */
    CHESS_SQUARE = 4,     /* a square above 63 */
    CHESS_MOVE = 5,       /* no capture by the side to move */
    CHESS_CROWD = 6,      /* over 32 pieces, or two or more kings of one colour */
    CHESS_TRACE = 7,      /* a number of a trace out of its range */
    CHESS_LONG = 8,       /* a line over 256 bytes */
    CHESS_BYTE = 9,       /* a byte other than 32 to 126, tab and CR */
    CHESS_FIELD = 10,     /* no `;` */
    CHESS_PLACE = 11,     /* bad ranks */
    CHESS_SIDE = 12,      /* bad side */
    CHESS_RESULT = 13,    /* unknown result */
    CHESS_OVERLAP = 14,   /* two piece boards overlap; with the lowest such square */
    CHESS_UNION = 15,     /* a colour's union is wrong; with the lowest such square */
    CHESS_BYTEBOARD = 16, /* a board byte disagrees; with the lowest such square */
    CHESS_ROOM = 17,      /* too little room for what is written */
    CHESS_LENGTH = 18,    /* records that are no multiple of 34 bytes, or a place that is not 34 */
    CHESS_CODE = 19,      /* a half byte that is no piece's; with the lowest such square */
    CHESS_ORDER = 20,     /* six kinds that are not each kind once */
    CHESS_ENTRY = 21,     /* a list of a trace out of its ranges, out of order or too long */
    CHESS_MANY = 22,      /* more lines or records than are taken */
    CHESS_ITERATION = 23, /* an iteration number of zero or above 1,000,000 */
    CHESS_KINGS = 24,     /* not one king a colour */
    CHESS_PAWNS = 25,     /* over eight pawns of a colour */
    CHESS_PIECES = 26,    /* over sixteen pieces of a colour */
    CHESS_RANK = 27,      /* a pawn on the first or last rank; with the lowest such square */
    CHESS_CHECK = 28,     /* the side that just moved is in check; with the king's square */
    CHESS_RIGHTS = 29,    /* bad castling rights */
    CHESS_PASSANT = 30,   /* bad en passant square */
    CHESS_COUNTER = 31,   /* bad counter */
    CHESS_ABSENT = 32     /* no such record */
};

/* What a position says beside its pieces: the side to move, a right to castle for each rook (K, Q, k and q in a line), the square that a pawn has just passed,
 * or CHESS_NO_SQUARE, and the counters, half moves 0 to 9999 and moves 1 to 9999. A right needs its king and rook at home (RIGHTS); the square is empty, on
 * rank 6 with White to move and a black pawn just below it, or on rank 3 with Black to move and a white pawn just above (PASSANT). Where only the side is
 * given it is CHESS_OF_SIDE(side): no rights, no square, 0 and 1. */
typedef struct {
    uint8_t side;
    bool white_short;
    bool white_long;
    bool black_short;
    bool black_long;
    uint8_t passant;
    uint16_t halfmoves;
    uint16_t moves;
} chess_state;

#define CHESS_OF_SIDE(side) { (side), false, false, false, false, CHESS_NO_SQUARE, 0, 1 }

/* Verdicts. */
enum { CHESS_NONE = 0, CHESS_LOST = 1, CHESS_WON = 2, CHESS_DRAWN = 3 };

/* A part of the caller's line. */
typedef struct {
    size_t start;
    size_t length;
} chess_part;

/* What a reader says beside the boards: 0, the state and the half points for White; or a refusal, and a state and half points that say nothing. */
typedef struct {
    chess_code code;
    chess_state state;
    uint8_t half_points;
} chess_line;

/* ---- lines */

/* Reads one line of a collection, `POSITION;RESULT`, two, four or six fields before the `;`, without its LF and the CR before that: 14 bitboards, 64 bytes, the state
 * and the half points for White (1-0 is 2, 1/2-1/2 is 1, 0-1 is 0). SHAPE, LONG, BYTE, FIELD, PLACE, SIDE, RIGHTS, PASSANT, COUNTER, RESULT. */
chess_line chess_read_line(const uint8_t *line, size_t line_length, uint64_t *bitboards, size_t bitboards_length, uint8_t *board,
                           size_t board_length);

/* The same of a line whose position may come from real play: one king a colour, at most eight pawns and sixteen pieces a colour, king and
 * pawns counted, no pawn on the first or last rank, and the side that just moved not in check. SHAPE, LONG, BYTE, FIELD, PLACE, SIDE, RIGHTS, PASSANT, COUNTER, RESULT, KINGS, PAWNS,
 * PIECES, RANK, CHECK. */
chess_line chess_read_profile(const uint8_t *line, size_t line_length, uint64_t *bitboards, size_t bitboards_length, uint8_t *board,
                              size_t board_length);

/* Where the trimmed position field stands in the line; of length 0, and at 0, exactly if the line is refused. */
chess_part chess_position_field(const uint8_t *line, size_t line_length);

/* Whether a position may come from real play, by the same rules: 0 if it may. SHAPE, OVERLAP, UNION, BYTEBOARD, RIGHTS, PASSANT, COUNTER, KINGS, PAWNS, PIECES, RANK, CHECK. */
chess_code chess_profile(const uint64_t *bitboards, size_t bitboards_length, const uint8_t *board, size_t board_length, chess_state state);

/* The text of a position at the front of `out`, with `;` and the result of the half points where `request` is not 0, and how many bytes that is; the bytes
 * after it stay, and neither LF nor NUL is written. 91 bytes hold every position, 99 every line. Where no result is requested the half points are not looked
 * at. SHAPE, OVERLAP, UNION, BYTEBOARD, RIGHTS, PASSANT, COUNTER, RESULT, ROOM. */
chess_code chess_write_line(const uint64_t *bitboards, size_t bitboards_length, const uint8_t *board, size_t board_length, chess_state state,
                            uint8_t request, uint8_t half_points, uint8_t *out, size_t out_length, size_t *length);

/* ---- records: a store is records of 34 bytes, one after another: 32 bytes of two squares each from a1, the lower square in the low half, then
 * the side to move, then the half points for White */

enum { CHESS_RECORD = 34 };

/* Reads the record of a number, from 0, in a run of records: 14 bitboards, 64 bytes, the state, which has a side alone, and the half points. SHAPE, LENGTH (the
 * run is no multiple of 34 bytes), ABSENT, CODE with the lowest square whose half byte is 1, 14 or 15, SIDE, RESULT. */
chess_line chess_read_record(const uint8_t *run, size_t run_length, uint64_t number, uint64_t *bitboards, size_t bitboards_length,
                             uint8_t *board, size_t board_length);

/* Writes the record of a position and its half points into a place of CHESS_RECORD bytes. SHAPE, OVERLAP, UNION, BYTEBOARD, RIGHTS, PASSANT, COUNTER, RESULT, LENGTH. */
chess_code chess_write_record(const uint64_t *bitboards, size_t bitboards_length, const uint8_t *board, size_t board_length, chess_state state,
                              uint8_t half_points, uint8_t *place, size_t place_length);

/* ---- totals beside a store: CHESS_SUMMARY numbers. The records, the half points, and then 64 for each piece in the order of the codes: how
 * many stand on each square from a1. All 0 for a store without records. Sums wrap where a summary is not its store's. */

enum { CHESS_SUMMARY = 770 };

/* Writes the record of a position and its half points at the number that the summary counts to, and counts it. SHAPE, OVERLAP, UNION, BYTEBOARD, RIGHTS, PASSANT, COUNTER,
 * RESULT, LENGTH (the run is no multiple of 34 bytes), MANY (past the 10,000,000th), ROOM (the run has no place for it). */
chess_code chess_add_record(const uint64_t *bitboards, size_t bitboards_length, const uint8_t *board, size_t board_length, chess_state state,
                            uint8_t half_points, uint8_t *run, size_t run_length, uint64_t *summary, size_t summary_length);

/* Takes the record of a number off the summary and puts another in its place. SHAPE, OVERLAP, UNION, BYTEBOARD, RIGHTS, PASSANT, COUNTER, RESULT, LENGTH, ABSENT (of the
 * run), CODE, SIDE, RESULT (of the old record), ABSENT (the summary counts to the number or less). */
chess_code chess_replace_record(const uint64_t *bitboards, size_t bitboards_length, const uint8_t *board, size_t board_length, chess_state state,
                                uint8_t half_points, uint64_t number, uint8_t *run, size_t run_length, uint64_t *summary,
                                size_t summary_length);

/* Adds the summary of another store, `more`, which does not overlap: the summary of both stores, one after another. SHAPE, MANY (more than 10,000,000 records). */
chess_code chess_join_summary(uint64_t *summary, size_t summary_length, const uint64_t *more, size_t more_length);

/* ---- scores: of a position for the side to move */

/* The verdict: fewer than two kings in all is lost or won; fewer than four pieces and only kings, knights and bishops is drawn; else
 * none. SHAPE, OVERLAP, UNION, BYTEBOARD, RIGHTS, PASSANT, COUNTER. */
chess_code chess_eval_ending(const uint64_t *bitboards, size_t bitboards_length, const uint8_t *board, size_t board_length, chess_state state,
                             uint8_t *verdict);

/* What a colour's pieces are worth, without the pair of bishops. SHAPE (the colour too), OVERLAP, UNION, BYTEBOARD, RIGHTS, PASSANT, COUNTER, SCORE. */
chess_code chess_eval_material(const uint64_t *bitboards, size_t bitboards_length, const uint8_t *board, size_t board_length, chess_state state,
                               uint8_t color, int16_t *material);

/* A verdict, and 0 for the score; or CHESS_NONE, and the score. SHAPE, OVERLAP, UNION, BYTEBOARD, RIGHTS, PASSANT, COUNTER, SCORE. */
chess_code chess_eval(const uint64_t *bitboards, size_t bitboards_length, const uint8_t *board, size_t board_length, chess_state state,
                      uint8_t *verdict, int16_t *score);

/* ---- attacks */

/* The squares that a piece of a code attacks from a square, each ray up to and including the first square of `occupied`.
 * SHAPE (the code), SQUARE. */
chess_code chess_piece_attacks(uint8_t piece, uint8_t square, uint64_t occupied, uint64_t *squares);

/* The squares of the pieces of both colours that attack a square, whether they stand in `occupied` or not. SHAPE, OVERLAP, UNION, BYTEBOARD, RIGHTS, PASSANT, COUNTER, SQUARE. */
chess_code chess_attacks_to(const uint64_t *bitboards, size_t bitboards_length, const uint8_t *board, size_t board_length, chess_state state,
                            uint8_t square, uint64_t occupied, uint64_t *squares);

/* Whether a piece of the colour other than the one named attacks a square. SHAPE (the colour too), OVERLAP, UNION, BYTEBOARD, RIGHTS, PASSANT, COUNTER, SQUARE. */
chess_code chess_is_attacked(const uint64_t *bitboards, size_t bitboards_length, const uint8_t *board, size_t board_length, chess_state state,
                             uint8_t square, uint8_t color, bool *attacked);

/* Whether the colour's king is attacked, the lowest if it has several; true if it has none. SHAPE (the colour too), OVERLAP, UNION, BYTEBOARD, RIGHTS, PASSANT, COUNTER. */
chess_code chess_is_check(const uint64_t *bitboards, size_t bitboards_length, const uint8_t *board, size_t board_length, chess_state state,
                          uint8_t color, bool *check);

/* ---- exchanges */

/* An order of the six kinds is six bytes, each kind once: pawn 0, knight 1, bishop 2, rook 3, queen 4, king 5, the first to take first.
 * CHESS_ORDER_01 is document 01's, the original's: const uint8_t order[CHESS_KINDS] = CHESS_ORDER_01. */
enum { CHESS_KINDS = 6 };
#define CHESS_ORDER_01 { 0, 1, 2, 3, 4, 5 }

/* Whether the colour has a piece in `attacks` and `occupied`, the lowest square of the first kind in the order that has one, and that
 * kind; 0 and 0 beside false. SHAPE (the colour too), OVERLAP, UNION, BYTEBOARD, RIGHTS, PASSANT, COUNTER, ORDER. */
chess_code chess_lvp(const uint64_t *bitboards, size_t bitboards_length, const uint8_t *board, size_t board_length, chess_state state,
                     const uint8_t order[CHESS_KINDS], uint8_t color, uint64_t attacks, uint64_t occupied, bool *found, uint8_t *square,
                     uint8_t *kind);

/* The modes of an exchange: the original's; and one in which a pawn may take en passant as the first capture, and a pawn that captures onto
 * the last rank counts as a queen from then on, 913 added to what that capture takes. Any other number is SHAPE. */
enum { CHESS_FIRST_MODE = 0, CHESS_SECOND_MODE = 1 };

/* What the exchange that the capture `from`-`to` starts is worth to the side to move, in the mode and the kinds capturing in the order. SHAPE, OVERLAP, UNION, BYTEBOARD, RIGHTS, PASSANT, COUNTER,
 * SQUARE, ORDER, MOVE, CROWD. */
chess_code chess_see(const uint64_t *bitboards, size_t bitboards_length, const uint8_t *board, size_t board_length, chess_state state,
                     uint8_t mode, const uint8_t order[CHESS_KINDS], uint8_t from, uint8_t to, int16_t *worth);

/* The captures of that exchange in order, at most 31: of each the square that it is made from, the kind that makes it and the value that it
 * takes, with zeros after them; how many they are; and before which of them, counted from 0, the exchange stops, or how many they are where
 * it is played out. What the captures before that take, with alternating signs, is what the exchange is worth. SHAPE, OVERLAP, UNION, BYTEBOARD, RIGHTS, PASSANT, COUNTER, SQUARE,
 * ORDER, MOVE, CROWD. */
enum { CHESS_CAPTURES = 32 };
chess_code chess_captures(const uint64_t *bitboards, size_t bitboards_length, const uint8_t *board, size_t board_length, chess_state state,
                          uint8_t mode, const uint8_t order[CHESS_KINDS], uint8_t from, uint8_t to, uint8_t squares[CHESS_CAPTURES],
                          uint8_t kinds[CHESS_CAPTURES], uint16_t taken[CHESS_CAPTURES], size_t *count, size_t *stop);

/* ---- traces
 *
 * Kinds run 0 to 5: pawn, knight, bishop, rook, queen, king. counts[2 * kind + colour] counts the pieces of the first five kinds, and
 * counts[10 + colour] is 1 for two or more bishops. mobility[2 * kind + colour] counts the squares that they attack. sign is 1 for
 * White to move and -1 for Black. entries[128 * kind + 2 * square + colour] is 1 where a piece stands, Black's squares xor 56. */

/* The trace of a position. SHAPE (also not 768 entries), OVERLAP, UNION, BYTEBOARD, RIGHTS, PASSANT, COUNTER. */
chess_code chess_compute_trace(const uint64_t *bitboards, size_t bitboards_length, const uint8_t *board, size_t board_length, chess_state state,
                               int32_t counts[CHESS_COUNTS], int32_t mobility[CHESS_COUNTS], int32_t *sign, int32_t *piece_count,
                               int32_t *entries, size_t entries_length);

/* The double of a trace under weights, in the order of the original's operations, one rounding for each: the eleven named weights are
 * pawn, knight, bishop, rook, queen, pair of bishops, mobility of knight, bishop, rook and queen, and tempo; a square weight is at
 * 128 * kind + 64 * phase + square. SHAPE, TRACE. */
chess_code chess_trace_eval(const int32_t counts[CHESS_COUNTS], const int32_t mobility[CHESS_COUNTS], int32_t sign, int32_t piece_count,
                            const int32_t *entries, size_t entries_length, const double weights[CHESS_NAMED_WEIGHTS], const double *squares,
                            size_t squares_length, double *value);

/* The weights that the score has. SHAPE (not room for just 768 square weights). */
chess_code chess_shipped_weights(double weights[CHESS_NAMED_WEIGHTS], double *squares, size_t squares_length);

/* ---- the fitting step: 779 weights, the eleven that have a name and then the squares'
 *
 * Adds a line's part to the 779 sums of a gradient, with the arithmetic of the original's compute_gradient in its order; the coefficient is the
 * caller's. Lines added one after another, from zeros, are the gradient of their collection. SHAPE (also where there are not 779 sums), TRACE. */
chess_code chess_gradient_add(const int32_t counts[CHESS_COUNTS], const int32_t mobility[CHESS_COUNTS], int32_t sign, int32_t piece_count,
                           const int32_t *entries, size_t entries_length, double coefficient, double *gradient, size_t gradient_length);

/* One step of Adam: both moments and the weights after it, 779 each. The pawn's weight, at 0, never moves, nor do its moments. Iterations are numbered
 * from 1; before the first both moments are zeros. SHAPE, ITERATION. */
chess_code chess_adam_step(const double *gradient, size_t gradient_length, double *first_moments, size_t first_length, double *second_moments,
                        size_t second_length, double *weights, size_t weights_length, uint64_t iteration, double rate);

/* A line's coefficient by the table of expected results (chess_expected), with no power of ten: whole numbers and IEEE 754's operations alone, so the same bits
 * on every machine. The score is k times the line's double, rounded down to a whole number; beyond 1600 and -1600 it is the end's, as for the infinities, and a
 * NaN stays a NaN. *expected is what the table has for it, in points; *coefficient is what the original's compute_gradient makes of it, by the line's half points
 * and how many lines there are. SHAPE (no lines), RESULT. */
chess_code chess_table_coefficient(double value, uint8_t half_points, double k, uint64_t lines, double *expected, double *coefficient);

/* ---- a trace's list, beside its counts
 *
 * In the place of the 768 entries at most 64 of three bytes: list[3 * i] is the kind, list[3 * i + 1] the square (Black's xor 56) and list[3 * i + 2] the
 * colour of entry i, sorted by those three, one for each piece; `used` says how many there are, and every byte after them is 0. A list that is not so is
 * ENTRY. 192 bytes, one more for `used`, and the counts as before. */

/* The trace of a position as a list. SHAPE, OVERLAP, UNION, BYTEBOARD, RIGHTS, PASSANT, COUNTER. */
chess_code chess_compute_list(const uint64_t *bitboards, size_t bitboards_length, const uint8_t *board, size_t board_length, chess_state state,
                              int32_t counts[CHESS_COUNTS], int32_t mobility[CHESS_COUNTS], int32_t *sign, int32_t *piece_count, uint8_t *used,
                              uint8_t list[CHESS_LIST]);

/* The list of a flat trace. SHAPE, TRACE, ENTRY (more than 64 ones). */
chess_code chess_list_of(const int32_t counts[CHESS_COUNTS], const int32_t mobility[CHESS_COUNTS], int32_t sign, int32_t piece_count,
                         const int32_t *entries, size_t entries_length, uint8_t *used, uint8_t list[CHESS_LIST]);

/* The 768 entries of a list. SHAPE, TRACE, ENTRY. */
chess_code chess_flat_of(const int32_t counts[CHESS_COUNTS], const int32_t mobility[CHESS_COUNTS], int32_t sign, int32_t piece_count, uint8_t used,
                         const uint8_t list[CHESS_LIST], int32_t *entries, size_t entries_length);

/* The double of a trace from its list: the same bits as chess_trace_eval's, or both NaN. SHAPE, TRACE, ENTRY. */
chess_code chess_list_eval(const int32_t counts[CHESS_COUNTS], const int32_t mobility[CHESS_COUNTS], int32_t sign, int32_t piece_count, uint8_t used,
                           const uint8_t list[CHESS_LIST], const double weights[CHESS_NAMED_WEIGHTS], const double *squares,
                           size_t squares_length, double *value);

/* Adds a line's part from its list: what chess_gradient_add adds, bit for bit. SHAPE, TRACE, ENTRY. */
chess_code chess_list_add(const int32_t counts[CHESS_COUNTS], const int32_t mobility[CHESS_COUNTS], int32_t sign, int32_t piece_count, uint8_t used,
                          const uint8_t list[CHESS_LIST], double coefficient, double *gradient, size_t gradient_length);

/* ---- the ledger of a collection, fed in pieces of any size
 *
 * A row for each line, in order: `NUMBER HALFPOINTS SCORE`, the score also `won`, `lost`, `drawn` or `over`; or `NUMBER refused R`. The last
 * row is `lines N loaded N refused N`. The caller keeps the state, four numbers that are all 0 before the first piece, and the line
 * buffer of 256 bytes. Beside SHAPE (a line buffer that has not 256 bytes) there are two numbers of the ledger's own, no refusals of the table: */
enum { CHESS_LEDGER_STATE = 4, CHESS_LEDGER_LINE = 256, CHESS_LEDGER_ROW = 32, CHESS_LEDGER_LAST = 116 };

enum {
    CHESS_LEDGER_FULL = 254, /* too little room for the rows: CHESS_LEDGER_ROW bytes for each LF in the piece; at the end what is written, CHESS_LEDGER_LAST at most */
    CHESS_LEDGER_MANY = 255  /* more lines than 64 bits count */
};

/* The rows of the lines that end in a piece, and how many bytes they are. SHAPE, LEDGER_MANY, LEDGER_FULL. */
chess_code chess_ledger_feed(uint64_t state[CHESS_LEDGER_STATE], uint8_t *line, size_t line_length, const uint8_t *piece, size_t piece_length,
                             uint8_t *out, size_t out_length, size_t *wrote);

/* The end of the input: the row of a last line that has no LF, and the last row. SHAPE, LEDGER_MANY, LEDGER_FULL (not room for what is
 * written). */
chess_code chess_ledger_finish(const uint64_t state[CHESS_LEDGER_STATE], const uint8_t *line, size_t line_length, uint8_t *out,
                               size_t out_length, size_t *wrote);

/* ---- the samples of a collection for a fit, fed in pieces of any size
 *
 * What a fit keeps of a loaded line: what chess_compute_list gives of its position, and its half points. It is as the doors write it, 300 bytes with the lowest byte of
 * a number first: on a little-endian machine this struct. A fit sees what the ledger shows: state and line buffer are the ledger's, and the counts of both are equal. */
enum { CHESS_SAMPLE = 300 };

typedef struct {
    int32_t counts[CHESS_COUNTS];
    int32_t mobility[CHESS_COUNTS];
    int32_t sign;
    int32_t piece_count;
    uint8_t used;
    uint8_t half_points;
    uint8_t list[CHESS_LIST];
    uint8_t zero[2];
} chess_sample;

/* The samples of the loaded lines that end in a piece, and the ledger's rows of the refused ones; how many bytes were sampled, and how many bytes of rows written.
 * SHAPE, LEDGER_MANY, LEDGER_FULL (not CHESS_SAMPLE bytes for samples, and CHESS_LEDGER_ROW for rows, for each LF in the piece). */
chess_code chess_samples_feed(uint64_t state[CHESS_LEDGER_STATE], uint8_t *line, size_t line_length, const uint8_t *piece, size_t piece_length,
                              uint8_t *samples, size_t samples_length, uint8_t *rows, size_t rows_length, size_t *sampled, size_t *wrote);

/* The end of the input: the sample of a last line that has no LF, or its row, and the ledger's last row. SHAPE, LEDGER_MANY, LEDGER_FULL (not CHESS_SAMPLE bytes for
 * samples if a line is unfinished, or not CHESS_LEDGER_LAST for rows). */
chess_code chess_samples_finish(const uint64_t state[CHESS_LEDGER_STATE], const uint8_t *line, size_t line_length, uint8_t *samples, size_t samples_length,
                                uint8_t *rows, size_t rows_length, size_t *sampled, size_t *wrote);

/* ---- expected results, and how far a collection's results lie from them */

/* The expected result of a score for White, in millionths of a point: a million times 1/(1 + 10^(-score/400)), cut to a whole number, of
 * the multiple of four at or below the score; beyond 1600 and -1600 it is the end's. */
uint32_t chess_expected(int16_t score);

/* Totals are three numbers, all 0 before any line: lines with a score, lines apart (with a verdict or `over`), and the sum of the squared
 * distances of the former from their expected results, in millionths of millionths. */
enum { CHESS_ERROR_TOTALS = 3, CHESS_ERROR_STATE = 7 };

/* A line more, by its side to move, whether it has some score, the score for that side (not looked at where it has none), and the half points for White.
 * SHAPE (the side), RESULT (the half points), MANY (the 1,000,001st line of its kind, or a sum past 64 bits). */
chess_code chess_error_add(uint64_t totals[CHESS_ERROR_TOTALS], uint8_t side, bool some, int16_t score, uint8_t half_points);

/* The lines of a collection that end in a piece of any size. The caller keeps the state, seven numbers that are all 0 before the first piece,
 * and the line buffer of 256 bytes. SHAPE (a line buffer that has not 256 bytes). */
chess_code chess_error_feed(uint64_t state[CHESS_ERROR_STATE], uint8_t *line, size_t line_length, const uint8_t *piece, size_t piece_length);

/* The end of the input, which ends a last line that has no LF: the totals, and in `lines` how many were refused. SHAPE, MANY. */
chess_code chess_error_end(const uint64_t state[CHESS_ERROR_STATE], const uint8_t *line, size_t line_length,
                           uint64_t totals[CHESS_ERROR_TOTALS], uint64_t *lines);

/* Adds the sum over another part of a collection, its totals `more`, which do not overlap, and its refused lines `others`: the sum over both parts, where they
 * were cut at a line end. MANY (the 1,000,001st line of a kind, or past 64 bits). */
chess_code chess_error_join(uint64_t totals[CHESS_ERROR_TOTALS], uint64_t *lines, const uint64_t more[CHESS_ERROR_TOTALS], uint64_t others);

#ifdef __cplusplus
}
#endif

#endif
