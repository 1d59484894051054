/* A line of a collection on the command line, what the library says of it: the position field, verdict or score with the expected result, the
 * double of its trace, and what one step of a fit would make of the tempo's weight if the side to move were worth more. */
#include "chess_scores.h"
#include <stdio.h>
#include <string.h>

typedef struct {
    uint64_t bitboards[CHESS_BITBOARDS];
    uint8_t board[CHESS_SQUARES];
    chess_state state;
} position;

static const char *const VERDICTS[] = {"none", "lost", "won", "drawn"};

static int refused(const char *what, chess_code code)
{
    printf("%s refused %d", what, code.number);
    if (code.square != CHESS_NO_SQUARE)
        printf(" at %c%c", 'a' + code.square % 8, '1' + code.square / 8);
    printf("\n");
    return 1;
}

static unsigned expected_for_white(const position *p, int16_t score)
{
    /* 32768 is no int16_t, and is expected to bring what 32767 is */
    int turned = p->state.side == CHESS_WHITE ? score : -score;
    return (unsigned)chess_expected(turned > INT16_MAX ? INT16_MAX : (int16_t)turned);
}

static int print_score(const position *p)
{
    uint8_t verdict;
    int16_t score;
    chess_code code = chess_eval(p->bitboards, CHESS_BITBOARDS, p->board, CHESS_SQUARES, p->state, &verdict, &score);
    if (code.number != 0)
        return refused("score", code);
    if (verdict != CHESS_NONE)
        printf("%s\n", VERDICTS[verdict]);
    else
        printf("score %d, expected %u millionths for White\n", score, expected_for_white(p, score));
    return 0;
}

static int print_double(const position *p)
{
    int32_t counts[CHESS_COUNTS], mobility[CHESS_COUNTS], sign, piece_count;
    static int32_t entries[CHESS_ENTRIES];
    static double weights[CHESS_NAMED_WEIGHTS], squares[CHESS_SQUARE_WEIGHTS];
    double value;
    chess_code code = chess_compute_trace(p->bitboards, CHESS_BITBOARDS, p->board, CHESS_SQUARES, p->state, counts, mobility, &sign, &piece_count,
                                          entries, CHESS_ENTRIES);
    if (code.number == 0)
        code = chess_shipped_weights(weights, squares, CHESS_SQUARE_WEIGHTS);
    if (code.number == 0)
        code = chess_trace_eval(counts, mobility, sign, piece_count, entries, CHESS_ENTRIES, weights, squares, CHESS_SQUARE_WEIGHTS, &value);
    if (code.number != 0)
        return refused("trace", code);
    printf("trace %.3f\n", value);
    return 0;
}

static int print_step(const position *p)
{
    int32_t counts[CHESS_COUNTS], mobility[CHESS_COUNTS], sign, piece_count;
    static int32_t entries[CHESS_ENTRIES];
    static double gradient[CHESS_WEIGHTS], first[CHESS_WEIGHTS], second[CHESS_WEIGHTS], weights[CHESS_WEIGHTS];
    enum { TEMPO = 10 };
    chess_code code = chess_compute_trace(p->bitboards, CHESS_BITBOARDS, p->board, CHESS_SQUARES, p->state, counts, mobility, &sign, &piece_count,
                                          entries, CHESS_ENTRIES);
    if (code.number == 0)
        code = chess_shipped_weights(weights, weights + CHESS_NAMED_WEIGHTS, CHESS_SQUARE_WEIGHTS);
    if (code.number == 0)
        code = chess_gradient_add(counts, mobility, sign, piece_count, entries, CHESS_ENTRIES, -0.001, gradient, CHESS_WEIGHTS);
    if (code.number == 0)
        code = chess_adam_step(gradient, CHESS_WEIGHTS, first, CHESS_WEIGHTS, second, CHESS_WEIGHTS, weights, CHESS_WEIGHTS, 1, 1.0);
    if (code.number != 0)
        return refused("step", code);
    printf("tempo %.3f\n", weights[TEMPO]);
    return 0;
}

int main(int count, char **words)
{
    if (count != 2) {
        fprintf(stderr, "usage: example 'POSITION;RESULT'\n");
        return 2;
    }
    const uint8_t *line = (const uint8_t *)words[1];
    size_t length = strlen(words[1]);
    position p;
    chess_line said = chess_read_line(line, length, p.bitboards, CHESS_BITBOARDS, p.board, CHESS_SQUARES);
    if (said.code.number != 0)
        return refused("line", said.code);
    p.state = said.state;
    chess_part field = chess_position_field(line, length);
    printf("%.*s, %d half points\n", (int)field.length, words[1] + field.start, said.half_points);
    return print_score(&p) | print_double(&p) | print_step(&p);
}
