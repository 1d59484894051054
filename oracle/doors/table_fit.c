/* A fit with the table, through the doors alone, in C: table_fit COLLECTION ITERATIONS, for collections of up to 10,000 lines that are all loaded.
 * Prints the 779 weights as a weights file of bin/fit has them, without their names. For machines that bin/fit is not built on: oracle/arm. */
#include "../../include/chess_scores.h"
#include <stdio.h>
#include <stdlib.h>
#include <string.h>

enum { MOST = 10000, ROOM = 400 };

static struct {
    int32_t counts[CHESS_COUNTS], mobility[CHESS_COUNTS], sign, pieces;
    uint8_t used, half_points, list[CHESS_LIST];
} samples[MOST];

static void taken(chess_code code) {
    if (code.number != 0) {
        fprintf(stderr, "table_fit: refused %d\n", code.number);
        exit(1);
    }
}

static size_t read_all(FILE *collection) {
    char line[ROOM];
    size_t count = 0;
    for (; count < MOST && fgets(line, ROOM, collection) != NULL; count++) {
        uint64_t bitboards[CHESS_BITBOARDS];
        uint8_t board[CHESS_SQUARES];
        chess_line said = chess_read_line((const uint8_t *)line, strcspn(line, "\n"), bitboards, CHESS_BITBOARDS, board, CHESS_SQUARES);
        taken(said.code);
        samples[count].half_points = said.half_points;
        taken(chess_compute_list(bitboards, CHESS_BITBOARDS, board, CHESS_SQUARES, said.state, samples[count].counts, samples[count].mobility, &samples[count].sign,
                                 &samples[count].pieces, &samples[count].used, samples[count].list));
    }
    return count;
}

int main(int count_of_words, char **words) {
    static double weights[CHESS_WEIGHTS], first[CHESS_WEIGHTS], second[CHESS_WEIGHTS], gradient[CHESS_WEIGHTS];
    FILE *collection = count_of_words == 3 ? fopen(words[1], "r") : NULL;
    if (collection == NULL) {
        fprintf(stderr, "usage: table_fit COLLECTION ITERATIONS\n");
        return 2;
    }
    size_t count = read_all(collection);
    taken(chess_shipped_weights(weights, weights + CHESS_NAMED_WEIGHTS, CHESS_SQUARE_WEIGHTS));
    for (unsigned long iteration = 1; iteration <= strtoul(words[2], NULL, 10); iteration++) {
        memset(gradient, 0, sizeof gradient);
        for (size_t k = 0; k < count; k++) {
            double value, expected, coefficient;
            taken(chess_list_eval(samples[k].counts, samples[k].mobility, samples[k].sign, samples[k].pieces, samples[k].used, samples[k].list, weights,
                                  weights + CHESS_NAMED_WEIGHTS, CHESS_SQUARE_WEIGHTS, &value));
            taken(chess_table_coefficient(value, samples[k].half_points, 1.0, count, &expected, &coefficient));
            taken(chess_list_add(samples[k].counts, samples[k].mobility, samples[k].sign, samples[k].pieces, samples[k].used, samples[k].list, coefficient, gradient,
                                 CHESS_WEIGHTS));
        }
        taken(chess_adam_step(gradient, CHESS_WEIGHTS, first, CHESS_WEIGHTS, second, CHESS_WEIGHTS, weights, CHESS_WEIGHTS, iteration, 1.0));
    }
    for (size_t k = 0; k < CHESS_WEIGHTS; k++) printf("%.16e\n", weights[k]);
    return 0;
}
