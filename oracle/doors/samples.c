/* The samples of a collection on standard input, fed in pieces of so many bytes: samples SIZE. A line of hexadecimal for each sample, and then the rows. */
#include <stdio.h>
#include <stdlib.h>
#include "../../include/chess_scores.h"

enum { MOST = 1 << 18 };

static uint8_t samples[(MOST + 1) * (size_t)CHESS_SAMPLE], rows[(MOST + 1) * (size_t)CHESS_LEDGER_ROW + CHESS_LEDGER_LAST], told[sizeof rows];

static void tell(size_t sampled) {
    for (size_t k = 0; k < sampled; k++) printf("%02x%s", samples[k], (k + 1) % CHESS_SAMPLE ? "" : "\n");
}

static void taken(chess_code code) {
    if (code.number) {
        fprintf(stderr, "samples: %d\n", code.number);
        exit(1);
    }
}

int main(int argc, char **argv) {
    uint64_t state[CHESS_LEDGER_STATE] = {0};
    uint8_t line[CHESS_LEDGER_LINE] = {0}, piece[MOST];
    size_t size = argc == 2 ? strtoul(argv[1], 0, 10) : 0, got, sampled, wrote, end = 0;
    if (!size || size > MOST) return 2;
    while ((got = fread(piece, 1, size, stdin))) {
        taken(chess_samples_feed(state, line, sizeof line, piece, got, samples, sizeof samples, rows, sizeof rows, &sampled, &wrote));
        tell(sampled);
        for (size_t k = 0; k < wrote; k++) told[end++] = rows[k];
    }
    taken(chess_samples_finish(state, line, sizeof line, samples, sizeof samples, rows, sizeof rows, &sampled, &wrote));
    tell(sampled);
    fwrite(told, 1, end, stdout);
    fwrite(rows, 1, wrote, stdout);
    return 0;
}
