/* Times the permutation's rounds: the proved engines against C, in one run, after checking that all give the same bytes. */

#include <stdint.h>
#include <stdio.h>
#include <stdlib.h>
#include <string.h>
#include <time.h>

typedef void turning(void *state, uint64_t rounds);

turning scalar_turn, masked_turn, vector_turn;
turning sliced_turn, sliced_turn_back, columns_turn, columns_turn_back;

enum { ROUNDS = 14, REPEATS = 25, STATES = 2000 };

static uint64_t seed = 1;

static uint64_t random_word(void) {
    seed ^= seed << 13, seed ^= seed >> 7, seed ^= seed << 17;
    return seed;
}

/* The engine of columns keeps 64 bytes: bit j of byte c is bit c of word j. */
static void to_columns(uint8_t columns[64], const uint64_t words[5]) {
    for (int c = 0; c < 64; c++) {
        columns[c] = 0;
        for (int j = 0; j < 5; j++) columns[c] |= (words[j] >> c & 1) << j;
    }
}

static void from_columns(uint64_t words[5], const uint8_t columns[64]) {
    for (int j = 0; j < 5; j++) {
        words[j] = 0;
        for (int c = 0; c < 64; c++) words[j] |= (uint64_t)(columns[c] >> j & 1) << c;
    }
}

static void same(const char *what, const uint64_t x[5], const uint64_t y[5]) {
    if (memcmp(x, y, 40) != 0) {
        fprintf(stderr, "%s gives other bytes\n", what);
        exit(1);
    }
}

static void check(void) {
    for (int n = 0; n < STATES; n++) {
        uint64_t start[5], expected[5], words[5];
        uint8_t columns[64];
        for (int j = 0; j < 5; j++) start[j] = random_word();
        for (uint64_t r = 0; r <= ROUNDS; r++) {
            memcpy(expected, start, 40), scalar_turn(expected, r);
            memcpy(words, start, 40), masked_turn(words, r), same("masked C", words, expected);
            memcpy(words, start, 40), vector_turn(words, r), same("vector C", words, expected);
            memcpy(words, start, 40), sliced_turn(words, r), same("sliced", words, expected);
            sliced_turn_back(words, r), same("sliced, back", words, start);
            to_columns(columns, start), columns_turn(columns, r);
            from_columns(words, columns), same("columns", words, expected);
            columns_turn_back(columns, r), from_columns(words, columns), same("columns, back", words, start);
        }
    }
}

static double seconds(void) {
    struct timespec t;
    clock_gettime(CLOCK_MONOTONIC, &t);
    return t.tv_sec + 1e-9 * t.tv_nsec;
}

struct row {
    const char *name;
    turning *turn;
    int calls;
    double best;
};

int main(void) {
    struct row rows[] = {
        {"scalar C", scalar_turn, 20000, 1e9},        {"masked scalar C", masked_turn, 20000, 1e9},
        {"vector C", vector_turn, 20000, 1e9},        {"sliced", sliced_turn, 20000, 1e9},
        {"sliced, back", sliced_turn_back, 20000, 1e9}, {"columns", columns_turn, 500, 1e9},
        {"columns, back", columns_turn_back, 500, 1e9},
    };
    int count = sizeof rows / sizeof *rows;
    check();
    printf("%d states, 0 to %d rounds: all versions give the same bytes, and turning back undoes turning\n\n", STATES, ROUNDS);
    /* The versions take turns, and each one's best time counts, so that a pause of the machine favours none. */
    for (int n = 0; n < REPEATS; n++) {
        for (int i = 0; i < count; i++) {
            uint64_t state[8] = {1, 2, 3, 4, 5, 6, 7, 8};
            double start = seconds();
            for (int k = 0; k < rows[i].calls; k++) rows[i].turn(state, ROUNDS);
            double each = (seconds() - start) / rows[i].calls;
            if (each < rows[i].best) rows[i].best = each;
        }
    }
    printf("%-18s %12s %14s\n", "14 rounds", "nanoseconds", "of scalar C");
    for (int i = 0; i < count; i++) {
        printf("%-18s %12.1f %14.2f\n", rows[i].name, rows[i].best * 1e9, rows[i].best / rows[0].best);
    }
    printf("\nsliced, back, of sliced: %.2f\n", rows[4].best / rows[3].best);
    return 0;
}
