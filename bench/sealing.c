/* Times sealing at 64 bits: the proved code with the engine of five words against C, in one run, at three lengths, after
   checking that both give the same bytes. */

#include <stdint.h>
#include <stdio.h>
#include <string.h>
#include <time.h>

typedef uint8_t u8;

void scalar_seal(const u8 *key, const u8 *nonce, const u8 *label, uint64_t label_length, const u8 *text, uint64_t length,
                 u8 *sealed, u8 *tag);
u8 sliced_seal(void *engine, const u8 *key, uint64_t key_length, const u8 *nonce, uint64_t nonce_length, const u8 *label,
               uint64_t label_length, const u8 *text, uint64_t length, u8 *sealed, uint64_t sealed_length, u8 *tag,
               uint64_t tag_length);

enum { LONGEST = 60000, BYTES = 1200000, REPEATS = 15 };

static u8 key[16] = "ATLAS BINDERY 07", nonce[16] = {[7] = 207, [15] = 5}, label[28], text[LONGEST];
static u8 sealed[2][LONGEST], tag[2][16];

static void by_scalar(int length) { scalar_seal(key, nonce, label, sizeof label, text, length, sealed[0], tag[0]); }

static int by_sliced(int length) {
    uint64_t engine[5];
    return sliced_seal(engine, key, 16, nonce, 16, label, sizeof label, text, length, sealed[1], LONGEST, tag[1], 16);
}

static double seconds(void) {
    struct timespec t;
    clock_gettime(CLOCK_MONOTONIC, &t);
    return t.tv_sec + 1e-9 * t.tv_nsec;
}

int main(void) {
    int lengths[] = {600, 6000, LONGEST};
    memcpy(label, "BV1,207,1,3,25,40,48,ATLAS 2", sizeof label);
    for (int i = 0; i < LONGEST; i++) text[i] = 0x20 + i * i / 7 % 64;
    for (int length = 0; length <= 600; length++) {
        by_scalar(length);
        if (by_sliced(length) || memcmp(sealed[0], sealed[1], length) || memcmp(tag[0], tag[1], 16)) {
            fprintf(stderr, "sealing %d bytes gives other bytes\n", length);
            return 1;
        }
    }
    printf("\ntexts of 0 to 600 bytes: both versions give the same bytes and the same seal\n\n");
    printf("%-18s %12s %12s %14s\n", "sealing, 64 bits", "scalar C", "sliced", "of scalar C");
    for (int i = 0; i < 3; i++) {
        int calls = BYTES / lengths[i];
        double best[2] = {1e9, 1e9};
        for (int n = 0; n < REPEATS; n++) {
            double start = seconds();
            for (int k = 0; k < calls; k++) by_scalar(lengths[i]);
            double middle = seconds();
            for (int k = 0; k < calls; k++) by_sliced(lengths[i]);
            double times[2] = {middle - start, seconds() - middle};
            for (int v = 0; v < 2; v++) {
                times[v] /= (double)calls * lengths[i];
                if (times[v] < best[v]) best[v] = times[v];
            }
        }
        printf("%6d bytes       %9.2f ns %9.2f ns %14.2f   (a byte)\n", lengths[i], best[0] * 1e9, best[1] * 1e9, best[1] / best[0]);
    }
    return 0;
}
