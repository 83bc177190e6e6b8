/* How fast the codec is, beside libfec on the same strips in the same run.
 *
 * Profile 8 3 255 14 16 18 24: a block is eight strips of 255 bytes. libfec does RS(255,227) on each strip, which is
 * the strips' own code, without the nested sums. A row is timed in batches, and the best batch counts; the two programs
 * take turns. MB/s are 10^6 bytes of block a second, on one core.
 */
#include <fec.h>
#include <stdint.h>
#include <stdio.h>
#include <stdlib.h>
#include <string.h>
#include <time.h>

#include "gii.h"

enum { STRIPS = 8, N = 255, T0 = 14, T1 = 16, CHECKS = 2 * T0, BLOCK = STRIPS * N, BLOCKS = 16 };

static const uint8_t profile[GII_PROFILE_BYTES] = { STRIPS, 3, N, T0, T1, 18, 24 };

static uint8_t data[BLOCKS][BLOCK], written[BLOCKS][BLOCK], received[BLOCKS][BLOCK];
static uint8_t out[BLOCK], report[GII_REPORT_BYTES];
static uint8_t strips[BLOCKS][STRIPS][N], damaged[BLOCKS][STRIPS][N], work[N];
static void *rs;
static size_t data_size;

static double now(void)
{
    struct timespec t;
    clock_gettime(CLOCK_MONOTONIC, &t);
    return t.tv_sec + 1e-9 * t.tv_nsec;
}

static uint32_t seed = 1;
static uint32_t draw(void) { return (seed = 1664525u * seed + 1013904223u) >> 8; }

static void check(int right, const char *what)
{
    if (!right) {
        fprintf(stderr, "wrong: %s\n", what);
        exit(1);
    }
}

/* Changes in k places of a strip, the same in ours and in libfec's. */
static void damage(int b, int i, int k)
{
    uint8_t hit[N] = { 0 };
    while (k > 0) {
        int p = draw() % N;
        if (hit[p]) continue;
        hit[p] = 1;
        uint8_t e = 1 + draw() % 255;
        received[b][i * N + p] ^= e;
        damaged[b][i][N - 1 - p] ^= e;
        k--;
    }
}

/* How many changes strip i gets in a row of the table. */
enum row { CLEAN, ONE_IN_ONE, T0_IN_ONE, MORE_IN_ONE, T1_IN_ONE, ONE_IN_EACH, T0_IN_EACH };

static int changes(enum row r, int i)
{
    switch (r) {
    case ONE_IN_ONE: return i == 3;
    case T0_IN_ONE: return i == 3 ? T0 : 0;
    case MORE_IN_ONE: return i == 3 ? T0 + 1 : 0;
    case T1_IN_ONE: return i == 3 ? T1 : 0;
    case ONE_IN_EACH: return 1;
    case T0_IN_EACH: return T0;
    default: return 0;
    }
}

static void prepare(enum row r)
{
    memcpy(received, written, sizeof received);
    memcpy(damaged, strips, sizeof damaged);
    for (int b = 0; b < BLOCKS; b++)
        for (int i = 0; i < STRIPS; i++)
            damage(b, i, changes(r, i));
}

static void our_encode(int form)
{
    (void)form;
    for (int b = 0; b < BLOCKS; b++) gii_encode(profile, sizeof profile, data[b], data_size, out, BLOCK);
}

static void our_decode(int form)
{
    for (int b = 0; b < BLOCKS; b++) {
        int number = gii_decode(profile, sizeof profile, received[b], BLOCK, out, BLOCK, form, report, sizeof report);
        check(number == 0 && !memcmp(out, written[b], BLOCK), "a block was not restored");
    }
}

static void fec_encode(void)
{
    for (int b = 0; b < BLOCKS; b++)
        for (int i = 0; i < STRIPS; i++) encode_rs_char(rs, strips[b][i], work);
}

static void fec_decode(void)
{
    for (int b = 0; b < BLOCKS; b++)
        for (int i = 0; i < STRIPS; i++) {
            memcpy(work, damaged[b][i], N);
            decode_rs_char(rs, work, NULL, 0);
        }
}

static double speed(double seconds, int turns) { return 1e-6 * BLOCKS * BLOCK * turns / seconds; }

static void row(const char *name, void (*ours)(int), int form, void (*theirs)(void))
{
    double best = 0, fec = 0;
    int turns = 1;
    for (double t = 0; t < 0.02; turns *= 2) {
        double a = now();
        for (int k = 0; k < turns; k++) ours(form);
        t = now() - a;
    }
    int slow = 1;
    for (double t = 0; t < 0.02; slow *= 2) {
        double a = now();
        for (int k = 0; k < slow; k++) theirs();
        t = now() - a;
    }
    for (int batch = 0; batch < 12; batch++) {
        double a = now();
        for (int k = 0; k < turns; k++) ours(form);
        double b = now();
        for (int k = 0; k < slow; k++) theirs();
        double c = now();
        if (speed(b - a, turns) > best) best = speed(b - a, turns);
        if (speed(c - b, slow) > fec) fec = speed(c - b, slow);
    }
    printf("| %-52s | %8.1f | %8.1f | %6.1f |\n", name, best, fec, best / fec);
    fflush(stdout);
}

static void reading(const char *name, enum row r, int form)
{
    prepare(r);
    row(name, our_decode, form, fec_decode);
}

int main(void)
{
    rs = init_rs_char(8, 0x11d, 1, 1, CHECKS, 0);
    data_size = gii_data_size(profile, sizeof profile);
    check(rs != NULL && data_size == 1784, "the profile");
    for (int b = 0; b < BLOCKS; b++) {
        for (size_t k = 0; k < data_size; k++) data[b][k] = draw();
        check(gii_encode(profile, sizeof profile, data[b], data_size, written[b], BLOCK) == 0,
              "a block was not written");
        for (int i = 0; i < STRIPS; i++) {
            for (int p = 0; p < N; p++) strips[b][i][N - 1 - p] = written[b][i * N + p];
            memcpy(work, strips[b][i], N);
            check(decode_rs_char(rs, work, NULL, 0) == 0, "libfec finds a change in a written strip");
        }
    }
    printf("| %-52s | %8s | %8s | %6s |\n", "profile 8 3 255 14 16 18 24, MB/s", "here", "libfec", "ratio");
    printf("|---|---|---|---|\n");
    row("write", our_encode, 0, fec_encode);
    reading("read, clean block", CLEAN, 0);
    reading("read, one change in one strip", ONE_IN_ONE, 0);
    reading("read, t0 = 14 changes in one strip", T0_IN_ONE, 0);
    reading("read, t0 + 1 = 15 changes in one strip", MORE_IN_ONE, 0);
    reading("read, t1 = 16 changes in one strip, plain", T1_IN_ONE, 0);
    reading("read, t1 = 16 changes in one strip, ahead", T1_IN_ONE, 1);
    reading("read, t1 = 16 changes in one strip, scaled", T1_IN_ONE, 2);
    reading("read, one change in every strip", ONE_IN_EACH, 0);
    reading("read, t0 = 14 changes in every strip", T0_IN_EACH, 0);
    return 0;
}
