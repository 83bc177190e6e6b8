// How fast binary strips are read, beside the BCH decoder of IT++ on the same strips in the same run.
//
// BCH(255, 231), which mends three wrong bits. Ours takes a strip of 255 bytes, each 0 or 1, and gives it back mended;
// IT++ takes the same bits in its own vector and gives back the 231 message bits. Neither conversion is timed. A row is
// timed in batches, and the best batch counts; the two take turns. Nanoseconds are for one strip, on one core.
#include <itpp/comm/bch.h>

#include <cstdint>
#include <cstdio>
#include <cstdlib>
#include <cstring>
#include <ctime>

#include "gii.h"

enum { N = 255, T = 3, STRIPS = 64 };

static uint8_t written[STRIPS][N], received[STRIPS][N], out[N];
static itpp::bvec messages[STRIPS], words[STRIPS];
static itpp::BCH *bch;

static double now()
{
    timespec t;
    clock_gettime(CLOCK_MONOTONIC, &t);
    return t.tv_sec + 1e-9 * t.tv_nsec;
}

static uint32_t seed = 1;
static uint32_t draw() { return (seed = 1664525u * seed + 1013904223u) >> 8; }

static void check(bool right, const char *what)
{
    if (!right) {
        std::fprintf(stderr, "wrong: %s\n", what);
        std::exit(1);
    }
}

// Random messages, and their words by IT++; its first bit goes with the highest power.
static void prepare()
{
    for (int i = 0; i < STRIPS; i++) {
        messages[i].set_size(bch->get_k());
        for (int k = 0; k < messages[i].size(); k++) messages[i][k] = draw() % 2;
        words[i] = bch->encode(messages[i]);
        for (int p = 0; p < N; p++) written[i][p] = (uint8_t)(int)words[i][N - 1 - p];
    }
}

// Other bits in k places of strip i.
static void damage(int i, int k)
{
    std::memcpy(received[i], written[i], N);
    while (k > 0) {
        int p = draw() % N;
        if (received[i][p] != written[i][p]) continue;
        received[i][p] ^= 1;
        k--;
    }
}

// The same in every strip. Some strips with more than three wrong bits look like another word: these are drawn again.
static void damage_all(int k)
{
    for (int i = 0; i < STRIPS; i++) {
        do damage(i, k);
        while (k > T && gii_decode_binary(received[i], N, out, N) == 0);
        for (int p = 0; p < N; p++) words[i][N - 1 - p] = received[i][p];
    }
}

static void ours(bool within)
{
    for (int i = 0; i < STRIPS; i++) {
        int number = gii_decode_binary(received[i], N, out, N);
        check(number == (within ? 0 : 17) && (!within || !std::memcmp(out, written[i], N)), "a strip, here");
    }
}

static void theirs(bool within)
{
    itpp::bvec message, valid;
    for (int i = 0; i < STRIPS; i++) {
        bch->decode(words[i], message, valid);
        check(!within || message == messages[i], "a strip, by IT++");
    }
}

static double timed(void (*run)(bool), bool within, int turns)
{
    double a = now();
    for (int t = 0; t < turns; t++) run(within);
    return 1e9 * (now() - a) / turns / STRIPS;
}

int main()
{
    itpp::BCH code(N, T, true);
    bch = &code;
    prepare();
    std::printf("%-28s %10s %10s %8s\n", "one strip of 255 bits, ns", "here", "IT++", "ratio");
    for (int k = 0; k <= T + 1; k++) {
        damage_all(k);
        double best = 1e18, other = 1e18;
        for (int batch = 0; batch < 9; batch++) {
            double a = timed(ours, k <= T, 400), b = timed(theirs, k <= T, 4);
            if (a < best) best = a;
            if (b < other) other = b;
        }
        char name[32];
        std::snprintf(name, sizeof name, k == 1 ? "%d wrong bit" : "%d wrong bits", k);
        std::printf("%-28s %10.1f %10.1f %8.0f\n", name, best, other, other / best);
    }
}
