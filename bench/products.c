/* Products by one value in three ways, side by side: by a row of 256 products, by half-byte tables of 32 bytes, and by
 * the bits of the other factor, with no table.
 *
 * A call makes the tables that it needs, and multiplies a word or takes its value by Horner's rule. Every way is held
 * to a product of polynomials first. The ways take turns in batches, and the best batch counts, on one core.
 */
#include <stdint.h>
#include <stdio.h>
#include <stdlib.h>
#include <time.h>

/* Of the crate bench_products: by a row if way is 0, by half bytes if it is 1, by bits if it is 2. */
extern void multiple(uint8_t way, uint8_t c, const uint8_t *from, size_t n, uint8_t *to, size_t m);
extern uint8_t value(uint8_t way, uint8_t w, const uint8_t *word, size_t n);

enum { WAYS = 3, N = 255, CALLS = 2000, BATCHES = 60 };

static uint8_t from[N], to[N];
static volatile uint8_t sink;

static double now(void)
{
    struct timespec t;
    clock_gettime(CLOCK_THREAD_CPUTIME_ID, &t);
    return 1e9 * t.tv_sec + t.tv_nsec;
}

/* The product of two polynomials, modulo 285. */
static uint8_t product(uint8_t a, uint8_t b)
{
    unsigned p = 0;
    for (int i = 0; i < 8; i++)
        if (b >> i & 1) p ^= (unsigned)a << i;
    for (int i = 14; i > 7; i--)
        if (p >> i & 1) p ^= 285u << (i - 8);
    return p;
}

static void check(int right, const char *what)
{
    if (!right) {
        fprintf(stderr, "wrong: %s\n", what);
        exit(1);
    }
}

/* All factors, and words of all lengths up to N; words of different lengths are left as they are. */
static void check_all(void)
{
    for (int c = 0; c < 256; c++)
        for (int k = 0; k < WAYS; k++) {
            size_t n = c % (N + 1);
            uint8_t at = 0;
            for (int i = 0; i < N; i++) to[i] = 3 * i;
            multiple(k, c, from, n, to, n);
            multiple(k, c, from, N, to, N - 1);
            multiple(k, c, from, N - 1, to, N);
            for (size_t i = 0; i < N; i++)
                check(to[i] == (uint8_t)(3 * i ^ (i < n ? product(c, from[i]) : 0)), "a multiple of a word");
            for (size_t i = n; i > 0; i--) at = product(c, at) ^ from[i - 1];
            check(value(k, c, from, n) == at, "the value of a word");
        }
}

static void multiply(int k, size_t n)
{
    for (int i = 0; i < CALLS; i++) multiple(k, i % 254 + 2, from, n, to, n);
}

static void evaluate(int k, size_t n)
{
    for (int i = 0; i < CALLS; i++) sink = value(k, i % 254 + 2, from, n);
}

static void row(const char *name, void (*calls)(int, size_t), size_t n)
{
    double best[WAYS] = { 1e9, 1e9, 1e9 };
    for (int batch = 0; batch < BATCHES; batch++)
        for (int k = 0; k < WAYS; k++) {
            double a = now();
            calls(k, n);
            double ns = (now() - a) / CALLS;
            if (ns < best[k]) best[k] = ns;
        }
    printf("| %-52s | %8.1f | %10.1f | %6.1f |\n", name, best[0], best[1], best[2]);
    fflush(stdout);
}

int main(void)
{
    for (int i = 0; i < N; i++) from[i] = 7 * i + 1;
    check_all();
    printf("| %-52s | %8s | %10s | %6s |\n", "a call for another factor each time, ns", "row", "half bytes", "bits");
    printf("|---|---|---|---|\n");
    row("multiple of 16 symbols", multiply, 16);
    row("multiple of 49 symbols", multiply, 49);
    row("multiple of 255 symbols", multiply, 255);
    row("value of 2 symbols", evaluate, 2);
    row("value of 15 symbols", evaluate, 15);
    row("value of 25 symbols", evaluate, 25);
    return 0;
}
