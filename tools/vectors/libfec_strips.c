/* Strips of a second Reed-Solomon program, Debian's libfec (package libfec-dev), for the test program test_decode.
 *
 *     cc -O2 libfec_strips.c -lfec -o libfec_strips && ./libfec_strips
 *
 * A strip is a word of n bytes with 2t check bytes, first root alpha^f, over GF(256) modulo 0x11d: a block of the
 * profile 1 0 n t 0 0 0 f, and f is libfec's fcr. libfec encodes the data; some bytes are changed; libfec corrects what
 * comes of it. A line for each strip, position 0 first:
 *
 *     t n f | the strip as it is received | the strip as libfec gives it back, or - where it gives up
 *
 * Up to t changes, what libfec gives back is what it encoded, or the program stops with status 1. Above t, what it
 * gives back counts only if libfec's encoder confirms it and at most t bytes differ: libfec may also change positions
 * past the strip's end, and says nothing of that.
 *
 * Data and changes come from a fixed generator: the output is the same at every run.
 */
#include <fec.h>
#include <stdint.h>
#include <stdio.h>
#include <string.h>

static uint32_t seed = 1;

/* A number below `end`. */
static unsigned below(unsigned end) {
    seed = 1664525 * seed + 1013904223;
    return (unsigned)(((uint64_t)(seed >> 8) * end) >> 24);
}

/* libfec has the highest position first. */
static void print(const unsigned char *word, int n) {
    for (int p = n - 1; p >= 0; p--) printf(" %d", word[p]);
}

static int differences(const unsigned char *x, const unsigned char *y, int n) {
    int count = 0;
    for (int p = 0; p < n; p++) count += x[p] != y[p];
    return count;
}

/* One strip with so many changes, its data random or zero. */
static int strip(int t, int n, int f, int changes, int zero) {
    unsigned char sent[255], received[255], back[255], checks[255];
    int data = n - 2 * t;
    void *code = init_rs_char(8, 0x11d, f, 1, 2 * t, 255 - n);
    if (!code) return 1;
    for (int p = 0; p < data; p++) sent[p] = zero ? 0 : below(256);
    encode_rs_char(code, sent, sent + data);
    memcpy(received, sent, n);
    for (int left = changes; left > 0;) {
        int p = below(n);
        if (received[p] != sent[p]) continue;
        received[p] ^= 1 + below(255);
        left--;
    }
    memcpy(back, received, n);
    int answer = decode_rs_char(code, back, NULL, 0);
    encode_rs_char(code, back, checks);
    int good = answer >= 0 && !memcmp(checks, back + data, 2 * t) && differences(received, back, n) <= t;
    free_rs_char(code);
    if (changes <= t && (!good || memcmp(sent, back, n))) return 1;
    printf("%d %d %d |", t, n, f);
    print(received, n);
    printf(" |");
    if (good) print(back, n); else printf(" -");
    printf("\n");
    return 0;
}

/* Strips of each of these codes t, n, with up to t changes and with more. */
static int strips(const int (*codes)[2], unsigned count, int f) {
    for (unsigned q = 0; q < count; q++) {
        int t = codes[q][0], n = codes[q][1];
        int changes[] = {0, 1, t - 1, t, t, t + 1, t + 2};
        for (unsigned c = 0; c < sizeof changes / sizeof *changes; c++)
            if (changes[c] <= n && strip(t, n, f, changes[c], c == 4)) return 1;
    }
    return 0;
}

int main(void) {
    static const int codes[][2] = {{14, 255}, {14, 204}, {14, 60}, {14, 29}, {1, 3}, {1, 26}, {1, 255}, {2, 5}, {2, 40},
                                   {3, 200}, {5, 11}, {8, 255}, {8, 32}, {16, 255}, {16, 33}, {24, 255}, {24, 128},
                                   {24, 49}};
    static const int fewer[][2] = {{14, 255}, {14, 29}, {1, 3}, {1, 26}, {2, 40}, {5, 11}, {8, 32}, {16, 100},
                                   {24, 255}, {24, 49}};
    static const int others[] = {0, 2, 127, 254};
    if (strips(codes, sizeof codes / sizeof *codes, 1)) return 1;
    for (unsigned q = 0; q < sizeof others / sizeof *others; q++)
        if (strips(fewer, sizeof fewer / sizeof *fewer, others[q])) return 1;
    return 0;
}
