/* Writes a block, damages it, reads it and its data back and fetches a strip. ../rust/main.rs is the same program;
 * ../expected is what both print. */
#include <stdio.h>
#include <stdlib.h>
#include <string.h>

#include "gii.h"

static const uint8_t profile[GII_PROFILE_BYTES] = {8, 3, 255, 14, 16, 18, 24};

/* Changes the first `count` bytes of strip i. */
static void damage(uint8_t *block, size_t i, size_t count) {
    for (size_t p = 0; p < count; p++)
        block[255 * i + p] ^= (uint8_t)(p + 1);
}

/* Reads a damaged block, and says whether it is the one that was written. */
static void read_back(const uint8_t *damaged, const uint8_t *written, size_t size, uint8_t form) {
    uint8_t bytes[GII_REPORT_BYTES] = {0}, kept[GII_REPORT_BYTES] = {0};
    uint8_t *out = calloc(size, 1);
    uint16_t result = gii_decode(profile, sizeof profile, damaged, size, out, size, form, bytes, sizeof bytes);
    if (result == GII_OK) {
        struct gii_report report = gii_report_of(bytes);
        printf("read: last stage %d, %d bytes changed, %d bits wrong, %s\n", report.last_stage, report.changed,
               report.bits, memcmp(out, written, size) == 0 ? "as written" : "not as written");
        for (int i = 0; i < 8; i++)
            if (report.strip[i].mended)
                printf("  strip %d: %d bytes changed, %d bits wrong, settled at stage %d\n", i,
                       report.strip[i].changed, report.strip[i].bits, report.strip[i].stage);
    } else {
        printf("refused %d after stage %d: %s; the report is %s\n", gii_number(result), gii_stage(result),
               gii_message(gii_number(result)), memcmp(bytes, kept, sizeof kept) == 0 ? "as it was" : "changed");
    }
    free(out);
}

int main(void) {
    size_t data_size = gii_data_size(profile, sizeof profile);
    size_t size = gii_block_size(profile, sizeof profile);
    printf("sizes %zu %zu\n", data_size, size);

    uint8_t *data = malloc(data_size), *written = malloc(size), *damaged = malloc(size), *back = malloc(data_size);
    for (size_t k = 0; k < data_size; k++)
        data[k] = (uint8_t)(7 * k + 3);
    printf("write %d\n", gii_encode(profile, sizeof profile, data, data_size, written, size));

    memcpy(damaged, written, size);
    damage(damaged, 0, 5);
    damage(damaged, 3, 16);
    damage(damaged, 6, 20);
    read_back(damaged, written, size, GII_PLAIN);
    read_back(damaged, written, size, GII_LOOKAHEAD);
    read_back(damaged, written, size, GII_SCALED);
    uint16_t result = gii_read(profile, sizeof profile, damaged, size, back, data_size);
    printf("data %d: %s\n", result, memcmp(back, data, data_size) == 0 ? "as given" : "not as given");

    size_t start = gii_fetch_start(profile, sizeof profile, written, size, 1);
    size_t part = gii_fetch_size(profile, sizeof profile, written, size, 1);
    size_t before = gii_fetch_size(profile, sizeof profile, written, size, 0);
    printf("fetch %d: %zu bytes from %zu, %s\n", gii_fetch(profile, sizeof profile, written, size, 1), part, start,
           memcmp(written + start, data + before, part) == 0 ? "the data" : "not the data");

    /* No bytes stand for this profile. */
    int number = gii_encode(NULL, 0, data, data_size, damaged, size);
    printf("no profile: sizes %zu %zu, write %d, %s\n", gii_data_size(NULL, 0), gii_block_size(NULL, 0), number,
           memcmp(damaged, written, size) == 0 ? "the same block" : "another block");

    /* An eighth byte names the first root: alpha^0 here. No first root is called 255. */
    uint8_t other[] = {2, 1, 5, 1, 2, 0, 0, 0}, four[] = {10, 20, 30, 40}, small[10];
    printf("first root 0: write %d,", gii_encode(other, sizeof other, four, sizeof four, small, sizeof small));
    for (size_t k = 0; k < sizeof small; k++)
        printf(" %d", small[k]);
    small[3] ^= 200;
    small[8] ^= 9;
    number = gii_read(other, sizeof other, small, sizeof small, back, sizeof four);
    printf("; data %d: %s\n", number, memcmp(back, four, sizeof four) == 0 ? "as given" : "not as given");
    other[7] = 255;
    printf("refused %d: a first root of 255\n",
           gii_encode(other, sizeof other, four, sizeof four, small, sizeof small));

    /* Three strips with more changes than any strength: after stage 1 there may be two. */
    memcpy(damaged, written, size);
    damage(damaged, 1, 30);
    damage(damaged, 2, 30);
    damage(damaged, 4, 30);
    read_back(damaged, written, size, GII_PLAIN);

    printf("refused %d: no strip 8\n", gii_fetch(profile, sizeof profile, written, size, 8));
    printf("refused %d: a profile of six bytes, size %zu\n",
           gii_encode(profile, 6, data, data_size, written, size), gii_data_size(profile, 6));
    static const uint8_t equal[GII_PROFILE_BYTES] = {3, 2, 8, 1, 2, 2, 0};
    printf("refused %d: a block with equal strengths is not written; stored ones have %zu data bytes\n",
           gii_encode(equal, sizeof equal, data, 14, written, 24), gii_data_size(equal, sizeof equal));
    printf("refused %d: no profile, but no block either\n", gii_decode(NULL, 0, NULL, 0, NULL, 0, GII_PLAIN, NULL, 0));

    free(data);
    free(written);
    free(damaged);
    free(back);
    return 0;
}
