/* Reads a binary strip, which needs no profile: three wrong bits are mended, four are not. ../rust/binary.rs is the
 * same program; ../expected_binary is what both print. */
#include <stdio.h>
#include <string.h>

#include "gii.h"

int main(void) {
    static const uint8_t bits[] = {1, 0, 1, 0, 1, 1, 0, 1, 1, 0, 0, 0, 0, 1, 0, 1, 1, 1, 0, 1, 1, 1, 0, 1, 1};
    uint8_t strip[sizeof bits], mended[sizeof bits];
    memcpy(strip, bits, sizeof bits);
    strip[0] ^= 1;
    strip[9] ^= 1;
    strip[24] ^= 1;
    int number = gii_decode_binary(strip, sizeof strip, mended, sizeof mended);
    printf("binary strip %d: %s\n", number, memcmp(mended, bits, sizeof bits) == 0 ? "mended" : "not mended");
    strip[3] ^= 1;
    number = gii_decode_binary(strip, sizeof strip, mended, sizeof mended);
    printf("refused %d: %s\n", number, gii_message((uint8_t)number));
    return 0;
}
