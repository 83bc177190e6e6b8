/*
 * gii.h: blocks of nested Reed-Solomon strips (generalized integrated interleaved codes) over GF(256), for C and C++.
 *
 * docs/FORMAT.md defines blocks and answers; its clauses are cited here. The functions are those of the crate `gii`,
 * which is proved to keep the promises below for every input: crates/gii/src/lib.rt states them,
 * crates/gii/specs/Definition.antt says what they mean. The crate `gii_c` exports them, and is proved to promise the
 * same. The inline functions at the end are no part of that: they only take apart what was returned. `rt lib` in the
 * folder crates/gii_c writes the static library out/libgii_c.a, which callers link as libgii.a, for x86-64 Linux: less
 * than 128 KiB of code and constants, which ask for memcpy and memset and nothing else.
 *
 * Buffers. Each one is a pointer and the number of its bytes. Any number is allowed: a wrong one is refused by number
 * and does no harm. The pointer must be to that many bytes that may be read (and written, where it is not const); a
 * buffer of 0 bytes is not touched, and its pointer may be NULL. A buffer that is written must not share bytes with
 * another buffer of the same call; those that are only read may. A call that refuses changes no byte of any buffer.
 *
 * Nothing is kept between calls and nothing is allocated, so that threads may call at the same time. A call needs less
 * than 80 KiB of stack (measured, not proved: 74 KiB in gii_read).
 *
 * The seven bytes of a profile are m (how many strips), v (how many nested sums), n (bytes of a strip) and t0, t1, t2,
 * t3 (strengths). A block has m x n bytes, its strips one after the other; each strip begins with its check bytes, and
 * its other bytes are data. At stage r of reading a strip with at most t_r changed bytes is mended. There may be an
 * eighth byte f, from 0 to 254: the roots of the codes begin with alpha^f. Seven bytes mean f = 1. A profile of 0
 * bytes, whose pointer may be NULL, stands for 8 3 255 14 16 18 24: 1784 data bytes in a block of 2040.
 */
#ifndef GII_H
#define GII_H

#include <stddef.h>
#include <stdint.h>

#ifdef __cplusplus
extern "C" {
#endif

/* The version of this interface. Within it names, numbers and sizes are only ever added, and a report only grows. */
#define GII_VERSION 1

/*
 * The bytes of a profile that is not left out (one more with the eighth byte) and of a report, and the most bytes of a
 * block and of its data.
 */
enum {
    GII_PROFILE_BYTES = 7,
    GII_REPORT_BYTES = 45,
    GII_BLOCK_MAX = 2040,
    GII_DATA_MAX = 2024
};

/*
 * The numbers of answers. The questions are asked in this order, and the first that is answered by no gives its number
 * (FORMAT 4).
 */
enum {
    GII_OK = 0,                 /* every question was answered by yes */
    GII_E_PROFILE_BYTES = 1,    /* has the profile seven bytes, or eight, or none? */
    GII_E_STRIPS = 2,           /* is m at least 1 and at most 8? */
    GII_E_NESTED = 3,           /* is v at most 3, and less than m? */
    GII_E_STRENGTHS = 4,        /* are the strengths in order: 1 <= t0 < t1 <= .. <= tv <= 24, and 0 after tv? */
    GII_E_EQUAL_STRENGTHS = 15, /* do the strengths rise: t1 < .. < tv? gii_encode */
    GII_E_LENGTH = 5,           /* is n greater than 2 x tv? has a binary strip 1 to 255 bytes? */
    GII_E_FIRST_ROOT = 14,      /* is f, if there is an eighth byte, at most 254? */
    GII_E_INPUT_BYTES = 6,      /* has the input the size of the data (gii_encode) or of a block (all others)? */
    GII_E_OUTPUT_BYTES = 7,     /* has the output the size of the data (gii_read), of the strip (gii_decode_binary) or
                                   of a block (all others)? */
    GII_E_UNSETTLED = 8,        /* are all strips settled when decoding ends? gii_decode and gii_read */
    GII_E_NOT_CODEWORD = 9,     /* is the block then a codeword? gii_decode and gii_read */
    GII_E_STRIP = 10,           /* is the number of the strip less than m? gii_fetch */
    GII_E_NOT_BINARY = 16,      /* is every byte of the strip 0 or 1? gii_decode_binary */
    GII_E_UNCORRECTABLE = 17    /* is there a word of the code within three wrong bits? gii_decode_binary */
};

/*
 * The data bytes of a block (at most GII_DATA_MAX) and all its bytes (at most GII_BLOCK_MAX). 0 exactly if the profile
 * is refused by 1 to 5 or 14: an accepted one never has 0. They are the sizes for whoever reads, so that stored blocks
 * with equal strengths keep theirs; gii_encode may still answer 15.
 */
size_t gii_data_size(const uint8_t *profile, size_t profile_size);
size_t gii_block_size(const uint8_t *profile, size_t profile_size);

/*
 * Writes to out the block with the given data: the one codeword whose data bytes, strip after strip, are these.
 * data_size must be gii_data_size and out_size gii_block_size. Returns 0, or 1 to 7, 14 or 15.
 */
uint8_t gii_encode(const uint8_t *profile, size_t profile_size, const uint8_t *data, size_t data_size,
                   uint8_t *out, size_t out_size);

/*
 * Reads a block, which may have changed since it was written, and writes its data, in the order in which they were
 * written. What is accepted is always the data of a codeword. block_size must be gii_block_size and data_size
 * gii_data_size. Returns a result: its number is 0, or 1 to 9 or 14 (gii_number), and with 8 it says the stage after
 * which reading ended (gii_stage).
 */
uint16_t gii_read(const uint8_t *profile, size_t profile_size, const uint8_t *block, size_t block_size,
                  uint8_t *data, size_t data_size);

/*
 * The solver that gii_decode reads with: three forms of one algorithm, and any other number is GII_PLAIN. Results,
 * bytes and reports are the same with each of them, always. Nothing else of the solver can be seen from C, so that no
 * promise binds which form was taken; they differ in speed.
 */
enum { GII_PLAIN = 0, GII_LOOKAHEAD = 1, GII_SCALED = 2 };

/*
 * Reads the block input as gii_read does, and writes it mended to out, with a report. input_size and out_size must be
 * gii_block_size. Returns a result as gii_read does.
 *
 * An accepted reading writes the report as GII_REPORT_BYTES bytes (FORMAT 7.8), which gii_report_of takes apart. A
 * report buffer may have any size: a shorter one gets the first bytes of the report, and the bytes of a longer one past
 * the report keep their value. Later versions only append bytes: the first 27 are the whole report of libraries from
 * before wrong bits were counted, and a buffer of 27 bytes gets just these.
 */
uint16_t gii_decode(const uint8_t *profile, size_t profile_size, const uint8_t *input, size_t input_size,
                    uint8_t *out, size_t out_size, uint8_t form, uint8_t *report, size_t report_size);

/*
 * The data of strip i, where they stand in the caller's block: gii_fetch_size bytes from block + gii_fetch_start on
 * (FORMAT 5). Nothing is mended; of the block only the size is judged. gii_fetch returns 0, or 1 to 6, 10 or 14. The
 * size is 0 exactly if gii_fetch refuses, and the start is then 0 too.
 */
uint8_t gii_fetch(const uint8_t *profile, size_t profile_size, const uint8_t *block, size_t block_size, size_t i);
size_t gii_fetch_start(const uint8_t *profile, size_t profile_size, const uint8_t *block, size_t block_size, size_t i);
size_t gii_fetch_size(const uint8_t *profile, size_t profile_size, const uint8_t *block, size_t block_size, size_t i);

/*
 * Decodes a binary strip: 1 to 255 bytes, each 0 or 1, that need no profile (FORMAT 11). Writes to out, which has as
 * many bytes, the one strip that has at most three other bits and is in the binary code of strength 3: its values at
 * alpha^1 to alpha^6 are zero. Returns 0, or 5, 7, 16 or 17.
 */
uint8_t gii_decode_binary(const uint8_t *strip, size_t strip_size, uint8_t *out, size_t out_size);

/* ---- what was returned, taken apart */

/* The number of a result. */
static inline uint8_t gii_number(uint16_t result) { return (uint8_t)(result & 255); }

/* The stage of a result with number 8, 0 with any other. */
static inline uint8_t gii_stage(uint16_t result) { return (uint8_t)(result >> 8); }

/* What a number says, in English. */
static inline const char *gii_message(uint8_t number) {
    switch (number) {
    case GII_OK: return "accepted";
    case GII_E_PROFILE_BYTES: return "the profile has neither 7 nor 8 nor 0 bytes";
    case GII_E_STRIPS: return "the number of strips is not from 1 to 8";
    case GII_E_NESTED: return "the number of nested sums is above 3, or not below the number of strips";
    case GII_E_STRENGTHS: return "the strengths are not in order";
    case GII_E_EQUAL_STRENGTHS: return "two strengths are equal; such blocks are read, and no longer written";
    case GII_E_LENGTH: return "a strip has too few bytes for its strength";
    case GII_E_FIRST_ROOT: return "the exponent of the first root is 255";
    case GII_E_INPUT_BYTES: return "the input has the wrong size";
    case GII_E_OUTPUT_BYTES: return "the output has the wrong size";
    case GII_E_UNSETTLED: return "too many strips have too many changes";
    case GII_E_NOT_CODEWORD: return "the mended block is no codeword";
    case GII_E_STRIP: return "there is no such strip";
    case GII_E_NOT_BINARY: return "a byte of a binary strip is neither 0 nor 1";
    case GII_E_UNCORRECTABLE: return "a binary strip has more than three wrong bits";
    default: return "no number of this interface";
    }
}

/* The report of a reading. A strip that is not mended is clean; so are the strips that the profile does not have. */
struct gii_report {
    uint8_t last_stage; /* the last stage entered */
    uint16_t changed;   /* how many bytes of the block were changed */
    struct {
        uint8_t mended;  /* 0 or 1 */
        uint8_t changed; /* how many of its bytes were changed */
        uint8_t stage;   /* the stage that settled it */
        uint16_t bits;   /* how many of its bits were wrong: ones in received byte exclusive-or mended byte, added */
    } strip[8];
    uint16_t bits; /* how many bits of the block were wrong */
};

/* The report of these GII_REPORT_BYTES bytes. */
static inline struct gii_report gii_report_of(const uint8_t *bytes) {
    struct gii_report report;
    int i;
    report.last_stage = bytes[0];
    report.changed = (uint16_t)(256 * bytes[1] + bytes[2]);
    for (i = 0; i < 8; i++) {
        report.strip[i].mended = bytes[3 + 3 * i];
        report.strip[i].changed = bytes[4 + 3 * i];
        report.strip[i].stage = bytes[5 + 3 * i];
        report.strip[i].bits = (uint16_t)(256 * bytes[29 + 2 * i] + bytes[30 + 2 * i]);
    }
    report.bits = (uint16_t)(256 * bytes[27] + bytes[28]);
    return report;
}

#ifdef __cplusplus
}
#endif

#endif
