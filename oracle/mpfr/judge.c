/* Judges square roots: records of kind 1 against answer lines, by MPFR. */

#include <inttypes.h>
#include <mpfr.h>
#include <stdint.h>
#include <stdio.h>
#include <stdlib.h>
#include <string.h>

#define SIGN UINT64_C(0x8000000000000000)
#define INFINITY_BITS UINT64_C(0x7ff0000000000000)
#define NAN_BITS UINT64_C(0x7ff8000000000000)

static int read_word(FILE *file, uint64_t *word) {
    unsigned char bytes[8];
    size_t count = fread(bytes, 1, 8, file);
    if (count == 0) return 0;
    if (count < 8) {
        fprintf(stderr, "a record is cut short\n");
        exit(2);
    }
    *word = 0;
    for (int i = 0; i < 8; i++) *word = *word << 8 | bytes[i];
    return 1;
}

static int read_root(FILE *file, uint64_t *x) {
    uint64_t kind;
    if (!read_word(file, &kind)) return 0;
    if (kind != 1 || !read_word(file, x)) {
        fprintf(stderr, "a record that is no root\n");
        exit(2);
    }
    return 1;
}

/* The root of a finite number above zero. Subnormal inputs are exact in 53
   bits, and no root is subnormal, so a double takes the result unrounded. */
static uint64_t rounded_root(uint64_t bits, mpfr_t x, mpfr_t y) {
    double number;
    memcpy(&number, &bits, 8);
    mpfr_set_d(x, number, MPFR_RNDN);
    mpfr_sqrt(y, x, MPFR_RNDN);
    number = mpfr_get_d(y, MPFR_RNDN);
    memcpy(&bits, &number, 8);
    return bits;
}

static uint64_t expected_root(uint64_t bits, mpfr_t x, mpfr_t y) {
    uint64_t size = bits & ~SIGN;
    if (size == 0) return bits;
    if (size > INFINITY_BITS || bits & SIGN) return NAN_BITS;
    if (size == INFINITY_BITS) return bits;
    return rounded_root(bits, x, y);
}

static FILE *opened(const char *name) {
    FILE *file = fopen(name, "rb");
    if (!file) {
        perror(name);
        exit(2);
    }
    return file;
}

int main(int argc, char **argv) {
    if (argc != 3) {
        fprintf(stderr, "usage: judge RECORDS LINES\n");
        return 2;
    }
    FILE *records = opened(argv[1]), *lines = opened(argv[2]);
    mpfr_t x, y;
    mpfr_init2(x, 53);
    mpfr_init2(y, 53);
    uint64_t bits;
    uintmax_t judged = 0, differ = 0;
    char line[64], right[64];
    while (read_root(records, &bits)) {
        uint64_t root = expected_root(bits, x, y);
        snprintf(right, sizeof right, "%016x %016" PRIx64 "\n", 0, root);
        if (!fgets(line, sizeof line, lines)) {
            printf("no line for record %ju\n", judged + 1);
            differ++;
            break;
        }
        judged++;
        if (strcmp(line, right) != 0 && differ++ == 0)
            printf("record %ju, root of %016" PRIx64 ": expected %sgot %s", judged, bits, right, line);
    }
    if (fgets(line, sizeof line, lines)) {
        printf("more lines than records\n");
        differ++;
    }
    printf("%ju judged, %ju differ\n", judged, differ);
    return differ > 0;
}
