/* A small plug-in: reads a sheet from the file that is named, and prints its plan, that there is none, or why the sheet is refused.
 *
 *     cc -I drawing drawing/example.c target/staticlib/libdrawing.a -o target/example && target/example examples/air_lock.sheet
 */
#include <stdio.h>

#include "vorzhadell.h"

/* One byte more than a sheet may have: enough to be told that it is too long. */
static uint8_t sheet[8193];

static uint32_t word_at(const uint8_t *b) {
    return (uint32_t)b[0] << 24 | (uint32_t)b[1] << 16 | (uint32_t)b[2] << 8 | b[3];
}

/* Regions are numbered from 0 by their first place in the sheet. */
static void print_point(unsigned position, uint32_t evaluation) {
    unsigned i;
    printf("point %u: %s", position, evaluation == 0 ? "no region" : "regions");
    for (i = 0; i < 8; i++) {
        if (evaluation >> i & 1) {
            printf(" %u", i);
        }
    }
    printf("\n");
}

/* The kind of a word is in its top four bits; those of the first and the last word are left out here. */
static void print_plan(const uint8_t *words, unsigned count) {
    unsigned i;
    for (i = 0; i < count; i++) {
        uint32_t word = word_at(words + 4 * i);
        if (word >> 28 == 2) {
            print_point(i - 1, word & 0xFF);
        }
        if (word >> 28 == 3) {
            printf("points %u and %u touch\n", (unsigned)(word >> 8 & 0xFF), (unsigned)(word & 0xFF));
        }
    }
}

static const char *reason(unsigned number) {
    switch (number) {
    case VORZHADELL_ALL_BLANK: return "the sheet has no rule";
    case VORZHADELL_LONG_RULE: return "the rule has more than 256 bytes";
    case VORZHADELL_FOREIGN_BYTE: return "this byte has no meaning here";
    case VORZHADELL_LONG_NAME: return "the name has more than 16 bytes";
    case VORZHADELL_MEASURED: return "<=m is not part of the rule language";
    case VORZHADELL_GRAMMAR: return "no rule goes on like this, or it ends too early";
    case VORZHADELL_TOO_MANY_NAMES: return "there are more than 8 names";
    case VORZHADELL_TOO_MANY_ATOMS: return "there are more than 16 different C, <= and =0";
    case VORZHADELL_TOO_MANY_RULES: return "there are more than 16 rules";
    case VORZHADELL_SHORT_BUFFER: return "the buffer is too short for the plan";
    case VORZHADELL_LONG_SHEET: return "the sheet has more than 8,192 bytes";
    case VORZHADELL_TOO_MANY_POINTS: return "the plan has more than 8 points";
    default: return "a refusal that this program does not know";
    }
}

static void print_refusal(uint64_t result) {
    unsigned line = VORZHADELL_LINE(result);
    printf("refused: %s", reason(VORZHADELL_NUMBER(result)));
    if (line != 0) {
        printf(" (line %u, byte %u)", line, VORZHADELL_CARRIED(result));
    } else if (VORZHADELL_CARRIED(result) != 0) {
        printf(" (it has %u)", VORZHADELL_CARRIED(result));
    }
    printf("\n");
}

int main(int argc, char **argv) {
    uint8_t buffer[VORZHADELL_BYTES];
    uint64_t result;
    size_t n;
    FILE *file = argc == 2 ? fopen(argv[1], "rb") : NULL;
    if (file == NULL) {
        fprintf(stderr, "example: name a sheet that can be read\n");
        return 2;
    }
    n = fread(sheet, 1, sizeof sheet, file);
    fclose(file);
    result = vorzhadell_draw(sheet, n, buffer, sizeof buffer);
    if (VORZHADELL_IS_REFUSAL(result)) {
        print_refusal(result);
    } else if (result == 0) {
        printf("no plan\n");
    } else {
        print_plan(buffer, (unsigned)result);
    }
    return 0;
}
