/* Holds the entry of libdrawing.a to the program floorplan, which loads and asks by the table's own calls: for many sheets made by chance, about
 * a third of them damaged, and for many lengths of the buffer, the number and every byte must be what document 02, T-11, makes of floorplan's
 * text. It shares no code with either. The names of a sheet that is not refused are the runs of letters and digits that are no sign, numbered by
 * first place. Each refusal and each other answer must have come at least once.
 *
 *     compare PROGRAM FILE SHEETS    (FILE is written anew for each sheet)
 */
#include <ctype.h>
#include <stdio.h>
#include <stdlib.h>
#include <string.h>

#include "vorzhadell.h"

#define SHEET 8400
#define ROOM 600

/* ---- sheets by chance */

static uint64_t seed = 20111;

static unsigned drawn(unsigned n) {
    seed ^= seed << 13;
    seed ^= seed >> 7;
    seed ^= seed << 17;
    return (unsigned)((seed >> 20) % n);
}

static char sheet[SHEET];
static size_t sheet_len;
static unsigned names;

static void put(const char *text) {
    while (*text != 0 && sheet_len < SHEET) {
        sheet[sheet_len++] = *text++;
    }
}

static void put_blank(void) {
    static const char *const blanks[] = {"", "", "", "", "", "", " ", "\t"};
    put(blanks[drawn(8)]);
}

static void put_term(unsigned depth) {
    char name[2] = {(char)('a' + drawn(names)), 0};
    put_blank();
    switch (depth == 0 ? 5 + drawn(8) : drawn(8)) {
    case 0: put("-"); put_term(depth - 1); break;
    case 1: put("("); put_term(depth - 1); put("*"); put_term(depth - 1); put(")"); break;
    case 2: put("("); put_term(depth - 1); put("+"); put_term(depth - 1); put(")"); break;
    case 3: put("("); put_term(depth - 1); put(")"); break;
    case 5: put(drawn(2) ? "0" : "1"); break;
    default: put(name); break;
    }
}

/* What two regions have in common, or one without another. */
static void put_pair(void) {
    unsigned first = drawn(names);
    char pair[] = {(char)('a' + first), '*', '-', (char)('a' + (first + 1 + drawn(names)) % (names + 1)), 0};
    if (drawn(2)) {
        memmove(pair + 2, pair + 3, 2);
    }
    put(pair);
}

static void put_formula(unsigned depth) {
    static const char *const signs[] = {"&", "|", "->", "<->"};
    put_blank();
    switch (depth == 0 ? 4 + drawn(10) : drawn(14)) {
    case 0:
    case 1:
    case 2: put("("); put_formula(depth - 1); put(signs[drawn(4)]); put_formula(depth - 1); put(")"); break;
    case 3: put("~"); put_formula(depth - 1); break;
    case 4: put(drawn(8) ? "T" : "F"); break;
    case 5: put("<=("); put_term(2); put(","); put_term(2); put(")"); break;
    case 6:
    case 7: put("~("); put_term(2); put("=0)"); break;
    case 8: put_term(2); put(drawn(2) ? "=0" : "= 0"); break;
    case 9: put("~C("); put_pair(); put(","); put_pair(); put(")"); break;
    default: put("C("); put_term(2); put(","); put_term(2); put(")"); break;
    }
}

/* A fact that asks for points of its own, so that plans of many points come too. */
static void put_fact(void) {
    if (drawn(2)) {
        put("C("); put_pair(); put(","); put_pair(); put(")");
    } else {
        put("~"); put_pair(); put("=0");
    }
}

/* Up to so many names and lines; now and then a name, a line or a sheet that is too long. */
static void make_sheet(void) {
    static const char *const ends[] = {"\n", "\n", "\n", "\r\n", "\n\n", "\n \n"};
    unsigned lines = 1 + drawn(drawn(12) == 0 ? 20 : 12);
    unsigned facts = drawn(3);
    sheet_len = 0;
    names = 1 + drawn(10);
    for (unsigned i = 0; i < lines; i++) {
        if (facts != 0 && drawn(20) != 0) {
            put_fact();
        } else {
            put_formula(drawn(5));
        }
        put(ends[drawn(6)]);
    }
    if (drawn(60) == 0) {
        put("aVeryLongNameOfARegion=0\n");
    }
    if (drawn(60) == 0) {
        sheet_len = 0;
        put(" \t\n\r\n");
    }
    if (drawn(60) == 0) {
        for (unsigned n = 200 + drawn(100); n > 0; n--) {
            put("~");
        }
        put("T\n");
    }
    if (drawn(60) == 0) {
        for (size_t end = 8180 + drawn(24); sheet_len < end;) {
            put("\n");
        }
    }
}

/* The sheet cut off, a byte taken out, a sign put in, or a byte changed. */
static void damage(void) {
    static const char *const signs[] = {"(", ")", ",", "*", "-", "&", "~", "<", "<=", "<=m", "=", "=0", "0", "1", "C", "T", "a", "xyz", " ", "\r", "\n", "$"};
    char tail[SHEET];
    size_t at = drawn((unsigned)sheet_len + 1), left = sheet_len - at;
    unsigned how = drawn(4);
    memcpy(tail, sheet + at, left);
    sheet_len = at;
    if (how == 0) {
        return;
    }
    if (how == 2) {
        put(signs[drawn(sizeof signs / sizeof *signs)]);
    }
    if (how == 3 && left != 0) {
        tail[0] = (char)drawn(256);
    }
    for (size_t i = how == 1; i < left && sheet_len < SHEET; i++) {
        sheet[sheet_len++] = tail[i];
    }
}

/* ---- what the program says of a sheet */

static unsigned refused, line, place, points, words;
static uint32_t word[ROOM];
static char known[16][20];
static unsigned knowns;

/* The number of a name; of one that is not known yet the next. */
static unsigned number_of(const char *name) {
    unsigned i = 0;
    while (i < knowns && strcmp(known[i], name) != 0) {
        i++;
    }
    return i;
}

static void number_names(void) {
    size_t i = 0;
    knowns = 0;
    while (i < sheet_len) {
        char run[SHEET + 1];
        size_t n = 0;
        while (i < sheet_len && isalnum((unsigned char)sheet[i])) {
            run[n++] = sheet[i++];
        }
        run[n] = 0;
        if (n != 0 && n <= 16 && knowns < 16 && (n != 1 || strchr("TFC01", run[0]) == NULL) && number_of(run) == knowns) {
            strcpy(known[knowns++], run);
        }
        i += n == 0;
    }
}

static void fail(const char *what) {
    printf("FAILED: %s, for the sheet\n", what);
    fwrite(sheet, 1, sheet_len, stdout);
    exit(1);
}

static void push(uint32_t w) {
    if (words == ROOM) {
        fail("too many words");
    }
    word[words++] = w;
}

/* A line of the program's text, as words. */
static void take_line(char *text) {
    unsigned a, b;
    char *name;
    if (sscanf(text, "refused %u line %u at %u", &refused, &line, &place) == 3) {
        return;
    }
    if (sscanf(text, "PLAN names=%u points=%u", &a, &points) == 2) {
        push(a <= 6 ? 0x10000000 + a * 256 + points : 0x80000000 + a * 65536 + points);
        return;
    }
    if (sscanf(text, "contact %u %u", &a, &b) == 2) {
        push(0x30000000 + a * 256 + b);
        return;
    }
    if (strncmp(text, "point ", 6) == 0 && (name = strchr(text, ':')) != NULL) {
        uint32_t evaluation = 0;
        for (name = strtok(name + 1, " \n"); name != NULL; name = strtok(NULL, " \n")) {
            evaluation += strcmp(name, "-") == 0 ? 0 : 1u << number_of(name);
        }
        push(0x20000000 + evaluation);
        return;
    }
    if (strcmp(text, "NO PLAN\n") != 0) {
        fail("a line of no such form");
    }
}

static void ask_program(const char *program, const char *path) {
    char command[1000], text[300];
    FILE *file = fopen(path, "wb");
    if (file == NULL || fwrite(sheet, 1, sheet_len, file) != sheet_len || fclose(file) != 0) {
        fail("no file written");
    }
    snprintf(command, sizeof command, "'%s' < '%s' 2> /dev/null", program, path);
    refused = line = place = points = words = 0;
    number_names();
    FILE *said = popen(command, "r");
    if (said == NULL || fgets(text, sizeof text, said) == NULL) {
        fail("nothing said");
    }
    do {
        take_line(text);
    } while (fgets(text, sizeof text, said) != NULL);
    pclose(said);
    if (words != 0) {
        push(0x40000000 + words);
    }
}

/* ---- what the entry must say */

static unsigned came[32], calls;

static uint64_t refusal(unsigned number, unsigned on, unsigned carried) {
    came[number]++;
    return ((uint64_t)number << 32) + ((uint64_t)on << 16) + carried;
}

/* The number; the bytes of `expected` become those of the plan where it is drawn. */
static uint64_t expect(uint8_t *expected, size_t length) {
    if (refused != 0) {
        return refusal(refused, line, place);
    }
    if (words == 0) {
        came[0]++;
        return 0;
    }
    if (points > 8) {
        return refusal(18, 0, points);
    }
    if (length / 4 < words) {
        return refusal(12, 0, words);
    }
    came[31]++;
    for (unsigned i = 0; i < words; i++) {
        for (unsigned k = 0; k < 4; k++) {
            expected[4 * i + k] = (uint8_t)(word[i] >> (24 - 8 * k));
        }
    }
    return words;
}

/* Buffer and sheet are on the heap, exactly as long as they are said to be. */
static void compare(size_t length) {
    uint8_t *text = malloc(sheet_len + 1), *buffer = malloc(length + 1), *expected = malloc(length + 1);
    if (text == NULL || buffer == NULL || expected == NULL) {
        fail("no memory");
    }
    memcpy(text, sheet, sheet_len);
    for (size_t i = 0; i <= length; i++) {
        expected[i] = buffer[i] = (uint8_t)drawn(256);
    }
    uint64_t result = vorzhadell_draw(text, sheet_len, buffer, length);
    if (result != expect(expected, length)) {
        fail("another number");
    }
    if (memcmp(buffer, expected, length + 1) != 0) {
        fail("another byte");
    }
    if (memcmp(text, sheet, sheet_len) != 0) {
        fail("the sheet is not as it was");
    }
    calls++;
    free(text);
    free(buffer);
    free(expected);
}

int main(int argc, char **argv) {
    static const unsigned must_come[] = {0, 1, 2, 3, 4, 5, 6, 7, 8, 9, 12, 15, 18, 31};
    if (argc != 4) {
        printf("compare PROGRAM FILE SHEETS\n");
        return 2;
    }
    for (int n = atoi(argv[3]); n > 0; n--) {
        make_sheet();
        if (drawn(3) == 0) {
            damage();
        }
        ask_program(argv[1], argv[2]);
        size_t needed = 4 * (size_t)words;
        for (size_t more = 0; more < 4; more++) {
            compare(needed + more);
            compare(drawn(200));
            compare(needed > more ? needed - 1 - more : more);
        }
    }
    for (size_t i = 0; i < sizeof must_come / sizeof *must_come; i++) {
        if (came[must_come[i]] == 0) {
            printf("FAILED: the answer %u never came\n", must_come[i]); /* 0 for no plan, 31 for a plan */
            return 1;
        }
    }
    printf("%s sheets, %u calls: no difference\n", argv[3], calls);
    return 0;
}
