/* Calls the entry of libdrawing.a, prints what it answers, and checks every byte that it was lent: those of the plan, those past it, and guards
 * on both sides. The lines printed are held to the file `stdout` beside this one, which was worked out by hand; the program fails where a check
 * of its own does. */
#include <pthread.h>
#include <stdio.h>
#include <stdlib.h>
#include <string.h>

#include "vorzhadell.h"

#define GUARD 16
#define FILL 0xA5
#define WORDS 40
#define THREADS 8

static int failed;

static void check(int holds, const char *what) {
    if (!holds) {
        printf("FAILED: %s\n", what);
        failed = 1;
    }
}

static uint32_t word_at(const uint8_t *b) {
    return (uint32_t)b[0] << 24 | (uint32_t)b[1] << 16 | (uint32_t)b[2] << 8 | b[3];
}

/* A call with a buffer of so many bytes on the heap, exactly as long as it is said to be, and a copy of the sheet likewise. Returns the
 * result; the buffer after the call is copied to `after`, which has room. */
static uint64_t call(const char *sheet, size_t sheet_len, size_t buffer_len, uint8_t *after) {
    uint8_t *text = malloc(sheet_len + 1);
    uint8_t *room = malloc(GUARD + buffer_len + GUARD);
    if (text == NULL || room == NULL) {
        printf("FAILED: no memory\n");
        exit(1);
    }
    memcpy(text, sheet, sheet_len);
    memset(room, FILL, GUARD + buffer_len + GUARD);
    uint64_t result = vorzhadell_draw(text, sheet_len, room + GUARD, buffer_len);
    check(memcmp(text, sheet, sheet_len) == 0, "the sheet is as it was");
    for (size_t i = 0; i < GUARD; i++) {
        check(room[i] == FILL && room[GUARD + buffer_len + i] == FILL, "the guards are as they were");
    }
    size_t written = VORZHADELL_IS_REFUSAL(result) ? 0 : 4 * (size_t)result;
    check(written <= buffer_len, "the plan fits");
    for (size_t i = written; i < buffer_len; i++) {
        check(room[GUARD + i] == FILL, "the bytes past the plan are as they were");
    }
    memcpy(after, room + GUARD, buffer_len);
    free(text);
    free(room);
    return result;
}

static void print_result(uint64_t result, const uint8_t *buffer) {
    if (VORZHADELL_IS_REFUSAL(result)) {
        printf("refused %u line %u carries %u\n", VORZHADELL_NUMBER(result), VORZHADELL_LINE(result), VORZHADELL_CARRIED(result));
        return;
    }
    if (result == 0) {
        printf("no plan\n");
        return;
    }
    printf("plan");
    for (uint64_t i = 0; i < result; i++) {
        printf(" %08X", word_at(buffer + 4 * i));
    }
    printf("\n");
}

static void show(const char *name, const char *sheet, size_t sheet_len, size_t buffer_len) {
    static uint8_t after[4 * WORDS];
    uint64_t result = call(sheet, sheet_len, buffer_len, after);
    printf("%s: ", name);
    print_result(result, after);
}

#define SHOW(name, sheet) show(name, sheet, sizeof sheet - 1, 4 * WORDS)

/* Every length of a buffer up to that of 40 words and three bytes: short exactly where a word has no room, and then the words needed. */
static void every_length(const char *name, const char *sheet) {
    static uint8_t full[4 * WORDS + 3], after[4 * WORDS + 3];
    uint64_t words = call(sheet, strlen(sheet), sizeof full, full);
    check(words >= 1 && words <= WORDS, "a plan of so many words");
    for (size_t n = 0; n <= sizeof full; n++) {
        uint64_t result = call(sheet, strlen(sheet), n, after);
        if (n / 4 < words) {
            check(result == ((uint64_t)VORZHADELL_SHORT_BUFFER << 32) + words, "12 with the words needed");
        } else {
            check(result == words, "as many words");
            check(memcmp(after, full, 4 * words) == 0, "the same words");
        }
    }
    printf("%s: %u words, every buffer of 0 to %u bytes\n", name, (unsigned)words, (unsigned)sizeof full);
}

static const char *const THREE = "~C(raw,cooked)\n~raw=0\n~cooked=0\n";
static const char *const EIGHT = "C(a,b)\nC(c,d)\nC(e,f)\n~a*b=0\n~a*c=0\n";
static const char *const NINE = "C(a,b)\nC(c,d)\nC(e,f)\n~a*b=0\n~a*c=0\n~b*c=0\n";
static const char *const EIGHT_NAMES = "~a=0\n~b=0\n~c=0\n~d=0\n~e=0\n~f=0\n~g=0\n~h=0\n";
static const char *const NINE_OF_EIGHT = "~a=0\n~b=0\n~c=0\n~d=0\n~e=0\n~f=0\n~g=0\n~h=0\n~a*b=0\n";

static void document_sheets(void) {
    SHOW("P1", "T");
    SHOW("P2", "C(raw,cooked)");
    show("P3", THREE, strlen(THREE), 4 * WORDS);
    SHOW("P4", "~C(raw,cooked)\n~raw=0\n~cooked=0\n<=(raw,cooked)\n");
    SHOW("P5, the fourth line blank", "~C(raw,cooked)\n~raw=0\n~cooked=0\n\n");
    SHOW("P6", "C(a,a) & a=0");
    SHOW("P7", "1=0");
    SHOW("P8", "C(1,1)");
    SHOW("P9", "a=0 | ~a=0");
    SHOW("P10", "~(C(a,b) <-> C(b,a))");
    SHOW("P11", "F -> F -> F");
    SHOW("P12", "T | F & F");
    show("P3 with 15 bytes", THREE, strlen(THREE), 15);
    show("P3 with 16 bytes", THREE, strlen(THREE), 16);
    show("P3 with 19 bytes", THREE, strlen(THREE), 19);
}

/* Eight points and nine, of six names and of eight; plans of seven and eight names have a first word of kind 8. */
static void points_and_names(void) {
    show("eight points", EIGHT, strlen(EIGHT), 4 * WORDS);
    show("nine points", NINE, strlen(NINE), 4 * WORDS);
    show("nine points, no buffer", NINE, strlen(NINE), 0);
    show("no plan, no buffer", "1=0", 3, 0);
    SHOW("seven names, one point", "T | a+b+c+d+e+f+g=0");
    SHOW("seven names, P3's points", "~C(a,b)\n~a=0\n~b=0\nc+d+e+f+g=0\n");
    SHOW("seven names, seven points", "~a=0\n~b=0\n~c=0\n~d=0\n~e=0\n~f=0\n~g=0\n");
    SHOW("seven names, nine points", "~a=0\n~b=0\n~c=0\n~d=0\n~e=0\n~f=0\n~g=0\n~a*b=0\n~a*c=0\n");
    SHOW("seven names, no plan", "a+b+c+d+e+f+g=0");
    SHOW("eight names, the last one's point", "a+b+c+d+e+f+g=0\n~h=0\n");
    show("eight names, eight points", EIGHT_NAMES, strlen(EIGHT_NAMES), VORZHADELL_BYTES);
    show("eight names, eight points, 151 bytes", EIGHT_NAMES, strlen(EIGHT_NAMES), VORZHADELL_BYTES - 1);
    show("eight names, nine points", NINE_OF_EIGHT, strlen(NINE_OF_EIGHT), 4 * WORDS);
    show("eight names, nine points, no buffer", NINE_OF_EIGHT, strlen(NINE_OF_EIGHT), 0);
}

static void refusals(void) {
    SHOW("no byte", "");
    SHOW("blank lines", "\n \r\n\t\n");
    SHOW("refusal 2, line 2", "T\n"
        "                                                                                                                                "
        "                                                                                                                                T\n");
    SHOW("refusal 3, line 2", "T\n  $\n");
    SHOW("refusal 4", "aaaaaaaaaaaaaaaaa=0");
    SHOW("refusal 5", "<=m(a,b)");
    SHOW("refusal 6, the text's end", "T&\n");
    SHOW("refusal 7, line 3", "C(a,b)&C(c,d)&C(e,f)&C(g,h)\n\nC(a,i)\n");
    SHOW("refusal 8", "C(a,a)\nC(a,b)\nC(a,c)\nC(a,d)\nC(b,b)\nC(b,c)\nC(b,d)\nC(c,c)\nC(c,d)\nC(d,d)\na=0\nb=0\nc=0\nd=0\na*b=0\na*c=0|a*d=0\n");
    SHOW("refusal 9", "T\nT\nT\nT\nT\nT\nT\nT\nT\nT\nT\nT\nT\nT\nT\nT\nT\n");
    static char long_sheet[8193];
    memset(long_sheet, ' ', sizeof long_sheet);
    show("8,193 bytes", long_sheet, 8193, 4);
    show("8,192 blanks", long_sheet, 8192, 4);
    memset(long_sheet, '\n', sizeof long_sheet);
    long_sheet[8191] = '$';
    show("the last line of 8,192 bytes", long_sheet, 8192, 4);
    SHOW("a zero byte", "T\0");
}

/* One of several threads at once, with the stack that the header names and 64 KB for this program's own. */
static void *draws_often(void *sheet) {
    uint8_t buffer[VORZHADELL_BYTES];
    uint64_t words = 0;
    for (int i = 0; i < 200; i++) {
        words += vorzhadell_draw(sheet, strlen(sheet), buffer, sizeof buffer);
    }
    return (void *)(words + word_at(buffer + 4));
}

static void threads(void) {
    pthread_attr_t attributes;
    pthread_t thread[THREADS];
    pthread_attr_init(&attributes);
    check(pthread_attr_setstacksize(&attributes, VORZHADELL_STACK + 64 * 1024) == 0, "a stack of this size");
    for (int i = 0; i < THREADS; i++) {
        const char *sheet = i % 2 == 0 ? EIGHT_NAMES : THREE;
        check(pthread_create(&thread[i], &attributes, draws_often, (void *)sheet) == 0, "a thread more");
    }
    for (int i = 0; i < THREADS; i++) {
        void *got;
        pthread_join(thread[i], &got);
        check((uint64_t)got == 200 * (i % 2 == 0 ? 38 : 4) + 0x20000001, "a thread's words");
    }
    pthread_attr_destroy(&attributes);
    printf("%d threads at once\n", THREADS);
}

int main(void) {
    document_sheets();
    points_and_names();
    refusals();
    every_length("P1", "T");
    every_length("P2", "C(raw,cooked)");
    every_length("P3", THREE);
    every_length("eight points", EIGHT);
    every_length("eight names", EIGHT_NAMES);
    threads();
    printf(failed ? "some check failed\n" : "every check holds\n");
    return failed;
}
