/* The entry of the drawing program: a plan of at most 8 points for a sheet of rules (document 02, T-11). C89 with <stdint.h>, and C++.
 *
 * `tools/build drawing`, in the root of a clone, proves the entry and writes target/staticlib/libdrawing.a, for x86-64. It needs no other
 * archive and no flag; one line links it:
 *     cc -I drawing plug_in.c target/staticlib/libdrawing.a -o plug_in
 * drawing/example.c is a whole program.
 */
#ifndef VORZHADELL_H
#define VORZHADELL_H

#include <stddef.h>
#include <stdint.h>

#ifdef __cplusplus
extern "C" {
#endif

/* Reads the rules of the sheet, one a line, and writes the words of their plan into the buffer, four bytes a word, highest byte first.
 *
 * Returns how many words the plan has, 0 where no plan exists, or a refusal: its number times 2^32, its line times 2^16 and its place, or
 * what it carries, added up. A refusal is 2^32 or more, a plan has 38 words at most; the macros below tell them apart and take a refusal
 * apart. Where more than one refusal would do, it is that of the sheet, then 18, then 12.
 *
 * The plan's words are over the first bytes of the buffer. All bytes past them keep their values, and so do all bytes of the buffer where
 * the result is 0 or a refusal. One to three bytes at the end of the buffer that make no word are never written.
 *
 * What the caller owes; nothing looks whether it is so:
 *   - sheet points to sheet_len bytes that can be read, buffer to buffer_len bytes that can be read and written;
 *   - neither pointer is null, also where its length is 0;
 *   - the two have no byte in common, and no other thread writes to either during the call.
 * The sheet may hold any bytes, zeros too, and needs no byte after its last.
 *
 * The entry has no state: it keeps neither pointer, allocates nothing, and may be called from any number of threads at once, each with a
 * buffer of its own. Each call needs some 110 KB of stack: 110,023 bytes at most were measured, for sheets of eight names, of sixteen rules
 * and of rules nested as deep as they can be, too. Leave it VORZHADELL_STACK.
 */
uint64_t vorzhadell_draw(const uint8_t *sheet, size_t sheet_len, uint8_t *buffer, size_t buffer_len);

/* How many points a plan may have here, and how many bytes hold every such plan: 1 + 8 + 28 + 1 words. */
#define VORZHADELL_POINTS 8
#define VORZHADELL_BYTES (38 * 4)

#define VORZHADELL_STACK (256 * 1024)

/* A result: whether it is a refusal, and then its number, its line from 1 (0 where it has none), and its place in the line from 0, or what
 * it carries. */
#define VORZHADELL_IS_REFUSAL(result) ((result) >> 32 != 0)
#define VORZHADELL_NUMBER(result) ((unsigned)((result) >> 32))
#define VORZHADELL_LINE(result) ((unsigned)((result) >> 16 & 0xFFFF))
#define VORZHADELL_CARRIED(result) ((unsigned)((result) & 0xFFFF))

/* The numbers of the refusals. */
#define VORZHADELL_ALL_BLANK 1 /* no byte, or every line is blank; line 0, place 0 */
#define VORZHADELL_LONG_RULE 2 /* a rule of more than 256 bytes; place 256 */
#define VORZHADELL_FOREIGN_BYTE 3 /* a byte that has no meaning there; its place */
#define VORZHADELL_LONG_NAME 4 /* a name of more than 16 bytes; the place of its first */
#define VORZHADELL_MEASURED 5 /* "<=m", which is not part of this product; the place of its first byte */
#define VORZHADELL_GRAMMAR 6 /* what stands up to here begins no rule: the place of a token's first byte; or the line ends early: its length */
#define VORZHADELL_TOO_MANY_NAMES 7 /* a ninth name; the place of its first byte */
#define VORZHADELL_TOO_MANY_ATOMS 8 /* more than 16 different C, <= and =0 in all; place 0 */
#define VORZHADELL_TOO_MANY_RULES 9 /* more than 16 rules; place 0 */
#define VORZHADELL_SHORT_BUFFER 12 /* the plan has more words than the buffer; line 0, and the words needed */
#define VORZHADELL_LONG_SHEET 15 /* more than 8,192 bytes; line 0, place 0 */
#define VORZHADELL_TOO_MANY_POINTS 18 /* the plan has more than 8 points; line 0, and its points */

#ifdef __cplusplus
}
#endif

#endif
