/* The kind check, for C.

   Every function here is proved: for every input it ends, reads and writes
   nothing but what it is lent, and answers as the rules' definitions say.
   crates/exports_c/src/lib.rt has the promises, bindings/README.md the words.

   Link target/staticlib/libexports.a, which `tools/staticlib` writes
   (x86-64 Linux).

   Lent buffers. A buffer is a pointer and its length in elements. All of it
   belongs to the caller before, during and after the call; nothing is kept
   and nothing is allocated. A pointer must be aligned for its type, or its
   length be 0, and buffers of one call must not overlap. Calls on different buffers may run
   at the same time. A compilation takes less than 200 KB of stack, any other
   call less than 16 KB.

   The answer. Each call but kind_report writes 32 words into `out` and returns
   true. An `out` of fewer than 32 words stays as it was, and false is
   returned; the table or twin list is then written all the same.

   word 0      KIND_NUMBER, KIND_KIND, KIND_REFUSED or KIND_COMPILED
   word 1      the kind's index, or the refusal's number; else 0
   word 2      the refusal's place, from 0; else 0
   words 3..   what a refusal returns, in the sequence of its table; where that
               begins with dimensions, words 3 to 26 have them, numerator
               (two's complement) and denominator base by base, an absent
               base as 0 and 1, and word 27 has the grade
   the rest    0

   A number over 32 bits is told as 4294967295: only the length of an image,
   in refusal 1, can be one. */
#ifndef KIND_CHECK_H
#define KIND_CHECK_H

#include <stdbool.h>
#include <stddef.h>
#include <stdint.h>

#ifdef __cplusplus
extern "C" {
#endif

/* Lengths in elements. A shorter table or twin list is refused with 5. */
#define KIND_OUT_WORDS 32
#define KIND_PART_WORDS 3
#define KIND_TABLE_WORDS 9296
#define KIND_TWINS 240
#define KIND_TOKEN_BYTES 12

/* Word 0 of an answer. */
#define KIND_NUMBER 0
#define KIND_KIND 1
#define KIND_REFUSED 2
#define KIND_COMPILED 3

/* Codes of operations, as in tokens. */
#define KIND_ADD 2
#define KIND_SUB 3
#define KIND_MUL 4
#define KIND_DIV 5
#define KIND_DOT 6
#define KIND_WEDGE 7

/* In a refusal: a kind that is not there. */
#define KIND_ABSENT 65535

/* The rows in force of a compiled table are words KIND_ROWS_AT to
   KIND_ROWS_AT + 4 * table[1] of it, four words a row (docs/TABLE.md). Any
   list of rows in that form may be lent in their place. */
#define KIND_ROWS_AT 7696

/* Compiles a catalog image into a table of at least KIND_TABLE_WORDS words.
   KIND_COMPILED, and the table's first KIND_TABLE_WORDS words are written and
   no others; or a refusal, and the table is as it was. */
bool kind_compile(const uint8_t *image, size_t image_len,
                  uint32_t *table, size_t table_len,
                  uint32_t *out, size_t out_len);

/* Kind `left` combined with kind `right` by the code of an operation, KIND_ADD
   to KIND_WEDGE. Refusal 44 writes the kinds that fit into the first entries of
   the twin list, as many as it returns; nothing else writes there. */
bool kind_combine(const uint32_t *table, size_t table_len,
                  const uint32_t *rows, size_t rows_len,
                  uint16_t *twins, size_t twins_len,
                  uint8_t code, uint16_t left, uint16_t right,
                  uint32_t *out, size_t out_len);

/* Kind `base` to the power num / den, which need not be in lowest terms.
   Refusal 48 writes the kinds that fit into the twin list, as 44 does. */
bool kind_power(const uint32_t *table, size_t table_len,
                uint16_t *twins, size_t twins_len,
                uint16_t base, int32_t num, uint32_t den,
                uint32_t *out, size_t out_len);

/* Kind `base` to a power that is known inexactly. */
bool kind_power_inexact(const uint32_t *table, size_t table_len,
                        uint16_t *twins, size_t twins_len,
                        uint16_t base,
                        uint32_t *out, size_t out_len);

/* A formula: 1 to 128 tokens of KIND_TOKEN_BYTES bytes in postfix order.
   KIND_NUMBER, KIND_KIND or a refusal, whose place is its token; 44 and 48
   write the kinds that fit into the twin list. */
bool kind_formula(const uint32_t *table, size_t table_len,
                  const uint32_t *rows, size_t rows_len,
                  uint16_t *twins, size_t twins_len,
                  const uint8_t *tokens, size_t tokens_len,
                  uint32_t *out, size_t out_len);

/* What a report prints for a formula's answer, as a part of what is lent: for a
   kind its id, which stands in the image, the padding left off; for a number
   the whole of the caller's own word. Nothing is copied.

   part[0]     KIND_KIND: it is a part of the image; KIND_NUMBER: of the word
   part[1]     its first byte there, from 0
   part[2]     its length in bytes

   A kind's part is empty, and begins at 0, where the image meets one of the
   refusals 1 to 4 or the kind is past the end. `part[1] + part[2]` is never
   past the end of the slice. True; a `part` of fewer than KIND_PART_WORDS
   entries stays as it was, and false is returned. Where is_kind is false,
   kind may be anything. */
bool kind_report(const uint8_t *image, size_t image_len,
                 const uint8_t *word, size_t word_len,
                 bool is_kind, uint16_t kind,
                 size_t *part, size_t part_len);

#ifdef __cplusplus
}
#endif

#endif
