/* Compiles a catalog's image and asks formulas over it:

       example IMAGE TOKENS..

   prints, for the compilation and for each file of tokens, the answer's words
   (the zeros at the end left off) and the twins that it lists; then what two of
   the teaching catalog's kinds multiply to, powers, what becomes of buffers
   that are too short or longer than need be, and what a report prints. */
#include "kind_check.h"

#include <stdio.h>

static uint32_t table[KIND_TABLE_WORDS];
static uint32_t other[KIND_TABLE_WORDS + 1];
static uint16_t twins[KIND_TWINS];
static uint32_t out[KIND_OUT_WORDS];
static uint8_t image[121 * 512];
static size_t image_len;
static uint8_t tokens[128 * KIND_TOKEN_BYTES];

/* The bytes of a file; more than there is room for are left off. */
static size_t read_file(const char *name, uint8_t *to, size_t room)
{
    FILE *file = fopen(name, "rb");
    if (!file)
        return 0;
    size_t n = fread(to, 1, room, file);
    fclose(file);
    return n;
}

/* How many words of the other table hold something else than 54321. */
static size_t written(void)
{
    size_t n = 0;
    for (size_t i = 0; i < KIND_TABLE_WORDS + 1; i++)
        n += other[i] != 54321;
    return n;
}

static void print_answer(const char *what)
{
    size_t n = KIND_OUT_WORDS;
    while (n > 3 && out[n - 1] == 0)
        n--;
    printf("%s:", what);
    for (size_t i = 0; i < n; i++)
        printf(" %u", (unsigned)out[i]);
    if (out[0] == KIND_REFUSED && (out[1] == 44 || out[1] == 48)) {
        printf(", twins");
        for (uint32_t i = 0; i < out[3]; i++)
            printf(" %u", (unsigned)twins[i]);
    }
    printf("\n");
}

/* What a report prints, with the place of the part that it is. */
static void print_report(const char *what, bool is_kind, uint16_t kind)
{
    static const uint8_t word[] = "plain number";
    size_t part[KIND_PART_WORDS];
    kind_report(image, image_len, word, sizeof word - 1, is_kind, kind, part, KIND_PART_WORDS);
    const uint8_t *from = part[0] == KIND_KIND ? image : word;
    printf("%s: %zu bytes at %zu of the %s: \"%.*s\"\n", what, part[2], part[1],
           part[0] == KIND_KIND ? "image" : "word", (int)part[2], (const char *)from + part[1]);
}

int main(int argc, char **argv)
{
    if (argc < 2) {
        fprintf(stderr, "usage: %s IMAGE TOKENS..\n", argv[0]);
        return 2;
    }
    image_len = read_file(argv[1], image, sizeof image);
    kind_compile(image, image_len, table, KIND_TABLE_WORDS, out, KIND_OUT_WORDS);
    print_answer("compile");
    if (out[0] != KIND_COMPILED)
        return 1;

    const uint32_t *rows = table + KIND_ROWS_AT;
    size_t rows_len = 4 * (size_t)table[1];
    for (int i = 2; i < argc; i++) {
        size_t n = read_file(argv[i], tokens, sizeof tokens);
        kind_formula(table, KIND_TABLE_WORDS, rows, rows_len, twins, KIND_TWINS,
                     tokens, n, out, KIND_OUT_WORDS);
        char what[32];
        snprintf(what, sizeof what, "formula %d", i - 1);
        print_answer(what);
    }

    kind_combine(table, KIND_TABLE_WORDS, rows, rows_len, twins, KIND_TWINS,
                 KIND_MUL, 2, 4, out, KIND_OUT_WORDS);
    print_answer("2 times 4");
    kind_power(table, KIND_TABLE_WORDS, twins, KIND_TWINS, 6, 1, 2, out, KIND_OUT_WORDS);
    print_answer("6 to 1/2");
    kind_power(table, KIND_TABLE_WORDS, twins, KIND_TWINS, 7, -1, 1, out, KIND_OUT_WORDS);
    print_answer("7 to -1");
    kind_power_inexact(table, KIND_TABLE_WORDS, twins, KIND_TWINS, 6, out, KIND_OUT_WORDS);
    print_answer("6 to an inexact power");

    /* a short buffer is left as it was, and the call says so */
    out[0] = 77;
    bool told = kind_power(table, KIND_TABLE_WORDS, twins, KIND_TWINS, 6, 1, 2, out, 31);
    printf("31 words: %s, word 0 is %u\n", told ? "told" : "not told", (unsigned)out[0]);

    /* a table one word short is 5 and stays as it was; a longer one keeps its last word */
    for (size_t i = 0; i < KIND_TABLE_WORDS + 1; i++)
        other[i] = 54321;
    kind_compile(image, image_len, other, KIND_TABLE_WORDS - 1, out, KIND_OUT_WORDS);
    print_answer("a table of 9295 words");
    printf("words written: %zu\n", written());
    kind_compile(image, image_len, other, KIND_TABLE_WORDS + 1, out, KIND_OUT_WORDS);
    print_answer("a table of 9297 words");
    printf("words written: %zu, the last is %u\n", written(), (unsigned)other[KIND_TABLE_WORDS]);

    /* a report, and where there is nothing to print */
    print_report("kind 1", true, 1);
    print_report("kind 8", true, 8);
    print_report("kind 9", true, 9);
    print_report("a number", false, 0);
    size_t part[2] = {77, 77};
    told = kind_report(image, image_len, NULL, 0, true, 1, part, 2);
    printf("2 entries: %s, the first is %zu\n", told ? "told" : "not told", part[0]);
    image[600] ^= 1;
    print_report("kind 1 of a damaged image", true, 1);
    return 0;
}
