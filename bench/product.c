/* Times the product alone: `product RUNS BOOK...` prints a line for each book, its path, the milliseconds of the fastest run, and a hash of
 * the answer, so that two archives can be compared.
 *
 * It calls boccelarch_sheet, which has had the same parameters in every commit. An archive from before the allowance refuses these books as
 * not of the shape. Such an archive gets a book whose allowance is 0 in the form that it reads, without one: it is the same tender. A book
 * with an allowance is none that it can clear, and its line has `-` for time and hash. */
#include "boccelarch.h"
#include "book.h"
#include "clock.h"

#include <inttypes.h>
#include <stdio.h>
#include <stdlib.h>
#include <string.h>

struct answer {
    uint64_t number, place, bytes;
    uint8_t sheet[BOCCELARCH_SHEET_BYTES];
};

static double run(const struct text *text, struct answer *a)
{
    double start = milliseconds();

    a->number = boccelarch_sheet((const uint8_t *)text->bytes, text->length, a->sheet, sizeof a->sheet, &a->place, &a->bytes);
    return milliseconds() - start;
}

/* A hash by FNV-1a of a number, after what was hashed before. */
static uint64_t with(uint64_t hash, uint64_t number)
{
    return (hash ^ number) * UINT64_C(1099511628211);
}

/* A hash of the answer: two answers that differ have the same one only by chance. The sheet's first line is left out, since an archive from
 * before the allowance does not show the blanks bought there; they and the total are the sums of what the other lines show. */
static uint64_t made_of(const struct answer *a)
{
    const uint8_t *end = a->bytes == 0 ? NULL : memchr(a->sheet, '\n', a->bytes);
    uint64_t hash = with(with(UINT64_C(14695981039346656037), a->number), a->place);

    for (size_t i = end == NULL ? 0 : (size_t)(end - a->sheet); i < a->bytes; i++) {
        hash = with(hash, a->sheet[i]);
    }
    return hash;
}

/* Makes the text that of the same book without the number for the allowance. */
static void drop_allowance(struct text *text, const struct book *book)
{
    struct text old;
    const char *bids = strchr(text->bytes, '\n');

    old.length = (size_t)snprintf(old.bytes, sizeof old.bytes, "(demand %" PRIu64 ")%s", book->demand, bids);
    *text = old;
}

/* Whether the archive can clear the book: it reads the text, or that without an allowance, which the text then is. */
static bool readable(struct text *text, const struct book *book)
{
    struct answer a;

    run(text, &a);
    if (a.number == BOCCELARCH_SHAPE && book->allowance == 0) {
        drop_allowance(text, book);
        run(text, &a);
    }
    return a.number != BOCCELARCH_SHAPE;
}

int main(int argc, char **argv)
{
    static struct text text;
    static struct book book;

    if (argc < 3 || atoi(argv[1]) < 1) {
        fprintf(stderr, "usage: %s RUNS BOOK...\n", argv[0]);
        return 2;
    }
    for (int k = 2; k < argc; k++) {
        struct answer a;
        double fastest = 0;

        if (!book_load(argv[k], &text, &book)) {
            fprintf(stderr, "%s: not a book that can be read\n", argv[k]);
            return 2;
        }
        if (!readable(&text, &book)) {
            printf("%s - -\n", argv[k]);
            continue;
        }
        for (int i = 0; i < atoi(argv[1]); i++) {
            double time = run(&text, &a);

            fastest = i == 0 || time < fastest ? time : fastest;
        }
        printf("%s %.6f %" PRIx64 "\n", argv[k], fastest, made_of(&a));
    }
    return 0;
}
