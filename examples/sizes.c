/* Clears the bid book that is named by the argument as the tender site would: first it reserves the space for the book's text and for its
 * award sheet, and warns of a book with many choices of segments; then it writes the book into its space, clears it from there into that of
 * the sheet, and prints the sheet, or the refusal. The samples are by the printed table. */
#include <inttypes.h>
#include <stdio.h>
#include <stdlib.h>

#include "boccelarch.h"
#include "text.h"

/* A book of more choices is warned of. How long a book takes is not known beforehand, only how many choices there are: of the books of
 * bench/RESULTS.md with 5,764,801, the most that a book can have, some take less than 0.1 ms and one more than 100 ms. */
#define MANY_CHOICES UINT64_C(1000000)

struct space {
    uint64_t text_bytes, sheet_bytes;
    uint8_t *text, *sheet;
};

/* Gives the exit status. */
static int clear(const char *name, const struct text *book, struct space *space)
{
    uint64_t place, bytes, number;

    /* Neither is refused by 10: it is proved that the text has exactly the bytes that boccelarch_sizes gives for it, and the sheet no more
     * than those that it gives for the sheet. The sheet can still be refused by 9. */
    number = boccelarch_write(book->bytes, book->length, space->text, space->text_bytes, &place, &bytes);
    if (number == BOCCELARCH_ACCEPTED)
        number = boccelarch_sheet(space->text, space->text_bytes, space->sheet, space->sheet_bytes, &place, &bytes);
    return number == BOCCELARCH_ACCEPTED ? print_sheet(space->sheet, bytes) : refused(name, "book", number, place);
}

int main(int argc, char **argv)
{
    static struct text book;
    struct space space;
    uint64_t place, choices, number;
    int status = 2;

    if (argc != 2) {
        fprintf(stderr, "usage: %s BOOK\n", argv[0]);
        return 2;
    }
    if (!read_text(argv[1], &book))
        return 2;

    number = boccelarch_sizes(book.bytes, book.length, &place, &space.text_bytes, &choices, &space.sheet_bytes);
    if (number != BOCCELARCH_ACCEPTED)
        return refused(argv[1], "book", number, place);
    if (choices > MANY_CHOICES)
        fprintf(stderr, "%s: %" PRIu64 " choices of segments, so that clearing may take long\n", argv[1], choices);

    space.text = malloc(space.text_bytes);
    space.sheet = malloc(space.sheet_bytes);
    if (space.text == NULL || space.sheet == NULL)
        perror(argv[1]);
    else
        status = clear(argv[1], &book, &space);
    free(space.text);
    free(space.sheet);
    return status;
}
