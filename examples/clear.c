/* Clears the bid book that is named by the first argument: prints its award sheet, or the refusal. The samples are by the printed table, or
 * by the one that is named by the second argument. */
#include <stdio.h>

#include "boccelarch.h"
#include "text.h"

int main(int argc, char **argv)
{
    static struct text book, table;
    uint8_t out[BOCCELARCH_SHEET_BYTES]; /* also enough for a table */
    uint64_t place, bytes, number;

    if (argc != 2 && argc != 3) {
        fprintf(stderr, "usage: %s BOOK [TABLE]\n", argv[0]);
        return 2;
    }
    boccelarch_printed_table(table.bytes, sizeof table.bytes, &place, &table.length);
    if (!read_text(argv[1], &book) || (argc == 3 && !read_text(argv[2], &table)))
        return 2;

    /* A refusal of the sheet does not say of which text it is, so the table is looked at first. */
    number = boccelarch_write_table(table.bytes, table.length, out, sizeof out, &place, &bytes);
    if (number != BOCCELARCH_ACCEPTED)
        return refused(argv[2], "table", number, place);
    number = boccelarch_sheet_by_table(table.bytes, table.length, book.bytes, book.length, out, sizeof out, &place, &bytes);
    if (number != BOCCELARCH_ACCEPTED)
        return refused(argv[1], "book", number, place);
    return print_sheet(out, bytes);
}
