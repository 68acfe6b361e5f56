/* Books read and written, and the book less one bid. */
#include "book.h"

#include <inttypes.h>
#include <stdarg.h>
#include <stdio.h>
#include <string.h>

/* One bid's line, from its bracket to the byte 10; the place after it, or NULL. */
static const char *read_bid(const char *at, struct bid *bid)
{
    int length = 0;

    if (sscanf(at, "(bid %" SCNu64 " %" SCNu64 "%n", &bid->bidder, &bid->carriage, &length) != 2) {
        return NULL;
    }
    at += length;
    memset(&bid->segments[0], 0, sizeof bid->segments[0]);
    for (bid->count = 0; *at == ' '; bid->count++) {
        struct segment *s;

        if (bid->count == SEGMENTS) {
            return NULL;
        }
        s = &bid->segments[bid->count + 1];
        length = 0;
        sscanf(at, " (seg %" SCNu64 " %" SCNu64 " %" SCNu64 " %" SCNd64 ")%n", &s->start, &s->end, &s->unit, &s->fixed, &length);
        if (length == 0) {
            return NULL;
        }
        s->unit += bid->carriage;
        at += length;
    }
    return at[0] == ')' && at[1] == '\n' ? at + 2 : NULL;
}

static bool read_book(const char *text, struct book *book)
{
    int length = 0;
    const char *at;

    sscanf(text, "(demand %" SCNu64 " %" SCNu64 ")\n%n", &book->demand, &book->allowance, &length);
    if (length == 0) {
        return false;
    }
    at = text + length;
    for (book->count = 0; *at != 0; book->count++) {
        if (book->count == BIDS) {
            return false;
        }
        at = read_bid(at, &book->bids[book->count]);
        if (at == NULL) {
            return false;
        }
    }
    return book->count > 0;
}

bool book_load(const char *path, struct text *text, struct book *book)
{
    FILE *file = fopen(path, "rb");
    bool whole;

    if (file == NULL) {
        return false;
    }
    text->length = fread(text->bytes, 1, TEXT_BYTES, file);
    text->bytes[text->length] = 0;
    whole = !ferror(file) && getc(file) == EOF;
    fclose(file);
    return whole && read_book(text->bytes, book);
}

/* Puts what printf would print after the text so far, where it has room. */
__attribute__((format(printf, 2, 3))) static void put(struct text *text, const char *format, ...)
{
    size_t room = sizeof text->bytes - text->length;
    va_list values;
    int length;

    va_start(values, format);
    length = vsnprintf(text->bytes + text->length, room, format, values);
    va_end(values);
    if (length >= 0 && (size_t)length < room) {
        text->length += (size_t)length;
    }
}

static void put_bid(struct text *text, const struct bid *bid)
{
    put(text, "(bid %" PRIu64 " %" PRIu64, bid->bidder, bid->carriage);
    for (size_t j = 1; j <= bid->count; j++) {
        const struct segment *s = &bid->segments[j];

        put(text, " (seg %" PRIu64 " %" PRIu64 " %" PRIu64 " %" PRId64 ")", s->start, s->end, s->unit - bid->carriage, s->fixed);
    }
    put(text, ")\n");
}

void book_write(const struct book *book, struct text *text)
{
    text->length = 0;
    put(text, "(demand %" PRIu64 " %" PRIu64 ")\n", book->demand, book->allowance);
    for (size_t i = 0; i < book->count; i++) {
        put_bid(text, &book->bids[i]);
    }
}

void book_without(const struct book *book, size_t at, struct book *left)
{
    *left = *book;
    left->count--;
    for (size_t i = at; i < left->count; i++) {
        left->bids[i] = book->bids[i + 1];
    }
}
