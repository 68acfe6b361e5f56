/* The product and the plain C methods under one form, timed and compared. */
#ifndef METHODS_H
#define METHODS_H

#include "book.h"

struct method {
    const char *name;
    bool (*clear)(const struct text *text, const struct book *book, struct clearing *out);
};

enum { PRODUCT, EXHAUSTIVE, BOUNDED, DYNAMIC, METHOD_COUNT };

extern const struct method METHODS[METHOD_COUNT];

/* Runs a method once on a book and lowers *fastest to its milliseconds, where it is 0 or more than they; false, with a line on standard
 * error, where the method fails or gives other than *expected. The product is to be run first: it sets *expected. */
bool method_run(const struct method *method, const struct text *text, const struct book *book, struct clearing *expected, double *fastest);

#endif
