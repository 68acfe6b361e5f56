/* Times the product and the plain C methods on a book, and compares what they give: `bench BOOK RUNS` prints a line for each method, its
 * name and the milliseconds of its fastest run, and then `total T`, where T is `none` for a book that is not covered. A method that takes
 * over half a second is run once, and one that takes under five milliseconds ten times as often, since what else the machine does shows in a
 * short time most. The status is 1 where two methods differ in anything.
 */
#include "methods.h"

#include <inttypes.h>
#include <stdio.h>
#include <stdlib.h>

static const double LONG = 500, SHORT = 5; /* milliseconds */
enum { MORE_RUNS = 10 };

/* How often a method is run in a turn, by the time that it took before. */
static int runs_for(double time)
{
    if (time > LONG) {
        return 0;
    }
    return 0 < time && time < SHORT ? MORE_RUNS : 1;
}

/* A turn of each method; false where one fails or gives other than the product. */
static bool run_each(const struct text *text, const struct book *book, struct clearing *expected, double *fastest)
{
    for (size_t method = 0; method < METHOD_COUNT; method++) {
        for (int i = runs_for(fastest[method]); i > 0; i--) {
            if (!method_run(&METHODS[method], text, book, expected, &fastest[method])) {
                return false;
            }
        }
    }
    return true;
}

/* The methods take turns, so that what else the machine does slows all of them. */
static bool run_all(const struct text *text, const struct book *book, int runs, struct clearing *expected, double *fastest)
{
    for (int i = 0; i < runs; i++) {
        if (!run_each(text, book, expected, fastest)) {
            return false;
        }
    }
    return true;
}

static void print_times(const struct clearing *expected, const double *fastest)
{
    for (size_t method = 0; method < METHOD_COUNT; method++) {
        printf("%s %.6f\n", METHODS[method].name, fastest[method]);
    }
    if (expected->covered) {
        printf("total %" PRId64 "\n", expected->total);
    } else {
        printf("total none\n");
    }
}

int main(int argc, char **argv)
{
    static struct text text;
    static struct book book;
    static struct clearing expected;
    static double fastest[METHOD_COUNT];

    if (argc != 3 || atoi(argv[2]) < 1) {
        fprintf(stderr, "usage: %s BOOK RUNS\n", argv[0]);
        return 2;
    }
    if (!book_load(argv[1], &text, &book)) {
        fprintf(stderr, "%s: not a book that can be read\n", argv[1]);
        return 2;
    }
    if (!run_all(&text, &book, atoi(argv[2]), &expected, fastest)) {
        return 1;
    }
    print_times(&expected, fastest);
    return 0;
}
