/* For the tests in C: counts the checks, and prints a line for each that fails. */
#ifndef CHECKS_H
#define CHECKS_H

#include <inttypes.h>
#include <stdio.h>

static unsigned long passed, failed;
static char situation[160]; /* the call that is being checked, for the line of a failure */

static void expect_number(const char *what, uint64_t expected, uint64_t got)
{
    if (got == expected) {
        passed++;
        return;
    }
    failed++;
    printf("%s: %s: expected %" PRIu64 ", got %" PRIu64 "\n", situation, what, expected, got);
}

#endif
