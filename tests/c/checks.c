/* Counts compared calls: see checks.h. */
#include "checks.h"

#include <stdio.h>

static unsigned long passed, failed;

void check(int same, const char *what)
{
    if (same) {
        passed++;
    } else if (++failed <= 10) {
        printf("differs: %s\n", what);
    }
}

/* Whether the run is long enough for all that has to occur. */
static int required;

void end_tables(int tables)
{
    required = tables >= ENOUGH;
}

void print_came(const char *words, unsigned long count)
{
    printf(" %s %lu", words, count);
    if (required) check(count > 0, "an answer that has to occur does not");
}

void print_named(int first, int end, const char *const *names, const unsigned long *counts)
{
    int i;
    for (i = first; i < end; i++) {
        printf((i - first) % 4 ? "," : " ");
        print_came(names[i], counts[i]);
        if ((i - first) % 4 == 3 || i == end - 1) printf("\n");
    }
}

int print_checks(void)
{
    printf("%lu passed, %lu failed\n", passed, failed);
    return failed == 0;
}
