/* Counts compared calls. */
#ifndef CHECKS_H
#define CHECKS_H

/* In a run of so many tables, each kind of page, ceiling, test load and answer that is counted has to occur. */
enum { ENOUGH = 200 };

/* Counts one compared call; says what differs, the first few times. */
void check(int same, const char *what);

/* Says how many tables the run has had: in one of ENOUGH, what print_came counts has to have come. */
void end_tables(int tables);

/* Prints how often something came, and checks that it came if it has to. */
void print_came(const char *words, unsigned long count);

/* The same of what has these names, from the first to before the end, four on a line. */
void print_named(int first, int end, const char *const *names, const unsigned long *counts);

/* Prints how many calls agreed and how many did not. Answers whether all agreed. */
int print_checks(void);

#endif
