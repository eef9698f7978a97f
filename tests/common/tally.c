/* Groups of cases, and figures, counted and told. */
#include "tally.h"

#include <stdarg.h>
#include <stdio.h>

enum { SHOWN = 5 };

static const char *program = "";
static char group[256];
static long cases, wrong, all_cases;
static int passed, failed;

void tally_begin(const char *name)
{
    program = name;
    setvbuf(stdout, NULL, _IOLBF, BUFSIZ);
}

static void count(int ok)
{
    passed += ok;
    failed += !ok;
}

void group_begin(const char *name, ...)
{
    va_list values;
    va_start(values, name);
    vsnprintf(group, sizeof group, name, values);
    va_end(values);
    cases = wrong = 0;
}

/* A group in which nothing was tried has shown nothing, and fails. */
void group_end(void)
{
    int ok = cases > 0 && wrong == 0;
    printf("%s: %s: %ld cases", program, group, cases);
    if (ok)
        printf("\n");
    else
        printf(", %ld wrong: FAILED\n", wrong);
    count(ok);
    all_cases += cases;
}

const char *group_name(void)
{
    return group;
}

int case_wrong(int right)
{
    cases++;
    if (right || wrong++ >= SHOWN)
        return 0;
    printf("%s: %s: ", program, group);
    return 1;
}

long tally_cases(void)
{
    return all_cases;
}

void figure(int right, const char *what, ...)
{
    va_list values;
    va_start(values, what);
    printf("%s: ", program);
    vprintf(what, values);
    printf("%s\n", right ? "" : ": FAILED");
    va_end(values);
    count(right);
}

int tally_end(void)
{
    printf("%d passed, %d failed\n", passed, failed);
    return failed != 0;
}
