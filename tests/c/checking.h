/* What a test counts, and what it tells of a failure. */
#ifndef CHECKING_H
#define CHECKING_H
#include <stdio.h>

static unsigned failures, checks;

static void check(int good, const char *what, int line)
{
    checks++;
    if (good)
        return;
    failures++;
    printf("line %d: %s\n", line, what);
}
#define CHECK(what) check((what), #what, __LINE__)

#endif
