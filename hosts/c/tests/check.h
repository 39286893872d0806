/* A test is a program of checks; it says which failed, and ends with how many there were. */
#ifndef TESTS_CHECK_H
#define TESTS_CHECK_H

#include <stdio.h>

static int checks, failures;

#define CHECK(truth) note_check((truth), #truth, __FILE__, __LINE__)

static inline void note_check(int truth, const char *text, const char *file, int line)
{
    checks++;
    if (!truth) {
        failures++;
        printf("%s:%d: failed: %s\n", file, line, text);
    }
}

static inline int end_checks(const char *name)
{
    printf("%s: %d checks, %d failed\n", name, checks, failures);
    return failures == 0 && checks > 0 ? 0 : 1;
}

#endif
