#include "claims.h"

#include <stdarg.h>
#include <stdio.h>

static int quiet;
static int claims;
static int failed[64];
static int failures;

void be_quiet(void)
{
    quiet = 1;
}

static void tell(const char *before, const char *form, va_list words)
{
    if (!quiet) {
        fputs(before, stdout);
        vprintf(form, words);
        putchar('\n');
    }
}

void say(const char *form, ...)
{
    va_list words;
    va_start(words, form);
    tell("   ", form, words);
    va_end(words);
}

void heading(const char *text)
{
    if (!quiet) {
        printf("\n== %s\n", text);
    }
}

int claim(int held, const char *form, ...)
{
    char before[48];
    va_list words;
    claims++;
    if (!held && failures < (int)(sizeof failed / sizeof failed[0])) {
        failed[failures++] = claims;
    }
    snprintf(before, sizeof before, " > claim %d %s: ", claims, held ? "held" : "DID NOT HOLD");
    va_start(words, form);
    tell(before, form, words);
    va_end(words);
    return held;
}

int verdict(void)
{
    if (!quiet) {
        putchar('\n');
    }
    if (failures == 0 && claims > 0) {
        printf("story: %d claims, all held\n", claims);
        return 0;
    }
    printf("story: %d claims, %d did not hold:", claims, failures);
    for (int i = 0; i < failures; i++) {
        printf(" %d", failed[i]);
    }
    putchar('\n');
    return 1;
}
