#include "expression.h"

#include <ctype.h>
#include <stdint.h>
#include <string.h>

typedef struct {
    const char *at;
    int names_are_zero;
    int failed;
} reader;

typedef struct {
    const char *sign;
    int strength;
} operator_sign;

/* Longer signs first, so that "<=" is not read as "<". */
static const operator_sign operators[] = {
    {"||", 1}, {"&&", 2}, {"==", 6}, {"!=", 6}, {"<=", 7}, {">=", 7}, {"<<", 8}, {">>", 8}, {"|", 3},
    {"^", 4},  {"&", 5},  {"<", 7},  {">", 7},  {"+", 9},  {"-", 9},  {"*", 10}, {"/", 10}, {"%", 10},
};

static long long conditional(reader *r);

static long long fail(reader *r)
{
    r->failed = 1;
    return 0;
}

static void skip_space(reader *r)
{
    while (isspace((unsigned char)*r->at)) {
        r->at++;
    }
}

static long long in_range(reader *r, long long value)
{
    return value < INT32_MIN || value > INT32_MAX ? fail(r) : value;
}

static int digit_value(char c)
{
    static const char digits[] = "0123456789abcdef";
    const char *found = c == '\0' ? NULL : strchr(digits, tolower((unsigned char)c));
    return found == NULL ? 16 : (int)(found - digits);
}

static long long number(reader *r)
{
    long long value = 0;
    int base = 10;
    if (r->at[0] == '0' && tolower((unsigned char)r->at[1]) == 'x') {
        base = 16;
        r->at += 2;
    } else if (r->at[0] == '0') {
        base = 8;
    }
    for (; digit_value(*r->at) < base; r->at++) {
        value = in_range(r, value * base + digit_value(*r->at));
    }
    /* A suffix would make it another type, and a letter or a point another number. */
    return isalnum((unsigned char)*r->at) || *r->at == '.' ? fail(r) : value;
}

static long long name(reader *r)
{
    while (isalnum((unsigned char)*r->at) || *r->at == '_') {
        r->at++;
    }
    return r->names_are_zero ? 0 : fail(r);
}

static long long in_brackets(reader *r)
{
    long long value;
    r->at++;
    value = conditional(r);
    skip_space(r);
    if (*r->at != ')') {
        return fail(r);
    }
    r->at++;
    return value;
}

static long long unary(reader *r)
{
    char sign;
    skip_space(r);
    sign = *r->at;
    if (sign == '!' || sign == '-' || sign == '+' || sign == '~') {
        long long value;
        r->at++;
        value = unary(r);
        return in_range(r, sign == '!' ? !value : sign == '-' ? -value : sign == '~' ? ~value : value);
    }
    if (sign == '(') {
        return in_brackets(r);
    }
    if (isdigit((unsigned char)sign)) {
        return number(r);
    }
    return isalpha((unsigned char)sign) || sign == '_' ? name(r) : fail(r);
}

static const operator_sign *next_operator(reader *r)
{
    skip_space(r);
    for (size_t i = 0; i < sizeof operators / sizeof operators[0]; i++) {
        if (strncmp(r->at, operators[i].sign, strlen(operators[i].sign)) == 0) {
            return &operators[i];
        }
    }
    return NULL;
}

static long long shifted(reader *r, const char *sign, long long x, long long by)
{
    if (x < 0 || by < 0 || by > 31) {
        return fail(r);
    }
    return sign[0] == '<' ? x << by : x >> by;
}

static long long divided(reader *r, const char *sign, long long x, long long y)
{
    if (y == 0) {
        return fail(r);
    }
    return sign[0] == '/' ? x / y : x % y;
}

static long long compared(const char *sign, long long x, long long y)
{
    if (sign[1] == '=') {
        return sign[0] == '=' ? x == y : sign[0] == '!' ? x != y : sign[0] == '<' ? x <= y : x >= y;
    }
    return sign[0] == '<' ? x < y : x > y;
}

static long long combined(reader *r, const operator_sign *o, long long x, long long y)
{
    switch (o->strength) {
    case 1: return x || y;
    case 2: return x && y;
    case 3: return x | y;
    case 4: return x ^ y;
    case 5: return x & y;
    case 6:
    case 7: return compared(o->sign, x, y);
    case 8: return shifted(r, o->sign, x, y);
    case 9: return o->sign[0] == '+' ? x + y : x - y;
    default: return o->sign[0] == '*' ? x * y : divided(r, o->sign, x, y);
    }
}

/* What stands from here on, as far as its operators are at least so strong. */
static long long binary(reader *r, int least)
{
    long long value = unary(r);
    const operator_sign *o = next_operator(r);
    while (!r->failed && o != NULL && o->strength >= least) {
        long long right;
        r->at += strlen(o->sign);
        right = binary(r, o->strength + 1);
        value = in_range(r, combined(r, o, value, right));
        o = next_operator(r);
    }
    return value;
}

static long long conditional(reader *r)
{
    long long test = binary(r, 1), yes, no;
    skip_space(r);
    if (r->failed || *r->at != '?') {
        return test;
    }
    r->at++;
    yes = conditional(r);
    skip_space(r);
    if (*r->at != ':') {
        return fail(r);
    }
    r->at++;
    no = conditional(r);
    return test ? yes : no;
}

int read_expression(const char **at, int names_are_zero, long long *result)
{
    reader r = {*at, names_are_zero, 0};
    *result = conditional(&r);
    skip_space(&r);
    *at = r.at;
    return !r.failed;
}
