/* Integer expressions of C, without names: what is left of a condition once its macros are put in. */
#ifndef STORY_EXPRESSION_H
#define STORY_EXPRESSION_H

/*
 * Reads an expression from *at and leaves *at behind it. Returns 1, or 0 if it is no such expression, divides by zero
 * or leaves the range of a 32-bit int. A name counts as 0 if names_are_zero (as in #if), else it is refused.
 */
int read_expression(const char **at, int names_are_zero, long long *result);

#endif
