/* The story's telling: sentences, and claims that are checked as they are told. */
#ifndef STORY_CLAIMS_H
#define STORY_CLAIMS_H

/* With quiet on, nothing is printed but the verdict. */
void be_quiet(void);

void say(const char *form, ...);
void heading(const char *text);

/* A numbered claim: prints whether it held, and remembers. Returns `held`. */
int claim(int held, const char *form, ...);

/* Prints the verdict; returns 0 if every claim held and there was one, else 1. */
int verdict(void);

#endif
