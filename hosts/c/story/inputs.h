/* What the engine is given from outside: files, and the command line of each job. */
#ifndef STORY_INPUTS_H
#define STORY_INPUTS_H

#include <stddef.h>

#include "sha256.h"

#define NAME_MAX_LEN 30   /* of a file: it stands in a list entry with a closing zero */
#define FILE_MAX_LEN 16384
#define WORD_MAX_LEN 48
#define WORDS_MAX 12
#define JOBS_MAX 4

/* The folders where files are looked for, the first that has one gives it; null where there is no second. */
typedef struct {
    const char *first;
    const char *second;
} inputs;

/* Reads the file and closes its text with a zero. Its length, or -1: no such file, too long, or a zero in it. */
long read_file(const inputs *in, const char *name, char text[FILE_MAX_LEN]);

/* The digest of a file as it is now; 0 if it cannot be read. */
int digest_of_file(const inputs *in, const char *name, digest *d);

/* One job's command line: flags and macros (-D..) in their order, and the source. */
typedef struct {
    char job[NAME_MAX_LEN + 1];
    char flags[WORDS_MAX][WORD_MAX_LEN + 1];
    size_t flag_count;
    char macros[WORDS_MAX][WORD_MAX_LEN + 1]; /* without the -D */
    size_t macro_count;
    char source[NAME_MAX_LEN + 1];
} command;

/* Reads a file of commands. Returns how many, or -1 if a line cannot be understood. */
int read_commands(const inputs *in, const char *name, command commands[JOBS_MAX]);

/* The digest of words in their order, each with its closing zero, so that no two lists of words are one text. */
digest digest_of_words(const char words[][WORD_MAX_LEN + 1], size_t count);

#endif
