/*
 * The analysis of one job: follows the includes under the job's macros, counts what is compiled in, and judges each
 * _Static_assert for this setting. It understands a small part of C's preprocessor and refuses the rest, so that no
 * result rests on a guess.
 */
#ifndef STORY_ANALYSIS_H
#define STORY_ANALYSIS_H

#include "inputs.h"

#define MACROS_MAX 64
#define BODY_MAX_LEN 120
#define FILES_MAX 12
#define CHECKS_MAX 8
#define CHECK_TEXT_LEN 72
#define CODE_MAX_LEN 32768
#define REPORT_MAX_LEN 640
#define WHY_LEN 128

typedef struct {
    char name[WORD_MAX_LEN + 1];
    char body[BODY_MAX_LEN + 1];
} macro;

/* One _Static_assert: its text, and whether it holds. */
typedef struct {
    char text[CHECK_TEXT_LEN];
    int holds;
} check;

typedef struct {
    const inputs *in;
    macro macros[MACROS_MAX];
    size_t macro_count;
    char files[FILES_MAX][NAME_MAX_LEN + 1]; /* the source, then each header where it was first included */
    digest sums[FILES_MAX]; /* of each file's text as it was analysed */
    size_t file_count;
    char code[CODE_MAX_LEN]; /* what is compiled in */
    size_t code_len;
    int branches;
    check checks[CHECKS_MAX];
    size_t check_count;
    char why[WHY_LEN]; /* why it was given up; empty if it was not */
} analysis;

/* Analyses the job's source; 0 if it is given up, and `why` says what was not understood. */
int analyse(analysis *a, const inputs *in, const command *c);

/* Whether every check holds. */
int all_hold(const analysis *a);

/* The report: which source, for which setting, and what was found. Returns its length. */
size_t write_report(const analysis *a, const command *c, char report[REPORT_MAX_LEN]);

#endif
