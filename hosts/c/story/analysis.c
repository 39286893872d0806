#include "analysis.h"

#include <ctype.h>
#include <stdarg.h>
#include <stdio.h>
#include <stdlib.h>
#include <string.h>

#include "expression.h"

#define INCLUDE_DEPTH 8
#define NESTING 16
#define LINE_MAX_LEN 1024

/* One #if and what follows it. */
typedef struct {
    int outside; /* whether what stands around it is compiled in */
    int taken;   /* whether one of its branches was */
    int active;  /* whether the present branch is */
} condition;

typedef struct {
    condition open[NESTING];
    size_t count;
} conditions;

/* The macros being put in at the moment: none of them is put into itself. */
typedef struct chain {
    const macro *of;
    const struct chain *outer;
} chain;

typedef struct {
    char text[LINE_MAX_LEN];
    size_t length;
    int full;
} line;

static int scan_file(analysis *a, const char *name, int depth);

static int give_up(analysis *a, const char *form, ...)
{
    va_list words;
    va_start(words, form);
    vsnprintf(a->why, sizeof a->why, form, words);
    va_end(words);
    return 0;
}

static int starts_name(char c)
{
    return isalpha((unsigned char)c) || c == '_';
}

static size_t name_length(const char *text)
{
    size_t length = 0;
    while (starts_name(text[length]) || (length > 0 && isdigit((unsigned char)text[length]))) {
        length++;
    }
    return length;
}

static const char *after_space(const char *text)
{
    return text + strspn(text, " \t\r");
}

/* How far the string or character literal that begins here reaches. */
static size_t literal_length(const char *text)
{
    size_t length = 1;
    while (text[length] != '\0' && text[length] != text[0]) {
        length += text[length] == '\\' && text[length + 1] != '\0' ? 2 : 1;
    }
    return text[length] == '\0' ? length : length + 1;
}

/* How far the comment that begins here reaches; 0 if none does. */
static size_t comment_length(const char *text)
{
    const char *end;
    if (text[0] != '/' || (text[1] != '*' && text[1] != '/')) {
        return 0;
    }
    if (text[1] == '/') {
        return strcspn(text, "\n");
    }
    end = strstr(text + 2, "*/");
    return end == NULL ? strlen(text) : (size_t)(end + 2 - text);
}

/* Joins continued lines and turns each comment into a space, in place. */
static void clean(char *text)
{
    char *to = text;
    for (const char *from = text; *from != '\0';) {
        size_t comment = comment_length(from);
        if (from[0] == '\\' && from[1] == '\n') {
            from += 2;
        } else if (comment > 0) {
            from += comment;
            *to++ = ' ';
        } else if (*from == '"' || *from == '\'') {
            size_t length = literal_length(from);
            memmove(to, from, length);
            to += length;
            from += length;
        } else {
            *to++ = *from++;
        }
    }
    *to = '\0';
}

static const macro *find_macro(const analysis *a, const char *name, size_t length)
{
    for (size_t i = 0; i < a->macro_count; i++) {
        if (strlen(a->macros[i].name) == length && memcmp(a->macros[i].name, name, length) == 0) {
            return &a->macros[i];
        }
    }
    return NULL;
}

static int define(analysis *a, const char *name, size_t length, const char *body)
{
    const macro *old = find_macro(a, name, length);
    size_t body_length;
    body = after_space(body);
    body_length = strlen(body);
    while (body_length > 0 && isspace((unsigned char)body[body_length - 1])) {
        body_length--;
    }
    if (old != NULL && (strlen(old->body) != body_length || memcmp(old->body, body, body_length) != 0)) {
        return give_up(a, "%s is defined twice", old->name);
    }
    if (old != NULL) {
        return 1;
    }
    if (a->macro_count == MACROS_MAX || length > WORD_MAX_LEN || body_length > BODY_MAX_LEN) {
        return give_up(a, "too many macros, or one too long");
    }
    memcpy(a->macros[a->macro_count].name, name, length);
    memcpy(a->macros[a->macro_count].body, body, body_length);
    a->macro_count++;
    return 1;
}

/* A macro of the command line: NAME=BODY, or NAME, which means 1. */
static int define_word(analysis *a, const char *word)
{
    size_t length = name_length(word);
    if (length == 0 || (word[length] != '=' && word[length] != '\0')) {
        return give_up(a, "the macro -D%s is not understood", word);
    }
    return define(a, word, length, word[length] == '=' ? word + length + 1 : "1");
}

static void put(line *to, const char *text, size_t length)
{
    if (to->length + length >= sizeof to->text) {
        to->full = 1;
        return;
    }
    memcpy(to->text + to->length, text, length);
    to->length += length;
    to->text[to->length] = '\0';
}

static int in_chain(const chain *outer, const macro *m)
{
    for (; outer != NULL; outer = outer->outer) {
        if (outer->of == m) {
            return 1;
        }
    }
    return 0;
}

/* `defined X` or `defined(X)`: puts 1 or 0, and returns how much was read; 0 if it is neither. */
static size_t put_defined(const analysis *a, const char *text, line *to)
{
    const char *at = after_space(text + strlen("defined"));
    int bracket = *at == '(';
    size_t length;
    at = bracket ? after_space(at + 1) : at;
    length = name_length(at);
    if (length == 0) {
        return 0;
    }
    put(to, find_macro(a, at, length) != NULL ? "1" : "0", 1);
    at += length;
    if (bracket) {
        at = after_space(at);
        return *at == ')' ? (size_t)(at + 1 - text) : 0;
    }
    return (size_t)(at - text);
}

static int expand(const analysis *a, const char *text, int in_if, const chain *outer, line *to);

static int expand_name(const analysis *a, const char **at, int in_if, const chain *outer, line *to)
{
    size_t length = name_length(*at);
    const macro *m = find_macro(a, *at, length);
    if (in_if && length == strlen("defined") && memcmp(*at, "defined", length) == 0) {
        size_t read = put_defined(a, *at, to);
        *at += read;
        return read > 0;
    }
    if (m != NULL && !in_chain(outer, m)) {
        chain inner = {m, outer};
        *at += length;
        put(to, " ", 1);
        return expand(a, m->body, in_if, &inner, to);
    }
    put(to, *at, length);
    *at += length;
    return 1;
}

/* How far the number that begins here reaches: letters in it are no names. */
static size_t number_length(const char *text)
{
    size_t length = 0;
    while (isalnum((unsigned char)text[length]) || text[length] == '.' || text[length] == '_') {
        length++;
    }
    return length;
}

static int expand(const analysis *a, const char *text, int in_if, const chain *outer, line *to)
{
    while (*text != '\0') {
        size_t length = 1;
        if (starts_name(*text)) {
            if (!expand_name(a, &text, in_if, outer, to)) {
                return 0;
            }
            continue;
        }
        if (*text == '"' || *text == '\'') {
            length = literal_length(text);
        } else if (isdigit((unsigned char)*text)) {
            length = number_length(text);
        }
        put(to, text, length);
        text += length;
    }
    return !to->full;
}

static int condition_holds(analysis *a, const char *text, int *holds)
{
    line whole = {"", 0, 0};
    const char *at = whole.text;
    long long value;
    if (!expand(a, text, 1, NULL, &whole) || !read_expression(&at, 1, &value) || *at != '\0') {
        return give_up(a, "the condition #if %.60s is not understood", text);
    }
    *holds = value != 0;
    return 1;
}

static int is_active(const conditions *c)
{
    return c->count == 0 || c->open[c->count - 1].active;
}

static int open_condition(analysis *a, conditions *c, int outside, int holds)
{
    if (c->count == NESTING) {
        return give_up(a, "conditions nest too deep");
    }
    c->open[c->count].outside = outside;
    c->open[c->count].active = outside && holds;
    c->open[c->count].taken = holds;
    c->count++;
    return 1;
}

static int else_condition(conditions *c, int holds)
{
    condition *last = &c->open[c->count - 1];
    last->active = last->outside && !last->taken && holds;
    last->taken = last->taken || holds;
    return 1;
}

static int is_word(const char *word, size_t length, const char *wanted)
{
    return length == strlen(wanted) && memcmp(word, wanted, length) == 0;
}

/* #if and its kin. Sets *mine to 0 if the directive is none of them. */
static int take_condition(analysis *a, conditions *c, const char *word, size_t length, const char *rest, int *mine)
{
    int outside = is_active(c), holds = 0;
    *mine = 1;
    if (is_word(word, length, "ifdef") || is_word(word, length, "ifndef")) {
        int known = find_macro(a, rest, name_length(rest)) != NULL;
        return open_condition(a, c, outside, length == strlen("ifdef") ? known : !known);
    }
    if (is_word(word, length, "if")) {
        return (!outside || condition_holds(a, rest, &holds)) && open_condition(a, c, outside, holds);
    }
    if (c->count > 0 && is_word(word, length, "elif")) {
        int asked = c->open[c->count - 1].outside && !c->open[c->count - 1].taken;
        return (!asked || condition_holds(a, rest, &holds)) && else_condition(c, holds);
    }
    if (c->count > 0 && is_word(word, length, "else")) {
        return else_condition(c, 1);
    }
    if (c->count > 0 && is_word(word, length, "endif")) {
        c->count--;
        return 1;
    }
    *mine = 0;
    return 1;
}

static int include(analysis *a, const char *rest, int depth)
{
    char name[NAME_MAX_LEN + 1];
    size_t length = rest[0] == '"' ? strcspn(rest + 1, "\"") : 0;
    if (length == 0 || length > NAME_MAX_LEN || rest[1 + length] != '"' || memchr(rest + 1, '/', length) != NULL) {
        return give_up(a, "#include %.60s is not understood", rest);
    }
    memcpy(name, rest + 1, length);
    name[length] = '\0';
    return scan_file(a, name, depth + 1);
}

static int take_directive(analysis *a, conditions *c, const char *text, int depth)
{
    const char *word = after_space(text + 1), *rest;
    size_t length = name_length(word);
    int mine;
    rest = after_space(word + length);
    if (!take_condition(a, c, word, length, rest, &mine)) {
        return 0;
    }
    if (mine || !is_active(c)) {
        return 1;
    }
    if (is_word(word, length, "include")) {
        return include(a, rest, depth);
    }
    if (is_word(word, length, "define") && name_length(rest) > 0 && rest[name_length(rest)] != '(') {
        return define(a, rest, name_length(rest), rest + name_length(rest));
    }
    return give_up(a, "#%.60s is not understood", word);
}

static int take_code(analysis *a, const char *text)
{
    line whole = {"", 0, 0};
    if (!expand(a, text, 0, NULL, &whole)) {
        return give_up(a, "a line is too long: %.60s", text);
    }
    put(&whole, "\n", 1);
    if (whole.full || a->code_len + whole.length >= CODE_MAX_LEN) {
        return give_up(a, "the source is too long");
    }
    memcpy(a->code + a->code_len, whole.text, whole.length + 1);
    a->code_len += whole.length;
    return 1;
}

static int scan_text(analysis *a, char *text, int depth)
{
    conditions c = {{{0, 0, 0}}, 0};
    clean(text);
    for (char *at = text; *at != '\0';) {
        char *end = at + strcspn(at, "\n");
        char *next = *end == '\0' ? end : end + 1;
        const char *first;
        *end = '\0';
        first = after_space(at);
        if (*first == '#' ? !take_directive(a, &c, first, depth) : is_active(&c) && !take_code(a, at)) {
            return 0;
        }
        at = next;
    }
    return c.count == 0 ? 1 : give_up(a, "an #if is not closed");
}

/* Remembers the file and its digest; one that is included again must be the same as before. */
static int note_file(analysis *a, const char *name, digest sum)
{
    for (size_t i = 0; i < a->file_count; i++) {
        if (strcmp(a->files[i], name) == 0) {
            return digest_equal(&a->sums[i], &sum) ? 1 : give_up(a, "%s changed while it was read", name);
        }
    }
    if (a->file_count == FILES_MAX) {
        return give_up(a, "too many files");
    }
    strcpy(a->files[a->file_count], name);
    a->sums[a->file_count++] = sum;
    return 1;
}

static int scan_file(analysis *a, const char *name, int depth)
{
    char *text;
    long length;
    int done;
    if (depth > INCLUDE_DEPTH) {
        return give_up(a, "%s: includes nest too deep", name);
    }
    text = malloc(FILE_MAX_LEN);
    length = text == NULL ? -1 : read_file(a->in, name, text);
    if (length < 0) {
        free(text);
        return give_up(a, "%s cannot be read", name);
    }
    done = note_file(a, name, digest_of(text, (size_t)length)) && scan_text(a, text, depth);
    free(text);
    return done;
}

static int is_branch(const char *word, size_t length)
{
    return is_word(word, length, "if") || is_word(word, length, "while") || is_word(word, length, "for") ||
           is_word(word, length, "case");
}

/* _Static_assert (expression, "text"), from behind its name on. */
static int take_check(analysis *a, const char **text)
{
    const char *at = *text + strspn(*text, " \t\r\n");
    check *made = &a->checks[a->check_count];
    long long value;
    size_t length;
    if (a->check_count == CHECKS_MAX || *at++ != '(' || !read_expression(&at, 0, &value) || *at++ != ',') {
        return give_up(a, "a _Static_assert is not understood");
    }
    at += strspn(at, " \t\r\n");
    length = *at == '"' ? strcspn(at + 1, "\"") : CHECK_TEXT_LEN;
    if (length >= CHECK_TEXT_LEN || at[1 + length] != '"' || at[2 + length] != ')') {
        return give_up(a, "a _Static_assert's text is not understood");
    }
    memcpy(made->text, at + 1, length);
    made->text[length] = '\0';
    made->holds = value != 0;
    a->check_count++;
    *text = at + 3 + length;
    return 1;
}

static int take_name(analysis *a, const char **text)
{
    const char *word = *text;
    size_t length = name_length(word);
    *text += length;
    if (is_word(word, length, "_Static_assert")) {
        return take_check(a, text);
    }
    a->branches += is_branch(word, length);
    return 1;
}

/* Counts the branches of what is compiled in, and judges its checks. */
static int judge_code(analysis *a)
{
    const char *at = a->code;
    while (*at != '\0') {
        if (starts_name(*at)) {
            if (!take_name(a, &at)) {
                return 0;
            }
        } else if (*at == '"' || *at == '\'') {
            at += literal_length(at);
        } else if (isdigit((unsigned char)*at)) {
            at += number_length(at);
        } else {
            int twin = (at[0] == '&' || at[0] == '|') && at[1] == at[0];
            a->branches += twin || at[0] == '?';
            at += twin ? 2 : 1;
        }
    }
    return 1;
}

int analyse(analysis *a, const inputs *in, const command *c)
{
    memset(a, 0, sizeof *a);
    a->in = in;
    for (size_t i = 0; i < c->macro_count; i++) {
        if (!define_word(a, c->macros[i])) {
            return 0;
        }
    }
    return scan_file(a, c->source, 0) && judge_code(a);
}

int all_hold(const analysis *a)
{
    for (size_t i = 0; i < a->check_count; i++) {
        if (!a->checks[i].holds) {
            return 0;
        }
    }
    return 1;
}

static void write_words(line *to, const char *before, const char words[][WORD_MAX_LEN + 1], size_t count)
{
    put(to, before, strlen(before));
    for (size_t i = 0; i < count; i++) {
        put(to, " ", 1);
        put(to, words[i], strlen(words[i]));
    }
    put(to, "\n", 1);
}

size_t write_report(const analysis *a, const command *c, char report[REPORT_MAX_LEN])
{
    line to = {"", 0, 0};
    char counts[64];
    put(&to, c->source, strlen(c->source));
    write_words(&to, " for the setting", c->macros, c->macro_count);
    write_words(&to, "flags", c->flags, c->flag_count);
    snprintf(counts, sizeof counts, "%u files, %d branches\n", (unsigned)a->file_count, a->branches);
    put(&to, counts, strlen(counts));
    for (size_t i = 0; i < a->check_count; i++) {
        put(&to, a->checks[i].holds ? "holds: " : "FAILS: ", strlen("holds: "));
        put(&to, a->checks[i].text, strlen(a->checks[i].text));
        put(&to, "\n", 1);
    }
    if (to.full || to.length >= REPORT_MAX_LEN) {
        return 0;
    }
    memcpy(report, to.text, to.length + 1);
    return to.length;
}
