#include "inputs.h"

#include <stdio.h>
#include <string.h>

static FILE *open_in(const char *folder, const char *name)
{
    char path[1024];
    int length = snprintf(path, sizeof path, "%s/%s", folder, name);
    return length > 0 && (size_t)length < sizeof path ? fopen(path, "rb") : NULL;
}

static FILE *open_input(const inputs *in, const char *name)
{
    FILE *file = open_in(in->first, name);
    return file == NULL && in->second != NULL ? open_in(in->second, name) : file;
}

long read_file(const inputs *in, const char *name, char text[FILE_MAX_LEN])
{
    FILE *file = open_input(in, name);
    size_t length;
    if (file == NULL) {
        return -1;
    }
    length = fread(text, 1, FILE_MAX_LEN, file);
    if (ferror(file) || length == FILE_MAX_LEN || memchr(text, 0, length) != NULL) {
        fclose(file);
        return -1;
    }
    fclose(file);
    text[length] = '\0';
    return (long)length;
}

int digest_of_file(const inputs *in, const char *name, digest *d)
{
    static char text[FILE_MAX_LEN];
    long length = read_file(in, name, text);
    if (length < 0) {
        return 0;
    }
    *d = digest_of(text, (size_t)length);
    return 1;
}

/* Copies a word if it fits; 0 if not. */
static int keep_word(char *to, size_t limit, const char *word)
{
    if (strlen(word) > limit) {
        return 0;
    }
    strcpy(to, word);
    return 1;
}

static int take_word(command *c, const char *word)
{
    if (strncmp(word, "-D", 2) == 0) {
        return word[2] != '\0' && c->macro_count < WORDS_MAX &&
               keep_word(c->macros[c->macro_count++], WORD_MAX_LEN, word + 2);
    }
    if (word[0] == '-') {
        return c->flag_count < WORDS_MAX && keep_word(c->flags[c->flag_count++], WORD_MAX_LEN, word);
    }
    return c->source[0] == '\0' && keep_word(c->source, NAME_MAX_LEN, word);
}

static int read_command(command *c, char *line)
{
    char *word = strtok(line, " \r");
    size_t length = word == NULL ? 0 : strlen(word);
    memset(c, 0, sizeof *c);
    if (length < 2 || word[length - 1] != ':') {
        return 0;
    }
    word[length - 1] = '\0';
    if (!keep_word(c->job, NAME_MAX_LEN, word)) {
        return 0;
    }
    while ((word = strtok(NULL, " \r")) != NULL) {
        if (!take_word(c, word)) {
            return 0;
        }
    }
    return c->source[0] != '\0';
}

int read_commands(const inputs *in, const char *name, command commands[JOBS_MAX])
{
    static char text[FILE_MAX_LEN];
    int count = 0;
    if (read_file(in, name, text) < 0) {
        return -1;
    }
    for (char *line = text; *line != '\0';) {
        char *end = line + strcspn(line, "\n");
        char *next = *end == '\0' ? end : end + 1;
        *end = '\0';
        if (*line != '#' && *line != '\0') {
            if (count == JOBS_MAX || !read_command(&commands[count], line)) {
                return -1;
            }
            count++;
        }
        line = next;
    }
    return count;
}

digest digest_of_words(const char words[][WORD_MAX_LEN + 1], size_t count)
{
    sha256 sum;
    sha256_start(&sum);
    for (size_t i = 0; i < count; i++) {
        sha256_add(&sum, words[i], strlen(words[i]) + 1);
    }
    return sha256_end(&sum);
}
