/* The story's own parts: the digest, expressions, command lines, the analysis and what it refuses, entries. */
#include <stdlib.h>
#include <string.h>

#include "../story/expression.h"
#include "../story/list.h"
#include "check.h"

static int digest_is(digest d, const char *hex)
{
    char text[2 * DIGEST_LEN + 1];
    for (int i = 0; i < DIGEST_LEN; i++) {
        snprintf(text + 2 * i, 3, "%02x", d.bytes[i]);
    }
    return strcmp(text, hex) == 0;
}

/* The examples that the standard gives, and a million times a. */
static void check_sha256(void)
{
    sha256 sum;
    CHECK(digest_is(digest_of("", 0), "e3b0c44298fc1c149afbf4c8996fb92427ae41e4649b934ca495991b7852b855"));
    CHECK(digest_is(digest_of("abc", 3), "ba7816bf8f01cfea414140de5dae2223b00361a396177a9cb410ff61f20015ad"));
    CHECK(digest_is(digest_of("abcdbcdecdefdefgefghfghighijhijkijkljklmklmnlmnomnopnopq", 56),
                    "248d6a61d20638b8e5c026930c3e6039a33ce45964ff2167f6ecedd419db06c1"));
    sha256_start(&sum);
    for (int i = 0; i < 1000000; i++) {
        sha256_add(&sum, "a", 1);
    }
    CHECK(digest_is(sha256_end(&sum), "cdc76e5c9914fb9281a1c7e284d73e67f1809a48a497200e046d39ccc7112cd0"));
}

static int is(const char *text, long long expected)
{
    long long value;
    return read_expression(&text, 0, &value) && *text == '\0' && value == expected;
}

static int is_none(const char *text)
{
    long long value;
    return !read_expression(&text, 0, &value) || *text != '\0';
}

static void check_expressions(void)
{
    const char *name = "UNKNOWN + 2";
    long long value;
    CHECK(is("1 + 2 * 3", 7) && is("(1 + 2) * 3", 9) && is("10 - 4 - 3", 3) && is("-7 / 2", -3) && is("-7 % 2", -1));
    CHECK(is("1 < 2 == 1", 1) && is("3 & 2 == 2", 1) && is("1 | 2 ^ 3 & 4", 3) && is("1 << 4 >> 1", 8));
    CHECK(is("0 || 1 && 0", 0) && is("!0 && !!5", 1) && is("~0", -1) && is("0x1F + 010", 39));
    CHECK(is("1 ? 2 : 0 ? 3 : 4", 2) && is("0 ? 2 : 0 ? 3 : 4", 4) && is(" ( 2 >= 2 ) ", 1) && is("2 != 2", 0));
    CHECK(is("2147483647", 2147483647) && is_none("2147483648"));
    CHECK(is_none("2147483647 + 1") && is_none("65536 * 65536"));
    CHECK(is_none("1 / 0") && is_none("1 % 0") && is_none("1 << 32") && is_none("(1") && is_none("1 +") && is_none(""));
    CHECK(is_none("1.5") && is_none("10L") && is_none("UNKNOWN") && is_none("1 2") && is_none("1 ? 2"));
    CHECK(read_expression(&name, 1, &value) && value == 2);
}

static void write_input(const char *folder, const char *name, const char *text)
{
    char path[1024];
    FILE *file;
    snprintf(path, sizeof path, "%s/%s", folder, name);
    file = fopen(path, "wb");
    CHECK(file != NULL && fputs(text, file) >= 0 && fclose(file) == 0);
}

static analysis a;

static int analyses(const char *folder, const char *text)
{
    inputs in = {NULL, NULL};
    command c;
    in.first = folder;
    memset(&c, 0, sizeof c);
    strcpy(c.source, "try.c");
    strcpy(c.macros[c.macro_count++], "GIVEN=3");
    strcpy(c.macros[c.macro_count++], "SET");
    write_input(folder, "try.c", text);
    return analyse(&a, &in, &c);
}

static void check_analysis(const char *folder)
{
    CHECK(analyses(folder, "int a = GIVEN ? 1 : 2; /* if */ // while\nchar *s = \"if ?\"; char c = '?';\n"));
    CHECK(a.branches == 1 && a.check_count == 0 && a.file_count == 1);
    CHECK(analyses(folder, "#if GIVEN == 3 && defined(SET) && !defined NONE\n"
                           "if\n#elif 1\nif if\n#else\nif if if\n#endif"));
    CHECK(a.branches == 1);
    CHECK(analyses(folder, "#ifdef NONE\n#if 1 / 0\n#include \"gone.h\"\n#else\nif\n#endif\n#else\nif if\n#endif\n"));
    CHECK(a.branches == 2 && a.file_count == 1);
    CHECK(analyses(folder, "#define TWICE (2 * GIVEN)\n#define LOOP LOOP\n"
                           "_Static_assert(TWICE == 6 \\\n, \"six\");\nLOOP"));
    CHECK(a.check_count == 1 && a.checks[0].holds && strcmp(a.checks[0].text, "six") == 0 && all_hold(&a));
    CHECK(analyses(folder, "#define SUM 1 + GIVEN\n_Static_assert(2 * SUM == 8, \"not so in C\");\n"));
    CHECK(!a.checks[0].holds && !all_hold(&a));
}

/* What is not understood is given up, so that no result rests on it. */
static void check_given_up(const char *folder)
{
    static const char *const texts[] = {
        "#include <stdio.h>\n",
        "#include \"gone.h\"\n",
        "#include \"try.c\"\n",
        "#define F(x) x\n",
        "#define GIVEN 4\n",
        "#undef GIVEN\n",
        "#error no\n",
        "#if GIVEN >\n#endif\n",
        "#if 1\n",
        "#endif\n",
        "_Static_assert(x, \"a name\");",
        "_Static_assert(1);",
    };
    for (size_t i = 0; i < sizeof texts / sizeof texts[0]; i++) {
        CHECK(!analyses(folder, texts[i]) && a.why[0] != '\0');
    }
}

static void check_commands(const char *folder)
{
    inputs in = {NULL, NULL};
    command c[JOBS_MAX];
    in.first = folder;
    write_input(folder, "commands", "# none\n\njob: -O2 -DA=1 -DB x.c\nlast: y.c");
    CHECK(read_commands(&in, "commands", c) == 2);
    CHECK(strcmp(c[0].job, "job") == 0 && c[0].flag_count == 1 && c[0].macro_count == 2);
    CHECK(strcmp(c[0].macros[1], "B") == 0 && strcmp(c[0].source, "x.c") == 0 && strcmp(c[1].source, "y.c") == 0);
    write_input(folder, "commands", "job: x.c y.c\n");
    CHECK(read_commands(&in, "commands", c) == -1);
    write_input(folder, "commands", "job: -D x.c\n");
    CHECK(read_commands(&in, "commands", c) == -1);
    CHECK(read_commands(&in, "gone", c) == -1);
}

/* Words that would run together to the same text have different digests. */
static void check_words(void)
{
    char ab_c[2][WORD_MAX_LEN + 1] = {"AB", "C"}, a_bc[2][WORD_MAX_LEN + 1] = {"A", "BC"};
    digest one = digest_of_words((const char(*)[WORD_MAX_LEN + 1])ab_c, 2);
    digest two = digest_of_words((const char(*)[WORD_MAX_LEN + 1])a_bc, 2);
    digest less = digest_of_words((const char(*)[WORD_MAX_LEN + 1])ab_c, 1);
    CHECK(!digest_equal(&one, &two) && !digest_equal(&one, &less));
}

static void check_entries(void)
{
    uint8_t block[FW_BLOCK_LEN] = {0};
    entry e, back;
    CHECK(!entry_of_block(&back, block));
    memset(&e, 0, sizeof e);
    e.kind = ENTRY_HEADER;
    memset(e.name, 'n', NAME_MAX_LEN);
    e.sum = digest_of("abc", 3);
    entry_to_block(&e, block);
    CHECK(entry_of_block(&back, block) && entry_equal(&e, &back));
    back.sum.bytes[31] ^= 1;
    CHECK(!entry_equal(&e, &back));
}

int main(int argc, char **argv)
{
    if (argc != 2) {
        fputs("usage: parts FOLDER (an empty one)\n", stderr);
        return 2;
    }
    check_sha256();
    check_expressions();
    check_analysis(argv[1]);
    check_given_up(argv[1]);
    check_commands(argv[1]);
    check_words();
    check_entries();
    return end_checks("parts");
}
