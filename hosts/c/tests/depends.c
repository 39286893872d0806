/* Prints what the story's analysis finds of each job: its files, and whether all its checks hold. */
#include <stdio.h>

#include "../story/analysis.h"

static void print_job(const inputs *in, const command *c)
{
    static analysis a;
    if (!analyse(&a, in, c)) {
        printf("%s given up: %s\n", c->job, a.why);
        return;
    }
    printf("%s %s", c->job, all_hold(&a) ? "holds" : "fails");
    for (size_t i = 0; i < a.file_count; i++) {
        printf(" %s", a.files[i]);
    }
    putchar('\n');
}

int main(int argc, char **argv)
{
    command commands[JOBS_MAX];
    inputs in = {NULL, NULL};
    int count;
    if (argc < 3) {
        fputs("usage: depends COMMANDS FOLDER [FOLDER]\n", stderr);
        return 2;
    }
    in.first = argv[2];
    in.second = argc > 3 ? argv[3] : NULL;
    count = read_commands(&in, argv[1], commands);
    for (int i = 0; i < count; i++) {
        print_job(&in, &commands[i]);
    }
    return count > 0 ? 0 : 1;
}
