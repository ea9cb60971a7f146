/* desk.c - the program desk: its arguments, its status, and the command run. The page
 * docs/LISTING.md says what its three commands read and write. */
#include "desk.h"

#include <string.h>

static enum status usage(void)
{
    fprintf(stderr, "usage: desk run [--quiet] [--all] FILE.., desk check FILE EXPECTED, "
                    "desk explain STEP [VALUE]\n");
    return STATUS_INPUT;
}

/* ---- run ---- */

struct options { int quiet, all, named; };

/* named: its name is shown, since there is more than one. */
static enum status run_file(const char *file, struct options options)
{
    static struct input in;
    static struct listing listing;
    static struct outcome outcome;

    if (!read_listing(&in, "run", file, &listing))
        return STATUS_INPUT;
    if (options.named)
        printf("== %s\n", file);
    run_steps(&listing, &listing.start, !options.quiet, &outcome);
    if (!options.quiet)
        printf("\n");
    show_last_part(&listing, &outcome, options.all);
    return outcome.answer == SECOND_DONE ? STATUS_DONE : STATUS_FAILED;
}

static enum status run_files(int n, char **files, struct options options)
{
    enum status highest = STATUS_DONE;

    options.named = n > 1;
    for (int i = 0; i < n; i++) {
        enum status status = run_file(files[i], options);

        if (status > highest)
            highest = status;
    }
    return highest;
}

/* ---- Arguments ---- */

/* --tell is for the other program of the same name, which needs it to tell its status. */
static int is_ignored(const char *word) { return strcmp(word, "--tell") == 0; }

static enum status run(int n, char **words)
{
    struct options options = { 0, 0, 0 };

    for (; n > 0 && strncmp(words[0], "--", 2) == 0; n--, words++) {
        if (strcmp(words[0], "--quiet") == 0)
            options.quiet = 1;
        else if (strcmp(words[0], "--all") == 0)
            options.all = 1;
        else if (!is_ignored(words[0]))
            return usage();
    }
    return n > 0 ? run_files(n, words, options) : usage();
}

static enum status command(int n, char **words)
{
    if (n < 1)
        return usage();
    const char *name = words[0];
    n--, words++;
    if (strcmp(name, "run") == 0)
        return run(n, words);
    while (n > 0 && is_ignored(words[0]))
        n--, words++;
    if (strcmp(name, "check") == 0 && n == 2)
        return check(words[0], words[1]);
    if (strcmp(name, "explain") == 0 && (n == 1 || n == 2))
        return explain(words[0], n == 2 ? words[1] : NULL);
    return usage();
}

int main(int argc, char **argv)
{
    enum status status = command(argc - 1, argv + 1);

    return fflush(stdout) == 0 && !ferror(stdout) ? (int)status : STATUS_OUTPUT;
}
