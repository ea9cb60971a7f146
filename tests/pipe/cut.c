/* cut.c - a slow writer: starts a program with a pipe for its standard input, and writes what comes on its own standard input there in pieces.

   cut SIZES COMMAND.. : SIZES are the lengths of the pieces, as 5 or 1,11,3, taken in turn and again from the first. A piece is written when the pipe is
   empty, that is when all before it has been read: so each is read by itself, however fast or slow the program is. Ends with the program's
   status; with 90 where that ends before it has read everything, and with 91 where cut itself cannot go on. */
#define _DEFAULT_SOURCE /* what is not C11 */
#include <errno.h>
#include <poll.h>
#include <signal.h>
#include <stdio.h>
#include <stdlib.h>
#include <string.h>
#include <sys/ioctl.h>
#include <sys/wait.h>
#include <time.h>
#include <unistd.h>

enum { PIECE = 65536, ENDED_EARLY = 90, GAVE_UP = 91 };

static void give_up(const char *what)
{
    perror(what);
    exit(GAVE_UP);
}

/* Starts it, and returns the end of the pipe that is written to. */
static int start(char **command, pid_t *child)
{
    int ends[2];

    if (pipe(ends) != 0 || (*child = fork()) < 0)
        give_up("pipe, fork");
    if (*child == 0) {
        if (ends[0] != 0) {
            dup2(ends[0], 0);
            close(ends[0]);
        }
        close(ends[1]);
        signal(SIGPIPE, SIG_DFL);
        execvp(command[0], command);
        give_up(command[0]);
    }
    close(ends[0]);
    return ends[1];
}

static int is_read(int to)
{
    int waiting;

    if (ioctl(to, FIONREAD, &waiting) != 0)
        give_up("FIONREAD");
    return waiting == 0;
}

/* Whether nobody can read any more what is written. */
static int is_left(int to)
{
    struct pollfd p = { to, POLLOUT, 0 };

    return poll(&p, 1, 0) > 0 && (p.revents & POLLERR) != 0;
}

/* Waits until all is read; returns 0 where it never will be. */
static int wait_read(int to)
{
    static const struct timespec pause = { 0, 20000 };

    while (!is_read(to)) {
        if (is_left(to))
            return 0;
        nanosleep(&pause, NULL);
    }
    return 1;
}

/* Takes the next length off the list, which is begun anew behind its last. */
static size_t next_size(const char *sizes, const char **at)
{
    char *end;
    size_t n = strtoul(*at, &end, 10);

    if (end == *at || n == 0 || n > PIECE || (*end != ',' && *end != '\0')) {
        fprintf(stderr, "cut: bad sizes: %s\n", sizes);
        exit(GAVE_UP);
    }
    *at = *end == ',' ? end + 1 : sizes;
    return n;
}

/* All of the piece; returns 0 where nobody reads it. */
static int write_all(int to, const char *piece, size_t n)
{
    while (n > 0) {
        ssize_t wrote = write(to, piece, n);

        if (wrote < 0 && errno == EPIPE)
            return 0;
        if (wrote < 0)
            give_up("write");
        piece += wrote;
        n -= (size_t)wrote;
    }
    return 1;
}

/* Whether everything was read. */
static int write_pieces(int to, const char *sizes)
{
    static char piece[PIECE];
    const char *at = sizes;
    size_t n;

    while ((n = fread(piece, 1, next_size(sizes, &at), stdin)) > 0)
        if (!wait_read(to) || !write_all(to, piece, n))
            return 0;
    return wait_read(to);
}

int main(int argc, char **argv)
{
    pid_t child;
    int status;

    if (argc < 3) {
        fprintf(stderr, "usage: cut SIZES COMMAND..\n");
        return GAVE_UP;
    }
    signal(SIGPIPE, SIG_IGN);
    int to = start(argv + 2, &child);
    int read_all = write_pieces(to, argv[1]);
    close(to);
    if (waitpid(child, &status, 0) != child)
        give_up("waitpid");
    if (!read_all) {
        fprintf(stderr, "cut: the program ended before it had read everything\n");
        return ENDED_EARLY;
    }
    return WIFEXITED(status) ? WEXITSTATUS(status) : 128 + WTERMSIG(status);
}
