/* slow_pipe FILE BYTES MILLISECONDS PROGRAM [ARGUMENT..]
   Runs the program with a pipe that does not block as its standard input. FILE's first bytes stand in it at once, the
   others come so many milliseconds later. */
#include <fcntl.h>
#include <stdio.h>
#include <stdlib.h>
#include <sys/wait.h>
#include <time.h>
#include <unistd.h>

static void check(int holds, const char *what)
{
    if (!holds) {
        perror(what);
        exit(2);
    }
}

static void feed(int to, const char *bytes, size_t length)
{
    check(write(to, bytes, length) == (ssize_t)length, "write");
}

int main(int count, char **words)
{
    static char bytes[4096];
    int ends[2], status;
    check(count >= 5, "usage: slow_pipe FILE BYTES MILLISECONDS PROGRAM");
    FILE *file = fopen(words[1], "rb");
    check(file != NULL, words[1]);
    size_t length = fread(bytes, 1, sizeof bytes, file);
    size_t first = (size_t)atoi(words[2]);
    long wait = atol(words[3]);
    check(first <= length && pipe(ends) == 0, "pipe");
    feed(ends[1], bytes, first);
    pid_t program = fork();
    check(program >= 0, "fork");
    if (program == 0) {
        check(fcntl(ends[0], F_SETFL, O_NONBLOCK) == 0 && dup2(ends[0], 0) == 0, "standard input");
        close(ends[0]);
        close(ends[1]);
        execvp(words[4], words + 4);
        check(0, words[4]);
    }
    close(ends[0]);
    nanosleep(&(struct timespec){wait / 1000, wait % 1000 * 1000000}, NULL);
    feed(ends[1], bytes + first, length - first);
    close(ends[1]);
    check(waitpid(program, &status, 0) == program, "waitpid");
    return WIFEXITED(status) ? WEXITSTATUS(status) : 128;
}
