/*
 * calls - stand-ins for system calls of bench.c, which examples/check links into a bench of its own
 * (the linker's --wrap) to try answers that a system seldom gives. CALLS in the environment names
 * what they do:
 *
 *     interrupted    of each call every second one, from the first on, fails with EINTR; read and
 *                    write move 7 bytes at most; each fsync tells the file's length on standard
 *                    output
 *     nonblocking    standard input does not block; each poll is told on standard output
 *     input-fails    where standard input ends, reading it fails with EIO
 *     killed         the program is killed when 7 bytes of its third record are written
 *     no-fsync       fsync fails with EINVAL
 *     fsync-fails    the third fsync fails with EIO; with fsync-fails-on, each one from there on
 *     no-cut         ftruncate fails with EIO
 */
#define _POSIX_C_SOURCE 200809L

#include <errno.h>
#include <fcntl.h>
#include <poll.h>
#include <signal.h>
#include <stdio.h>
#include <stdlib.h>
#include <string.h>
#include <sys/stat.h>
#include <unistd.h>

#define PART 7 /* bytes, fewer than a record's */

ssize_t __real_read(int file, void *bytes, size_t count);
ssize_t __wrap_read(int file, void *bytes, size_t count);
ssize_t __real_write(int file, const void *bytes, size_t count);
ssize_t __wrap_write(int file, const void *bytes, size_t count);
int __real_fsync(int file);
int __wrap_fsync(int file);
int __real_ftruncate(int file, off_t length);
int __wrap_ftruncate(int file, off_t length);
int __real_poll(struct pollfd *files, nfds_t count, int timeout);
int __wrap_poll(struct pollfd *files, nfds_t count, int timeout);

static int asked(const char *word)
{
    const char *calls = getenv("CALLS");
    return calls != NULL && strstr(calls, word) != NULL;
}

static int fails(int error)
{
    errno = error;
    return -1;
}

static int is_interrupted(unsigned *tries)
{
    return asked("interrupted") && (*tries)++ % 2 == 0;
}

static size_t part(size_t count)
{
    return asked("interrupted") && count > PART ? PART : count;
}

ssize_t __wrap_read(int file, void *bytes, size_t count)
{
    static unsigned tries;
    ssize_t got;
    if (is_interrupted(&tries)) {
        return fails(EINTR);
    }
    if (asked("nonblocking")) {
        fcntl(STDIN_FILENO, F_SETFL, O_NONBLOCK);
    }
    got = __real_read(file, bytes, part(count));
    return got == 0 && file == STDIN_FILENO && asked("input-fails") ? fails(EIO) : got;
}

ssize_t __wrap_write(int file, const void *bytes, size_t count)
{
    static unsigned tries, records;
    if (is_interrupted(&tries)) {
        return fails(EINTR);
    }
    if (asked("killed") && ++records == 3) {
        count = (size_t)__real_write(file, bytes, PART);
        raise(SIGKILL);
    }
    return __real_write(file, bytes, part(count));
}

int __wrap_fsync(int file)
{
    static unsigned tries, records;
    struct stat status;
    if (is_interrupted(&tries)) {
        return fails(EINTR);
    }
    records++;
    if (asked("no-fsync") || (asked("fsync-fails") && records == 3) ||
        (asked("fsync-fails-on") && records > 3)) {
        return fails(asked("no-fsync") ? EINVAL : EIO);
    }
    if (asked("interrupted") && fstat(file, &status) == 0) {
        dprintf(STDOUT_FILENO, "fsync at %ld\n", (long)status.st_size);
    }
    return __real_fsync(file);
}

int __wrap_ftruncate(int file, off_t length)
{
    return asked("no-cut") ? fails(EIO) : __real_ftruncate(file, length);
}

int __wrap_poll(struct pollfd *files, nfds_t count, int timeout)
{
    static unsigned tries;
    if (is_interrupted(&tries)) {
        return fails(EINTR);
    }
    if (asked("nonblocking")) {
        dprintf(STDOUT_FILENO, "poll\n");
    }
    return __real_poll(files, count, timeout);
}
