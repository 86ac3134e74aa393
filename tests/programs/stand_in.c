/* Stands in for read, write and nanosleep of the C library (LD_PRELOAD), so that calls fail as a test asks:
       STAND_IN_READ, STAND_IN_WRITE   what the calls on the descriptor answer, one letter for each in turn
           .  the call itself, of at most STAND_IN_BYTES bytes (all, where that is not set)
           i  EINTR    a  EAGAIN    e  EIO    s  ENOSPC    0  no byte
       The last letter stands for all further calls.
   nanosleep returns at once. Each call leaves a letter (r, w or n) in the file STAND_IN_LOG, if that is named. */
#define _GNU_SOURCE
#include <dlfcn.h>
#include <errno.h>
#include <fcntl.h>
#include <stdlib.h>
#include <string.h>
#include <time.h>
#include <unistd.h>

typedef ssize_t (*read_call)(int, void *, size_t);
typedef ssize_t (*write_call)(int, const void *, size_t);

static ssize_t write_by_itself(int file, const void *bytes, size_t length)
{
    return ((write_call)dlsym(RTLD_NEXT, "write"))(file, bytes, length);
}

static void note(char letter)
{
    const char *name = getenv("STAND_IN_LOG");
    int file = name == NULL ? -1 : open(name, O_WRONLY | O_CREAT | O_APPEND, 0644);
    if (file >= 0) {
        (void)!write_by_itself(file, &letter, 1);
        close(file);
    }
}

/* The next letter of an order; '.' where there is none. */
static char next_letter(const char *variable, size_t *place)
{
    const char *order = getenv(variable);
    if (order == NULL || order[0] == '\0') {
        return '.';
    }
    return order[*place + 1 == strlen(order) ? *place : (*place)++];
}

static size_t at_most(size_t length)
{
    const char *bytes = getenv("STAND_IN_BYTES");
    size_t most = bytes == NULL ? length : (size_t)atoi(bytes);
    return most < length ? most : length;
}

static ssize_t answer_to(char letter)
{
    switch (letter) {
    case 'i': errno = EINTR; return -1;
    case 'a': errno = EAGAIN; return -1;
    case 'e': errno = EIO; return -1;
    case 's': errno = ENOSPC; return -1;
    default: return 0;
    }
}

ssize_t read(int file, void *bytes, size_t length)
{
    static size_t place;
    char letter = next_letter("STAND_IN_READ", &place);
    note('r');
    if (letter != '.') {
        return answer_to(letter);
    }
    return ((read_call)dlsym(RTLD_NEXT, "read"))(file, bytes, at_most(length));
}

/* Standard error is left alone: it tells what went wrong. */
ssize_t write(int file, const void *bytes, size_t length)
{
    static size_t place;
    char letter = file == STDERR_FILENO ? '.' : next_letter("STAND_IN_WRITE", &place);
    if (letter != '.') {
        note('w');
        return answer_to(letter);
    }
    if (file == STDERR_FILENO) {
        return write_by_itself(file, bytes, length);
    }
    note('w');
    return write_by_itself(file, bytes, at_most(length));
}

int nanosleep(const struct timespec *asked, struct timespec *left)
{
    (void)asked;
    (void)left;
    note('n');
    return 0;
}
