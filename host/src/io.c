/* Whole reads and writes, and what went wrong with a file. */
#include <errno.h>
#include <fcntl.h>
#include <stdlib.h>
#include <unistd.h>

#include "io.h"

/* The lowest free number is given to a file that is opened, so each missing one is taken in turn. */
bool take_standard_files(void)
{
    for (int file = STDIN_FILENO; file <= STDERR_FILENO; file++)
        if (fcntl(file, F_GETFD) < 0 && open("/dev/null", file == STDIN_FILENO ? O_WRONLY : O_RDONLY) != file)
            return false;
    return true;
}

bool failed(struct fault *fault, const char *words)
{
    fault->words = words;
    fault->error = errno;
    return false;
}

/* A signal that came before anything was read or written is no error. */
static bool interrupted(ssize_t done)
{
    return done < 0 && errno == EINTR;
}

static bool give_up(struct bytes *bytes)
{
    int error = errno;
    free(bytes->at);
    bytes->at = NULL;
    errno = error;
    return false;
}

bool read_whole(int file, size_t most, struct bytes *bytes)
{
    ssize_t more = 1;
    bytes->length = 0;
    bytes->at = malloc(most);
    if (!bytes->at)
        return false;
    while (more != 0 && bytes->length < most) {
        more = read(file, bytes->at + bytes->length, most - bytes->length);
        if (interrupted(more))
            continue;
        if (more < 0)
            return give_up(bytes);
        bytes->length += (size_t)more;
    }
    /* Of many files at once only what they need is kept. */
    uint8_t *shorter = realloc(bytes->at, bytes->length + 1);
    bytes->at = shorter ? shorter : bytes->at;
    return true;
}

bool write_whole(int file, const void *bytes, size_t length)
{
    const uint8_t *rest = bytes;
    while (length > 0) {
        ssize_t done = write(file, rest, length);
        if (interrupted(done))
            continue;
        if (done <= 0) {
            /* No byte taken and no reason given: without this the loop would have no end. */
            if (done == 0)
                errno = EIO;
            return false;
        }
        rest += done;
        length -= (size_t)done;
    }
    return true;
}

bool flush(int file)
{
    int done;
    do
        done = fsync(file);
    while (done != 0 && errno == EINTR);
    return done == 0;
}
