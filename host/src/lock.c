/* The lock of an open file.
 *
 * The lock itself is an "open file description" lock on byte 0 (POSIX.1-2024). The older sort of fcntl lock is lost as soon as the process closes any
 * descriptor of the file, whatever it was opened for: a trap for whoever adds a second look at the store. But only the older sort tells who has it. So
 * byte 1 is locked in that way, too: for the answer to that question, and for nothing else.
 */
#define _GNU_SOURCE /* F_OFD_SETLK, which some C libraries still show only so */
#include <errno.h>
#include <fcntl.h>
#include <unistd.h>

#include "lock.h"

enum { LOCK_BYTE = 0, HOLDER_BYTE = 1 };

static struct flock on_byte(off_t byte)
{
    return (struct flock){.l_type = F_WRLCK, .l_whence = SEEK_SET, .l_start = byte, .l_len = 1};
}

enum lock lock_take(int file)
{
    struct flock lock = on_byte(LOCK_BYTE), holder = on_byte(HOLDER_BYTE);
    if (fcntl(file, F_OFD_SETLK, &lock) != 0)
        return errno == EAGAIN || errno == EACCES ? LOCK_HELD : LOCK_FAILED;
    /* Where this fails, nobody is told the holder's number. That is no reason not to go on. */
    (void)fcntl(file, F_SETLK, &holder);
    return LOCK_TAKEN;
}

pid_t lock_holder(int file)
{
    struct flock holder = on_byte(HOLDER_BYTE);
    if (fcntl(file, F_GETLK, &holder) != 0 || holder.l_type == F_UNLCK)
        return 0;
    return holder.l_pid > 0 ? holder.l_pid : 0;
}
