/* Put before the C library (LD_PRELOAD), this makes one chosen system call of odm_store fail, or ends the program there.
 *
 *   ODM_TEST_AT=N     which call, counted from 1
 *   ODM_TEST_DO=WHAT  before it: kill, SIGINT; in its place: ENOSPC, EIO, EINTR; of a write only a part: short, or half and then kill
 *   ODM_TEST_LOG=FILE a line for each call: its number, its name, what it was given
 */
#define _GNU_SOURCE
#include <dlfcn.h>
#include <errno.h>
#include <fcntl.h>
#include <signal.h>
#include <stdarg.h>
#include <stdio.h>
#include <stdlib.h>
#include <string.h>
#include <sys/stat.h>
#include <unistd.h>

static int calls;

/* The C library's own function of this name. */
#define REAL(type, name, ...) ((type(*)(__VA_ARGS__))dlsym(RTLD_NEXT, name))

static void log_call(const char *name, const char *about)
{
    const char *path = getenv("ODM_TEST_LOG");
    char line[512];
    if (!path)
        return;
    int file = REAL(int, "open", const char *, int, ...)(path, O_WRONLY | O_APPEND | O_CREAT, 0600);
    int length = snprintf(line, sizeof line, "%d %s %s\n", calls, name, about);
    if (REAL(ssize_t, "write", int, const void *, size_t)(file, line, (size_t)length) != length)
        abort();
    close(file);
}

/* Counts a call, and does what is to be done before it. Answers what is to be done in its place. */
static const char *reach(const char *name, const char *about)
{
    const char *at = getenv("ODM_TEST_AT"), *what = getenv("ODM_TEST_DO");
    calls++;
    log_call(name, about);
    if (!at || !what || atoi(at) != calls)
        return "";
    if (strcmp(what, "kill") == 0)
        kill(getpid(), SIGKILL);
    if (strcmp(what, "SIGINT") == 0)
        raise(SIGINT);
    return what;
}

/* Whether the call is to fail, with errno set. */
static int fails(const char *what)
{
    errno = strcmp(what, "ENOSPC") == 0 ? ENOSPC : strcmp(what, "EIO") == 0 ? EIO : strcmp(what, "EINTR") == 0 ? EINTR : 0;
    return errno != 0;
}

/* What a descriptor is: the answer's, a folder, or a file. */
static const char *kind_of(int file)
{
    struct stat stat;
    if (file == STDOUT_FILENO)
        return "answer";
    return fstat(file, &stat) == 0 && S_ISDIR(stat.st_mode) ? "folder" : "file";
}

ssize_t write(int file, const void *bytes, size_t length)
{
    const char *what = file == STDERR_FILENO ? "" : reach("write", kind_of(file));
    if (fails(what))
        return -1;
    int half = strcmp(what, "half") == 0, part = half || strcmp(what, "short") == 0;
    ssize_t done = REAL(ssize_t, "write", int, const void *, size_t)(file, bytes, part ? (length + 1) / 2 : length);
    if (half)
        kill(getpid(), SIGKILL);
    return done;
}

int fsync(int file)
{
    return fails(reach("fsync", kind_of(file))) ? -1 : REAL(int, "fsync", int)(file);
}

int fchmod(int file, mode_t mode)
{
    return fails(reach("fchmod", "")) ? -1 : REAL(int, "fchmod", int, mode_t)(file, mode);
}

int fchown(int file, uid_t user, gid_t group)
{
    return fails(reach("fchown", "")) ? -1 : REAL(int, "fchown", int, uid_t, gid_t)(file, user, group);
}

int mkstemp(char *path)
{
    return fails(reach("mkstemp", path)) ? -1 : REAL(int, "mkstemp", char *)(path);
}

int rename(const char *from, const char *to)
{
    return fails(reach("rename", to)) ? -1 : REAL(int, "rename", const char *, const char *)(from, to);
}

int link(const char *from, const char *to)
{
    return fails(reach("link", to)) ? -1 : REAL(int, "link", const char *, const char *)(from, to);
}

int unlink(const char *path)
{
    return fails(reach("unlink", path)) ? -1 : REAL(int, "unlink", const char *)(path);
}

ssize_t read(int file, void *bytes, size_t room)
{
    const char *what = reach("read", kind_of(file));
    if (fails(what))
        return -1;
    return REAL(ssize_t, "read", int, void *, size_t)(file, bytes, strcmp(what, "short") == 0 ? (room + 1) / 2 : room);
}

/* Of these only the locks are counted. */
int fcntl(int file, int how, ...)
{
    va_list arguments;
    va_start(arguments, how);
    void *argument = va_arg(arguments, void *);
    va_end(arguments);
    if (how == F_OFD_SETLK && fails(reach("lock", kind_of(file))))
        return -1;
    return REAL(int, "fcntl", int, int, ...)(file, how, argument);
}
