/* A file put in its place whole or not at all. */
#include <dirent.h>
#include <errno.h>
#include <fcntl.h>
#include <stdio.h>
#include <stdlib.h>
#include <string.h>
#include <unistd.h>

#include "fresh.h"
#include "lock.h"

/* A fresh file of "study" is ".study.odm-" and six letters that the system chooses. */
#define FRESH_MARK ".odm-"
#define FRESH_LETTERS "XXXXXX"

struct fresh {
    char *path;
    int file;
};

/* The path of a fresh file with its letters still to be chosen; allocated. */
static char *fresh_path(const struct spot *spot)
{
    size_t folder = (size_t)(spot->base - spot->path);
    size_t room = strlen(spot->path) + sizeof "." FRESH_MARK FRESH_LETTERS;
    char *path = malloc(room);
    if (path)
        snprintf(path, room, "%.*s.%s" FRESH_MARK FRESH_LETTERS, (int)folder, spot->path, spot->base);
    return path;
}

/* Who sweeps takes the lock of a fresh file before he removes it. So one that is created but not locked yet can be swept away: then its lock is held by
   the sweeper, or it has no name any more, and the answer is to make another. Once it is locked and has its name it is safe from sweepers. */
static bool is_mine(int file, enum lock lock)
{
    struct stat stat;
    return lock == LOCK_TAKEN && fstat(file, &stat) == 0 && stat.st_nlink > 0;
}

static bool make_one(const struct spot *spot, struct fresh *fresh, struct fault *fault)
{
    fresh->path = fresh_path(spot);
    fresh->file = fresh->path ? mkstemp(fresh->path) : -1;
    if (fresh->file >= 0)
        return true;
    failed(fault, "no new file can be made in its folder");
    free(fresh->path);
    return false;
}

/* Gives up: nothing of it may stay. What went wrong before is what counts, so errors here are not told. */
static void fresh_drop(struct fresh *fresh)
{
    unlink(fresh->path);
    close(fresh->file);
    free(fresh->path);
}

static bool fresh_begin(const struct spot *spot, struct fresh *fresh, struct fault *fault)
{
    while (make_one(spot, fresh, fault)) {
        enum lock lock = lock_take(fresh->file);
        if (is_mine(fresh->file, lock))
            return true;
        failed(fault, "the new file cannot be locked");
        fresh_drop(fresh);
        if (lock == LOCK_FAILED)
            return false;
    }
    return false;
}

/* A new file's mode is what the user's mask leaves; the mask can be read only by setting it. */
static mode_t new_mode(void)
{
    mode_t mask = umask(0);
    umask(mask);
    return 0666 & ~mask;
}

/* The owner first: a change of owner may clear bits of the mode. */
static bool keep_rights(int file, const struct spot *spot, struct fault *fault)
{
    struct stat stat;
    if (fstat(file, &stat) != 0)
        return failed(fault, "the new file cannot be looked at");
    if (spot->there && (stat.st_uid != spot->stat.st_uid || stat.st_gid != spot->stat.st_gid) &&
        fchown(file, spot->stat.st_uid, spot->stat.st_gid) != 0)
        return failed(fault, "its owner or group cannot be kept");
    if (fchmod(file, spot->there ? spot->stat.st_mode & 07777 : new_mode()) != 0)
        return failed(fault, "its mode cannot be kept");
    return true;
}

static bool fresh_fill(const struct fresh *fresh, const struct spot *spot, const void *bytes, size_t length, struct fault *fault)
{
    if (!write_whole(fresh->file, bytes, length))
        return failed(fault, "cannot be written");
    if (!keep_rights(fresh->file, spot, fault))
        return false;
    return flush(fresh->file) ? true : failed(fault, "cannot be flushed to the disk");
}

/* A name that is to be new is taken by a link, which fails where the name exists; a rename would go over what somebody else has put there meanwhile.
   The file's first name is then dropped; where that fails, or the run is killed in between, the next sweep drops it. */
static enum put take_name(const struct fresh *fresh, const struct spot *spot, struct fault *fault)
{
    int done = spot->there ? rename(fresh->path, spot->path) : link(fresh->path, spot->path);
    if (done != 0) {
        failed(fault, "cannot be put in its place");
        return !spot->there && fault->error == EEXIST ? PUT_THERE : PUT_FAILED;
    }
    if (!spot->there)
        (void)unlink(fresh->path);
    if (!flush(spot->folder)) {
        failed(fault, "is in its place, but its folder cannot be flushed to the disk");
        return PUT_UNSURE;
    }
    return PUT_DONE;
}

enum put fresh_put(const struct spot *spot, const void *bytes, size_t length, int *file, struct fault *fault)
{
    struct fresh fresh;
    enum put put = PUT_FAILED;
    if (!fresh_begin(spot, &fresh, fault))
        return PUT_FAILED;
    if (fresh_fill(&fresh, spot, bytes, length, fault))
        put = take_name(&fresh, spot, fault);
    if (put != PUT_DONE && put != PUT_UNSURE) {
        fresh_drop(&fresh);
        return put;
    }
    *file = fresh.file;
    free(fresh.path);
    return put;
}

/* Whether a name in the folder is that of a fresh file of this spot. */
static bool is_fresh_name(const struct spot *spot, const char *name)
{
    size_t base = strlen(spot->base), mark = strlen(FRESH_MARK);
    return name[0] == '.' && strncmp(name + 1, spot->base, base) == 0 && strncmp(name + 1 + base, FRESH_MARK, mark) == 0 &&
           strlen(name + 1 + base + mark) == strlen(FRESH_LETTERS);
}

/* A run that was killed between its link and its unlink leaves the store itself under a second name. Of that the name alone is dropped. */
static bool is_second_name(const struct spot *spot, const struct stat *stat)
{
    struct stat named;
    return fstatat(spot->folder, spot->base, &named, 0) == 0 && named.st_dev == stat->st_dev && named.st_ino == stat->st_ino;
}

static void sweep_one(const struct spot *spot, const char *name)
{
    struct stat stat;
    if (fstatat(spot->folder, name, &stat, AT_SYMLINK_NOFOLLOW) != 0 || !S_ISREG(stat.st_mode))
        return;
    if (is_second_name(spot, &stat)) {
        unlinkat(spot->folder, name, 0);
        return;
    }
    int file = openat(spot->folder, name, O_RDWR | O_NOFOLLOW | O_NONBLOCK | O_CLOEXEC);
    if (file < 0)
        return;
    if (lock_take(file) == LOCK_TAKEN)
        unlinkat(spot->folder, name, 0);
    close(file);
}

/* What cannot be swept away harms nobody, so nothing that fails here is told. */
void fresh_sweep(const struct spot *spot)
{
    int copy = openat(spot->folder, ".", O_RDONLY | O_DIRECTORY | O_CLOEXEC);
    DIR *folder = copy < 0 ? NULL : fdopendir(copy);
    if (!folder) {
        if (copy >= 0)
            close(copy);
        return;
    }
    for (struct dirent *entry = readdir(folder); entry; entry = readdir(folder))
        if (is_fresh_name(spot, entry->d_name))
            sweep_one(spot, entry->d_name);
    closedir(folder);
}
