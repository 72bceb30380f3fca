/* Where a name leads: a folder and a name in it, with every link followed. */
#include <errno.h>
#include <fcntl.h>
#include <stdlib.h>
#include <string.h>
#include <unistd.h>

#include "spot.h"

/* "folder/base", allocated. */
static char *joined(const char *folder, const char *base)
{
    size_t before = strlen(folder), behind = strlen(base);
    char *path = malloc(before + behind + 2);
    if (!path)
        return NULL;
    memcpy(path, folder, before);
    path[before] = '/';
    memcpy(path + before + 1, base, behind + 1);
    return path;
}

/* The folder of a name, allocated; its links are followed by realpath, which also says whether it is there. */
static char *folder_of(const char *name, const char *base)
{
    if (base == name)
        return realpath(".", NULL);
    char *folder = strdup(name);
    if (!folder)
        return NULL;
    folder[base - name] = '\0';
    char *real = realpath(folder, NULL);
    int error = errno;
    free(folder);
    errno = error;
    return real;
}

/* The path of a file that is not there yet. */
static bool find_new(const char *name, struct spot *spot, struct fault *fault)
{
    const char *slash = strrchr(name, '/'), *base = slash ? slash + 1 : name;
    struct stat itself;
    if (lstat(name, &itself) == 0)
        return failed(fault, "is a link that leads to nothing");
    if (*base == '\0')
        return failed(fault, "is no name of a file");
    char *folder = folder_of(name, base);
    if (!folder)
        return failed(fault, "its folder is not to be found");
    spot->path = joined(folder, base);
    free(folder);
    spot->there = false;
    return spot->path ? true : failed(fault, "cannot be named");
}

static bool find_path(const char *name, struct spot *spot, struct fault *fault)
{
    spot->path = realpath(name, NULL);
    if (!spot->path)
        return errno == ENOENT ? find_new(name, spot, fault) : failed(fault, "is not to be found");
    if (stat(spot->path, &spot->stat) != 0)
        return failed(fault, "is not to be found");
    errno = S_ISDIR(spot->stat.st_mode) ? EISDIR : 0;
    spot->there = S_ISREG(spot->stat.st_mode);
    return spot->there ? true : failed(fault, "is no plain file");
}

/* The path has a slash, being absolute. */
static bool open_folder(struct spot *spot, struct fault *fault)
{
    char *slash = strrchr(spot->path, '/');
    spot->base = slash + 1;
    *slash = '\0';
    spot->folder = open(slash == spot->path ? "/" : spot->path, O_RDONLY | O_DIRECTORY | O_CLOEXEC);
    *slash = '/';
    return spot->folder >= 0 ? true : failed(fault, "its folder cannot be opened");
}

bool spot_find(const char *name, struct spot *spot, struct fault *fault)
{
    memset(spot, 0, sizeof *spot);
    spot->folder = -1;
    if (find_path(name, spot, fault) && open_folder(spot, fault))
        return true;
    spot_leave(spot);
    return false;
}

void spot_leave(struct spot *spot)
{
    free(spot->path);
    spot->path = NULL;
    /* Nothing was written through it, so there is nothing that closing could lose. */
    if (spot->folder >= 0)
        close(spot->folder);
    spot->folder = -1;
}

bool spot_has(const struct spot *spot, int file)
{
    struct stat named, opened;
    return fstatat(spot->folder, spot->base, &named, 0) == 0 && fstat(file, &opened) == 0 && named.st_dev == opened.st_dev &&
           named.st_ino == opened.st_ino;
}
