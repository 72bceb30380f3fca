/* Where a name leads: a folder and a name in it, with every link followed. */
#ifndef HOST_SPOT_H
#define HOST_SPOT_H

#include <sys/stat.h>

#include "io.h"

struct spot {
    char *path;       /* with no link in it */
    const char *base; /* the last part of the path */
    int folder;       /* the folder, open: flushed after each change in it */
    bool there;       /* whether a file is there, as it was found */
    struct stat stat; /* of that file */
};

/* A name that leads to something else than a plain file, or through a link to nothing, is a fault. On success the caller leaves the spot. */
bool spot_find(const char *name, struct spot *spot, struct fault *fault);
void spot_leave(struct spot *spot);

/* Whether this open file is the one that the spot's name leads to now. */
bool spot_has(const struct spot *spot, int file);

#endif
