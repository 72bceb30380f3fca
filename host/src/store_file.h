/* A store kept in a file: read by anybody at any time, changed by one process at a time. */
#ifndef HOST_STORE_FILE_H
#define HOST_STORE_FILE_H

#include "call.h"
#include "form.h"
#include "image.h"
#include "spot.h"

/* A store that this process alone may change; or a place for one. */
struct held {
    struct spot spot;
    int file; /* the store's file, open and locked; -1 where there is none yet */
};

/* Every function here tells what goes wrong, and answers an exit status. */

/* Reads the store as it is now. No lock is needed: a file is never changed once it has its name, so what was opened is one whole image. */
int store_read(const struct call *call, struct image *image, struct head *head);

/* Takes the store for changing it, waiting for others as long as the call says, and sweeps away what killed runs have left. The caller leaves it. */
int store_hold(const struct call *call, struct held *held);

/* Takes the place where a new store is to be: a free one, or with --over that of the store that is there. The caller leaves it. */
int store_claim(const struct call *call, struct held *held);

int store_load(const struct call *call, const struct held *held, struct image *image);

/* STATUS_DONE says that the image is in its place and safe on the disk. */
int store_save(const struct call *call, struct held *held, const struct image *image);

void store_leave(struct held *held);

#endif
