/* A file put in its place whole or not at all.
 *
 * It is written to a fresh file of an unguessable name in the same folder, which gets the old file's mode and owner, is flushed, and takes the name by
 * one system call; then the folder is flushed. Until that call whoever opens the name gets the old file, from then on the new one, never a part.
 * This holds on a local file system; NFS gives no such promise, and is not meant here.
 */
#ifndef HOST_FRESH_H
#define HOST_FRESH_H

#include "spot.h"

enum put {
    PUT_DONE,   /* in its place, and safe */
    PUT_THERE,  /* another file has come into that place meanwhile */
    PUT_FAILED, /* not in its place; all is as before */
    PUT_UNSURE  /* in its place, but the folder was not flushed: after a loss of power it may be either */
};

/* Takes the place of the spot's file, whose mode and owner it keeps, or, where none is there, takes the name if it is still free. Where it is in its place
   `file` is the new file, open and locked. */
enum put fresh_put(const struct spot *spot, const void *bytes, size_t length, int *file, struct fault *fault);

/* Removes what killed runs have left behind beside the spot's file: fresh files that no process holds. */
void fresh_sweep(const struct spot *spot);

#endif
