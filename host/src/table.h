/* The live entities of a store that is read from its file. */
#ifndef HOST_TABLE_H
#define HOST_TABLE_H

#include "call.h"
#include "live.h"

/* Reads the store and lists what is live in it. Tells what goes wrong, and answers an exit status. */
int read_table(const struct call *call, struct image *image, struct table *table);

#endif
