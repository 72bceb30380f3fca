/* The live entities of a store, as its snapshot lists them. */
#ifndef HOST_LIVE_H
#define HOST_LIVE_H

#include "image.h"

#define DEPTHS 5
#define NAMES 8
#define VALUE_MOST 40

/* The attribute that each name of a key stands in, from the subject's to the item's. */
extern const char *const name_attributes[NAMES];

struct live {
    int depth;                /* 1 subject to 5 item */
    struct text names[NAMES]; /* those beyond the depth, and absent repeat keys, have no byte */
    size_t value_length;      /* of an item; 0 is null */
    char value[VALUE_MOST + 1];
};

/* All live entities in key order; the names are stretches of `text`. */
struct table {
    size_t rows;
    struct live row[ODM_LIVE_MOST];
    uint8_t text[ODM_SNAPSHOT_MOST];
};

/* Fills the table. false where the snapshot has something in it that this program does not know. */
bool live_table(const struct image *image, struct table *table);

#endif
