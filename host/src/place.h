/* Where in a file the fault is that it was refused for. */
#ifndef HOST_PLACE_H
#define HOST_PLACE_H

#include "image.h"

enum place_kind {
    PLACE_NONE, /* not known: there was no memory to look for it */
    PLACE_TAG,  /* a tag, or what is written as one: a comment, a CDATA section */
    PLACE_ITEM, /* a typed item, for what is judged at its closing tag: from its opening tag up to that one's end */
    PLACE_TEXT, /* text where only white space may stand, or a body that is not written as one */
    PLACE_BYTE, /* the first byte too many */
    PLACE_END   /* the end of the file: a closing tag is missing */
};

struct place {
    enum place_kind kind;
    bool or_behind;      /* at this tag or behind it; see place.c on how that can be */
    size_t line, column; /* counted from 1, columns in bytes */
    size_t first, end;   /* the stretch of the file that is meant, where it is a tag, an item or text */
    size_t exact;        /* in it, where a body begins, of which every byte counts; the end, where none does */
};

/* Of a file that an import into this store, as it is, refuses with this number. */
struct place place_of(const struct image *store, struct text file, uint32_t refusal);

/* The stretch as one line to be shown: white space is one space, but not in a body; strange bytes are \xNN, and what is long is cut. */
#define EXCERPT_ROOM 128
void place_excerpt(const struct place *place, struct text file, char excerpt[EXCERPT_ROOM]);

#endif
