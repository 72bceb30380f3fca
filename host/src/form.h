/* The form of a store's file: a head of 24 bytes, then the image, every number little-endian, so that a file can be carried to another machine.
 *
 *   mark 8 | layout 4 | numbers 4 | bytes 4 | checksum 4 | the numbers, 4 each | the bytes
 *
 * The checksum is the CRC-32 of all of it but itself. So every flipped bit is told, and a file whose checksum is right says truly what layout it has.
 */
#ifndef HOST_FORM_H
#define HOST_FORM_H

#include "image.h"
#include "io.h"

#define FORM_HEAD 24u
#define FORM_LENGTH (FORM_HEAD + 4u * ODM_NUMBERS + ODM_BYTES)

/* No file of any layout is longer; more is not read. */
#define FORM_MOST 1048576u

enum form {
    FORM_GOOD,
    FORM_EMPTY,        /* no byte */
    FORM_EARLY,        /* an image alone, as the example before this program kept it */
    FORM_NO_MARK,      /* something else */
    FORM_CUT,          /* it ends within its head */
    FORM_OTHER_LENGTH, /* not as long as its head says */
    FORM_CHECKSUM,     /* the checksum is another */
    FORM_OTHER_LAYOUT  /* whole, but of another layout */
};

/* What a file's head says of it. */
struct head {
    uint32_t layout;
    uint32_t numbers;
    uint32_t bytes;
    uint32_t checksum;
};

/* How long a file with this head is. */
uint64_t form_length(const struct head *head);

void form_write(const struct image *image, uint8_t file[FORM_LENGTH]);

/* The image is whole where the answer is FORM_GOOD, and as before where not; the head is there from FORM_OTHER_LENGTH on. */
enum form form_read(struct text file, struct head *head, struct image *image);

#endif
