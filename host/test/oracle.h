/* The place of a fault, byte by byte, without knowing how place.c cuts a file into pieces.
 *
 * For a number other than 4: the shortest beginning that is refused with it ends with the tag that is at fault. If there is a further `<` in what it has
 * behind the last place where white space could stand, that tag closes a typed item, which begins there, or it is a child in one, 5. For 4: the shortest
 * beginning that nothing can mend ends within the fault; what can mend a beginning is tried from a list of continuations.
 */
#ifndef TEST_ORACLE_H
#define TEST_ORACLE_H

#include "place.h"

/* No longer file is tried. */
#define ORACLE_MOST 4000

/* What an import into this store, which is left as it is, answers. */
uint32_t refusal_of(const struct image *store, const uint8_t *at, size_t length);

/* Whether this is the place of the fault for which the file is refused with this number. */
bool oracle_agrees(const struct image *store, struct text file, uint32_t refusal, const struct place *place);

#endif
