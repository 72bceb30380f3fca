/* The form of a store's file. */
#include <string.h>
#include <zlib.h>

#include "form.h"

/* Places in the head. */
enum { MARK_LENGTH = 8, LAYOUT = 8, NUMBERS = 12, BYTES = 16, CHECKSUM = 20 };

static const uint8_t mark[MARK_LENGTH] = {'O', 'D', 'M', 's', 't', 'o', 'r', 'e'};

static void put_number(uint8_t *to, uint32_t number)
{
    for (int i = 0; i < 4; i++)
        to[i] = (uint8_t)(number >> (8 * i));
}

static uint32_t get_number(const uint8_t *from)
{
    return from[0] | (uint32_t)from[1] << 8 | (uint32_t)from[2] << 16 | (uint32_t)from[3] << 24;
}

/* Of all but the checksum's own four bytes. */
static uint32_t checksum_of(const uint8_t *file, size_t length)
{
    uLong sum = crc32(crc32(0, NULL, 0), file, CHECKSUM);
    return (uint32_t)crc32(sum, file + FORM_HEAD, (uInt)(length - FORM_HEAD));
}

uint64_t form_length(const struct head *head)
{
    return FORM_HEAD + 4 * (uint64_t)head->numbers + head->bytes;
}

void form_write(const struct image *image, uint8_t file[FORM_LENGTH])
{
    memcpy(file, mark, MARK_LENGTH);
    put_number(file + LAYOUT, ODM_LAYOUT);
    put_number(file + NUMBERS, ODM_NUMBERS);
    put_number(file + BYTES, ODM_BYTES);
    for (size_t i = 0; i < ODM_NUMBERS; i++)
        put_number(file + FORM_HEAD + 4 * i, image->numbers[i]);
    memcpy(file + FORM_HEAD + 4 * ODM_NUMBERS, image->bytes, ODM_BYTES);
    put_number(file + CHECKSUM, checksum_of(file, FORM_LENGTH));
}

static enum form without_mark(size_t length)
{
    if (length == 0)
        return FORM_EMPTY;
    return length == FORM_LENGTH - FORM_HEAD ? FORM_EARLY : FORM_NO_MARK;
}

/* The length is asked before the checksum, since a short file may lack what is summed; the checksum before the layout, since only a whole file's word
   about its layout counts. */
static enum form read_head(struct text file, struct head *head)
{
    if (file.length < MARK_LENGTH || memcmp(file.at, mark, MARK_LENGTH) != 0)
        return without_mark(file.length);
    if (file.length < FORM_HEAD)
        return FORM_CUT;
    head->layout = get_number(file.at + LAYOUT);
    head->numbers = get_number(file.at + NUMBERS);
    head->bytes = get_number(file.at + BYTES);
    head->checksum = get_number(file.at + CHECKSUM);
    if (file.length != form_length(head))
        return FORM_OTHER_LENGTH;
    if (head->checksum != checksum_of(file.at, file.length))
        return FORM_CHECKSUM;
    if (head->layout != ODM_LAYOUT || head->numbers != ODM_NUMBERS || head->bytes != ODM_BYTES)
        return FORM_OTHER_LAYOUT;
    return FORM_GOOD;
}

enum form form_read(struct text file, struct head *head, struct image *image)
{
    enum form form = read_head(file, head);
    if (form != FORM_GOOD)
        return form;
    for (size_t i = 0; i < ODM_NUMBERS; i++)
        image->numbers[i] = get_number(file.at + FORM_HEAD + 4 * i);
    memcpy(image->bytes, file.at + FORM_HEAD + 4 * ODM_NUMBERS, ODM_BYTES);
    return FORM_GOOD;
}
