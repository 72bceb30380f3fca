/* A store in memory: the four calls on it, and what its numbers say. */
#include <string.h>

#include "image.h"

/* The places of the numbers: the contents first, then a row for each standing file. */
enum {
    FILES = 0,
    CHANGES = 1,
    CHANGE_BYTES = 2,
    STUDY_LENGTH = 3,
    VERSION_LENGTH = 4,
    FILE_ROWS = 5,
    FILE_ROW = 3,
    OID_LENGTH = 0,
    CHANGES_THROUGH = 1,
    BYTES_THROUGH = 2
};

/* The places of the bytes: study and version, then a slot for each standing file. */
enum {
    STUDY = 0,
    VERSION = 64,
    FILE_SLOTS = 128,
    FILE_SLOT = 83,
    DATE_IN_SLOT = 64
};

struct text text_of(const char *words)
{
    return (struct text){(const uint8_t *)words, strlen(words)};
}

odm_answer image_open(struct image *image, struct text study, struct text version)
{
    return odm_open(image->numbers, ODM_NUMBERS, image->bytes, ODM_BYTES, study.at, study.length, version.at, version.length);
}

odm_answer image_import(struct image *image, struct text file)
{
    return odm_import(image->numbers, ODM_NUMBERS, image->bytes, ODM_BYTES, file.at, file.length);
}

odm_answer image_withdraw(struct image *image, struct text file_oid)
{
    return odm_withdraw(image->numbers, ODM_NUMBERS, image->bytes, ODM_BYTES, file_oid.at, file_oid.length);
}

odm_answer image_snapshot(const struct image *image, struct text file_oid, struct text date, uint8_t *output, size_t room)
{
    return odm_snapshot(image->numbers, ODM_NUMBERS, image->bytes, ODM_BYTES, file_oid.at, file_oid.length, date.at,
                        date.length, output, room);
}

/* A snapshot judges the image before anything else, and changes nothing. With a FileOID of no bytes it is always refused: with 7 where the image is
   valid. */
bool image_is_valid(const struct image *image)
{
    struct text nothing = {NULL, 0};
    return image_snapshot(image, nothing, nothing, NULL, 0).refusal == ODM_VALUE;
}

struct text image_study(const struct image *image)
{
    return (struct text){image->bytes + STUDY, image->numbers[STUDY_LENGTH]};
}

struct text image_version(const struct image *image)
{
    return (struct text){image->bytes + VERSION, image->numbers[VERSION_LENGTH]};
}

uint32_t image_files(const struct image *image)
{
    return image->numbers[FILES];
}

uint32_t image_changes(const struct image *image)
{
    return image->numbers[CHANGES];
}

uint32_t image_change_bytes(const struct image *image)
{
    return image->numbers[CHANGE_BYTES];
}

/* A number of a file's row; of the row before the first, which says "through" nothing, all are 0. */
static uint32_t of_row(const struct image *image, uint32_t row, int number)
{
    return row == 0 ? 0 : image->numbers[FILE_ROWS + (row - 1) * FILE_ROW + (uint32_t)number];
}

struct standing image_standing(const struct image *image, uint32_t file)
{
    const uint8_t *slot = image->bytes + FILE_SLOTS + file * FILE_SLOT;
    const uint8_t *date = slot + DATE_IN_SLOT;
    uint32_t row = file + 1;
    return (struct standing){
        .file_oid = {slot, of_row(image, row, OID_LENGTH)},
        .date = {date, strnlen((const char *)date, (size_t)FILE_SLOT - DATE_IN_SLOT)},
        .changes = of_row(image, row, CHANGES_THROUGH) - of_row(image, row - 1, CHANGES_THROUGH),
        .bytes = of_row(image, row, BYTES_THROUGH) - of_row(image, row - 1, BYTES_THROUGH),
    };
}
