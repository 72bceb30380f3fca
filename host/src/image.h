/* A store in memory: the four calls on it, and what its numbers say. The layout's places are known here and nowhere else. */
#ifndef HOST_IMAGE_H
#define HOST_IMAGE_H

#include <stdbool.h>
#include <stddef.h>
#include <stdint.h>

#include "odm_store.h"

struct image {
    uint32_t numbers[ODM_NUMBERS];
    uint8_t bytes[ODM_BYTES];
};

/* A stretch of bytes that belongs to somebody else. */
struct text {
    const uint8_t *at;
    size_t length;
};

struct text text_of(const char *words);

odm_answer image_open(struct image *image, struct text study, struct text version);
odm_answer image_import(struct image *image, struct text file);
odm_answer image_withdraw(struct image *image, struct text file_oid);
odm_answer image_snapshot(const struct image *image, struct text file_oid, struct text date, uint8_t *output, size_t room);

/* Whether the library takes this for a store. What follows may be asked only of one that is. */
bool image_is_valid(const struct image *image);

struct text image_study(const struct image *image);
struct text image_version(const struct image *image);
uint32_t image_files(const struct image *image);
uint32_t image_changes(const struct image *image);
uint32_t image_change_bytes(const struct image *image);

/* A standing file: its changes, and the bytes that they take. */
struct standing {
    struct text file_oid;
    struct text date;
    uint32_t changes;
    uint32_t bytes;
};

/* The standing files are counted from 0 to image_files - 1, the last one being the one that can be withdrawn. */
struct standing image_standing(const struct image *image, uint32_t file);

#endif
