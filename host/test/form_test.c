/* The form of a store's file: every damage is told, and only a whole file of another layout is called that. */
#include <stdio.h>
#include <stdlib.h>
#include <string.h>
#include <zlib.h>

#include "form.h"

static size_t failures;

static void expect(bool right, const char *what, size_t at)
{
    if (right)
        return;
    printf("FAILED: %s, at %zu\n", what, at);
    failures++;
}

static enum form read_form(const uint8_t *file, size_t length)
{
    static struct image image;
    struct head head;
    return form_read((struct text){file, length}, &head, &image);
}

/* Every bit of the head, and of all the rest one bit in each byte. */
static size_t flip_bits(uint8_t *file)
{
    size_t flipped = 0;
    for (size_t i = 0; i < FORM_LENGTH; i++)
        for (unsigned bit = 0; bit < 8; bit++) {
            if (i >= FORM_HEAD && bit != i % 8)
                continue;
            file[i] ^= (uint8_t)(1u << bit);
            enum form form = read_form(file, FORM_LENGTH);
            expect(form != FORM_GOOD && form != FORM_OTHER_LAYOUT, "a flipped bit", i);
            file[i] ^= (uint8_t)(1u << bit);
            flipped++;
        }
    return flipped;
}

static size_t change_length(const uint8_t *file)
{
    static uint8_t longer[FORM_LENGTH + 1000];
    size_t tried = 0;
    memcpy(longer, file, FORM_LENGTH);
    for (size_t length = 0; length <= sizeof longer; length += length < 200 || length > FORM_LENGTH - 200 ? 1 : 97) {
        enum form form = read_form(longer, length);
        expect((form == FORM_GOOD) == (length == FORM_LENGTH) && form != FORM_OTHER_LAYOUT, "another length", length);
        tried += length != FORM_LENGTH;
    }
    return tried;
}

static void put_number(uint8_t *to, uint32_t number)
{
    for (int i = 0; i < 4; i++)
        to[i] = (uint8_t)(number >> (8 * i));
}

/* A whole file of a layout that this program does not have. */
static void change_layout(const uint8_t *file, uint32_t layout, uint32_t numbers, uint32_t bytes)
{
    static uint8_t other[FORM_MOST];
    size_t length = FORM_HEAD + 4 * numbers + bytes;
    memcpy(other, file, 8);
    put_number(other + 8, layout);
    put_number(other + 12, numbers);
    put_number(other + 16, bytes);
    uLong sum = crc32(crc32(0, NULL, 0), other, 20);
    put_number(other + 20, (uint32_t)crc32(sum, other + FORM_HEAD, (uInt)(length - FORM_HEAD)));
    expect(read_form(other, length) == FORM_OTHER_LAYOUT, "another layout", layout);
}

int main(void)
{
    static struct image image, again;
    static uint8_t file[FORM_LENGTH];
    struct head head;
    if (image_open(&image, text_of("ST"), text_of("V1")).refusal != ODM_ACCEPTED)
        abort();
    form_write(&image, file);
    expect(form_read((struct text){file, FORM_LENGTH}, &head, &again) == FORM_GOOD && memcmp(&image, &again, sizeof image) == 0, "a good file", 0);
    expect(read_form(file + FORM_HEAD, FORM_LENGTH - FORM_HEAD) == FORM_EARLY, "an image alone", 0);
    change_layout(file, ODM_LAYOUT + 1, ODM_NUMBERS, ODM_BYTES);
    change_layout(file, ODM_LAYOUT, ODM_NUMBERS, ODM_BYTES + 640);
    change_layout(file, ODM_LAYOUT, ODM_NUMBERS + 2048, ODM_BYTES);
    size_t flipped = flip_bits(file), lengths = change_length(file);
    printf("%zu flipped bits and %zu other lengths told, 3 other layouts named\n", flipped, lengths);
    return failures ? 1 : 0;
}
