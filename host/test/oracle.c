/* The place of a fault, byte by byte. */
#include <string.h>

#include "oracle.h"

/* A refusal leaves the copy as it is, so it is made anew only after a file was accepted. */
uint32_t refusal_of(const struct image *store, const uint8_t *at, size_t length)
{
    static struct image copy;
    static const struct image *copied;
    if (copied != store)
        copy = *store;
    uint32_t refusal = image_import(&copy, (struct text){at, length}).refusal;
    copied = refusal == ODM_ACCEPTED ? NULL : store;
    return refusal;
}

static const char *const continuations[] = {
    "", "<X>", "X>", "X><X>", "><X>", "/><X>", "X=\"\">", " X=\"\"><X>", "=\"\"><X>", "\"\"><X>", "\"><X>", "'><X>", ">",
    "amp;\"><X>", "mp;\"><X>", "p;\"><X>", ";\"><X>", "lt;\"><X>", "t;\"><X>", "uot;\"><X>", "ot;\"><X>", "pos;\"><X>", "os;\"><X>", "s;\"><X>",
    "amp;'><X>", "mp;'><X>", "p;'><X>", ";'><X>", "lt;'><X>", "t;'><X>", "uot;'><X>", "ot;'><X>", "pos;'><X>", "os;'><X>", "s;'><X>",
    "amp;<X>", "mp;<X>", "p;<X>", ";<X>", "lt;<X>", "t;<X>", "uot;<X>", "ot;<X>", "pos;<X>", "os;<X>", "s;<X>",
};

/* Of these every rest can follow what has begun with the front. */
static const char *const wholes[] = {
    "</ODM><X>", "</ClinicalData><X>", "</SubjectData><X>", "</StudyEventData><X>", "</FormData><X>", "</ItemGroupData><X>", "</ItemData><X>",
    "</ItemDataString><X>", "</ItemDataInteger><X>", "</ItemDataFloat><X>", "</ItemDataDate><X>", "</ItemDataDatetime><X>", "<![CDATA[]]><X>",
    "</ODM>", "<?xml version=\"1.0\" encoding=\"UTF-8\"?><X>",
};

/* Whether something can follow this beginning so that it is not refused with 4. */
static bool mended_by(const struct image *store, uint8_t *work, size_t length, const char *rest)
{
    size_t more = strlen(rest);
    memcpy(work + length, rest, more);
    return refusal_of(store, work, length + more) != ODM_WRITTEN_FORM;
}

static bool can_be_mended(const struct image *store, struct text file, size_t length)
{
    static uint8_t work[ORACLE_MOST + 100];
    static const char *last = "";
    memcpy(work, file.at, length);
    /* What mended the beginning that is one byte shorter mostly does again, or what is left of it does. */
    if (*last && mended_by(store, work, length, last + 1)) {
        last++;
        return true;
    }
    if (mended_by(store, work, length, last))
        return true;
    for (size_t i = 0; i < sizeof continuations / sizeof *continuations; i++)
        if (mended_by(store, work, length, continuations[i])) {
            last = continuations[i];
            return true;
        }
    for (size_t i = 0; i < sizeof wholes / sizeof *wholes; i++)
        for (const char *rest = wholes[i]; *rest; rest++)
            if (mended_by(store, work, length, rest)) {
                last = rest;
                return true;
            }
    return false;
}

/* A file that can be mended to its end ends within a tag, a section or an entity, which is then at fault, or not: then the end is, and a tag can follow. */
static bool ends_between_pieces(const struct image *store, struct text file)
{
    static uint8_t work[ORACLE_MOST + 100];
    memcpy(work, file.at, file.length);
    return mended_by(store, work, file.length, "<X>");
}

static bool is_place_of_form(const struct image *store, struct text file, const struct place *place)
{
    size_t length = 0;
    while (length <= file.length && can_be_mended(store, file, length))
        length++;
    /* An entity that a `<` breaks off is told with its text. */
    if (length <= file.length)
        return length > place->first && length <= place->end + (place->kind == PLACE_TEXT);
    if (ends_between_pieces(store, file))
        return place->kind == PLACE_END;
    return (place->kind == PLACE_TAG || place->kind == PLACE_TEXT) && place->end == file.length;
}

/* The last tag up to here that stands between tags, and so not in a body: white space can stand before it. */
static size_t last_tag(const struct image *store, struct text file, size_t length)
{
    static uint8_t work[ORACLE_MOST + 100];
    static const char behind[] = "\n<X>";
    do {
        length--;
        memcpy(work, file.at, length);
        memcpy(work + length, behind, sizeof behind - 1);
    } while (length > 0 && (file.at[length] != '<' || refusal_of(store, work, length + sizeof behind - 1) != ODM_ELEMENT));
    return length;
}

bool oracle_agrees(const struct image *store, struct text file, uint32_t refusal, const struct place *place)
{
    if (refusal == ODM_WRITTEN_FORM)
        return is_place_of_form(store, file, place);
    size_t length = 0;
    while (refusal_of(store, file.at, length) != refusal)
        length++;
    size_t first = last_tag(store, file, length);
    bool in_item = refusal != ODM_ELEMENT && memchr(file.at + first + 1, '<', length - first - 1);
    if (in_item)
        return place->kind == PLACE_ITEM && place->first == first && place->end == length;
    return place->kind == PLACE_TAG && place->end == length;
}
