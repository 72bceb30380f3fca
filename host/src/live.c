/* The live entities of a store, as its snapshot lists them.
 *
 * What is live could be computed from the changes, but that would be a second reading of the rules. The snapshot is proved to write exactly the live
 * entities, in key order, in a form that is fixed byte by byte: one tag a line, attributes in the table's order, values in double quotes.
 */
#include <string.h>

#include "live.h"

const char *const name_attributes[NAMES] = {
    "SubjectKey", "StudyEventOID", "StudyEventRepeatKey", "FormOID", "FormRepeatKey", "ItemGroupOID", "ItemGroupRepeatKey", "ItemOID",
};

/* Each element with the first of the names that are its own, and how many those are. */
static const struct {
    const char *name;
    int first, count;
} elements[DEPTHS] = {
    {"SubjectData", 0, 1}, {"StudyEventData", 1, 2}, {"FormData", 3, 2}, {"ItemGroupData", 5, 2}, {"ItemData", 7, 1},
};

static const struct {
    const char *text;
    char byte;
} escapes[] = {{"&amp;", '&'}, {"&lt;", '<'}, {"&gt;", '>'}, {"&quot;", '"'}};

static bool begins(struct text text, const char *words)
{
    size_t length = strlen(words);
    return text.length >= length && memcmp(text.at, words, length) == 0;
}

static struct text from(struct text text, size_t place)
{
    if (place > text.length)
        place = text.length;
    return (struct text){text.at + place, text.length - place};
}

/* Takes one line off the text, without its line feed. */
static struct text next_line(struct text *text)
{
    const uint8_t *feed = memchr(text->at, '\n', text->length);
    size_t length = feed ? (size_t)(feed - text->at) : text->length;
    struct text line = {text->at, length};
    *text = from(*text, feed ? length + 1 : length);
    return line;
}

/* The value of an attribute in a tag; of no byte where it has none. The first ` NAME="` is the attribute: free text stands in a Value alone, which is
   the last one. */
static struct text attribute(struct text tag, const char *name)
{
    size_t length = strlen(name);
    for (size_t i = 0; i + length + 3 < tag.length; i++) {
        if (tag.at[i] != ' ' || !begins(from(tag, i + 1), name) || !begins(from(tag, i + 1 + length), "=\""))
            continue;
        struct text value = from(tag, i + length + 3);
        const uint8_t *quote = memchr(value.at, '"', value.length);
        return (struct text){value.at, quote ? (size_t)(quote - value.at) : 0};
    }
    return (struct text){NULL, 0};
}

/* The byte that stands here, and how long it is written. */
static char decoded(struct text text, size_t *length)
{
    for (size_t i = 0; i < sizeof escapes / sizeof *escapes; i++)
        if (begins(text, escapes[i].text)) {
            *length = strlen(escapes[i].text);
            return escapes[i].byte;
        }
    *length = 1;
    return (char)*text.at;
}

static void read_value(struct text written, struct live *live)
{
    size_t length;
    live->value_length = 0;
    for (; written.length > 0 && live->value_length < VALUE_MOST; written = from(written, length))
        live->value[live->value_length++] = decoded(written, &length);
    live->value[live->value_length] = '\0';
}

static int depth_of(struct text tag)
{
    for (int depth = 1; depth <= DEPTHS; depth++) {
        const char *name = elements[depth - 1].name;
        if (begins(from(tag, 1), name) && begins(from(tag, 1 + strlen(name)), " "))
            return depth;
    }
    return 0;
}

/* An entity has the names of the one that it stands in, which is the last one listed of a smaller depth, and its own. */
static void read_entity(struct text tag, int depth, struct text names[NAMES], struct live *live)
{
    int first = elements[depth - 1].first, count = elements[depth - 1].count;
    for (int i = first; i < NAMES; i++)
        names[i] = i < first + count ? attribute(tag, name_attributes[i]) : (struct text){NULL, 0};
    live->depth = depth;
    memcpy(live->names, names, sizeof live->names);
    read_value(depth == DEPTHS ? attribute(tag, "Value") : (struct text){NULL, 0}, live);
}

static bool is_frame(struct text line)
{
    return begins(line, "<?xml ") || begins(line, "<ODM ") || begins(line, "<ClinicalData ") || begins(line, "</");
}

bool live_table(const struct image *image, struct table *table)
{
    struct text names[NAMES] = {{NULL, 0}};
    odm_answer answer = image_snapshot(image, text_of("S"), text_of("2000-01-01T00:00:00"), table->text, sizeof table->text);
    struct text rest = {table->text, answer.count};
    table->rows = 0;
    if (answer.refusal != ODM_ACCEPTED)
        return false;
    while (rest.length > 0) {
        struct text line = next_line(&rest);
        int depth = is_frame(line) ? 0 : depth_of(line);
        if (depth > 0 && table->rows < ODM_LIVE_MOST)
            read_entity(line, depth, names, &table->row[table->rows++]);
        else if (!is_frame(line))
            return false;
    }
    return true;
}
