/* Where in a file the fault is that it was refused for.
 *
 * The library answers a number and no place, and need not: tags are judged one after another, each wholly before the next, so the place can be found by
 * asking it about beginnings of the file. A file is cut into pieces: tags, CDATA sections, and texts. White space between tags belongs to no piece; in
 * the body of a typed item it is text. Let the fault be in piece f, with number n. Of the beginning that ends behind piece i it holds:
 *
 *   i >= f: it is refused with n, whatever follows. The pieces before f are as in the whole file and are taken, and piece f is judged by what stands
 *           before its end alone.
 *   i <  f: all its pieces are taken, and the answer depends on what follows them. If nothing follows, a closing tag is missing, and the answer is 4.
 *           If an unknown element follows, the answer is 5: in a body it is a child.
 *
 * So where n is not 4 a beginning is tried as it is, and where n is 4 with an unknown element behind it; then "the answer is n" is false up to f - 1 and
 * true from f on, and f is found by halving. There is one exception: behind ODM's closing tag an unknown element is 4, too. But then the beginning as
 * it is would be accepted, since only white space may follow; so the fault is in the next piece. And if no piece is at fault, the end is: a closing tag
 * is missing.
 *
 * Closing the open elements at the cut would not do: a Remove adds its end at its closing tag, and so the closing alone can be refused with 13, at a
 * cut that lies before the place where the whole file is.
 *
 * Where the pieces end is told as for a file of right form: a text ends at the first `<`, a section behind the first `]]>`, a tag at the first `>` outside
 * quotes. In piece f the form may be broken, but not before the byte at which the reader stops, and up to there no such end can stand; so the piece does
 * not end before that byte. If the reader stops because the file ends within the piece, an unknown element behind it mends nothing: `<` may stand nowhere
 * in a tag, ends no section and completes no entity. What follows f may be cut in any way.
 *
 * What a typed item's body says, and what becomes of the item, is judged at its closing tag. There the item is told, from its opening tag on, since the
 * closing tag names no item.
 */
#include <stdio.h>
#include <stdlib.h>
#include <string.h>

#include "place.h"

static const char declaration[] = "<?xml version=\"1.0\" encoding=\"UTF-8\"?>";
static const char stranger[] = "<X>";
static const char section[] = "<![CDATA[";
static const char section_end[] = "]]>";

enum { DECLARATION = sizeof declaration - 1, STRANGER = sizeof stranger - 1 };

struct piece {
    uint32_t first, end;
};

/* What is asked about: a copy of the file without its declaration. That leaves room for the unknown element in a file of the greatest length. A space
   stands in its place, so that a second declaration, which is a fault, does not become a first one. */
struct question {
    const struct image *store;
    uint32_t refusal;
    uint8_t *text;
    size_t length;
    size_t left_out;      /* how many bytes of the file are not in the text */
    struct piece *pieces; /* counted from 1; that before the first ends at 0 */
    size_t count;
};

static bool is_white(uint8_t byte)
{
    return byte == ' ' || byte == '\t' || byte == '\n' || byte == '\r';
}

/* The first byte from here on that is not white space. */
static size_t past_white(const uint8_t *text, size_t length, size_t from)
{
    while (from < length && is_white(text[from]))
        from++;
    return from;
}

static bool begins(const struct question *q, size_t at, const char *word)
{
    size_t length = strlen(word);
    return q->length - at >= length && memcmp(q->text + at, word, length) == 0;
}

/* The end of a tag that begins here. */
static size_t tag_end(const struct question *q, size_t from)
{
    uint8_t quote = 0;
    for (; from < q->length; from++) {
        uint8_t byte = q->text[from];
        if (quote)
            quote = byte == quote ? 0 : quote;
        else if (byte == '"' || byte == '\'')
            quote = byte;
        else if (byte == '>')
            return from + 1;
    }
    return q->length;
}

/* The end of a section whose bytes begin here. */
static size_t end_of_section(const struct question *q, size_t from)
{
    for (; from < q->length; from++)
        if (begins(q, from, section_end))
            return from + strlen(section_end);
    return q->length;
}

static size_t piece_end(const struct question *q, size_t from)
{
    if (q->text[from] != '<') {
        const uint8_t *tag = memchr(q->text + from, '<', q->length - from);
        return tag ? (size_t)(tag - q->text) : q->length;
    }
    return begins(q, from, section) ? end_of_section(q, from + strlen(section)) : tag_end(q, from);
}

/* Whether a tag is one of a typed item, if it is taken: the names of all other elements begin otherwise, or end there. */
static bool is_typed(const struct question *q, size_t from, const char *beginning)
{
    return begins(q, from, beginning) && q->text[from + strlen(beginning)] >= 'A';
}

/* Whether what follows the first pieces stands in a body: behind a section, or behind a typed item's opening tag that does not close itself. */
static bool is_body_behind(const struct question *q, size_t pieces)
{
    struct piece last = q->pieces[pieces];
    if (pieces == 0)
        return false;
    return begins(q, last.first, section) || (is_typed(q, last.first, "<ItemData") && q->text[last.end - 2] != '/');
}

/* Each piece has a byte or more. */
static void cut(struct question *q)
{
    size_t first = 0, end = 0;
    q->pieces[0] = (struct piece){0, 0};
    q->count = 0;
    while ((first = is_body_behind(q, q->count) ? end : past_white(q->text, q->length, end)) < q->length) {
        end = piece_end(q, first);
        q->pieces[++q->count] = (struct piece){(uint32_t)first, (uint32_t)end};
    }
}

static bool begin(struct question *q, const struct image *store, struct text file, uint32_t refusal)
{
    bool declared = file.length >= DECLARATION && memcmp(file.at, declaration, DECLARATION) == 0;
    q->store = store;
    q->refusal = refusal;
    q->left_out = declared ? DECLARATION - 1 : 0;
    q->length = file.length - q->left_out;
    q->text = calloc(q->length + STRANGER, 1);
    q->pieces = malloc((q->length + 1) * sizeof *q->pieces);
    if (!q->text || !q->pieces)
        return false;
    if (q->length)
        memcpy(q->text, file.at + q->left_out, q->length);
    if (declared)
        q->text[0] = ' ';
    cut(q);
    return true;
}

/* What an import of the first bytes answers, with or without an unknown element behind them. */
static uint32_t ask(const struct question *q, size_t length, bool with_stranger)
{
    struct image copy = *q->store;
    uint8_t kept[STRANGER];
    if (!with_stranger)
        return image_import(&copy, (struct text){q->text, length}).refusal;
    memcpy(kept, q->text + length, STRANGER);
    memcpy(q->text + length, stranger, STRANGER);
    uint32_t refusal = image_import(&copy, (struct text){q->text, length + STRANGER}).refusal;
    memcpy(q->text + length, kept, STRANGER);
    return refusal;
}

/* Whether the fault is within the first pieces. */
static bool is_within(const struct question *q, size_t pieces)
{
    return ask(q, q->pieces[pieces].end, q->refusal == ODM_WRITTEN_FORM) == q->refusal;
}

/* The first piece with the fault within, out of 1 to `most`; `most` + 1 where it is in none of them. */
static size_t halve(const struct question *q, size_t most)
{
    size_t without = 0, with = most + 1;
    while (without + 1 < with) {
        size_t middle = without + (with - without) / 2;
        if (is_within(q, middle))
            with = middle;
        else
            without = middle;
    }
    return with;
}

/* How many pieces can be asked about. In a file of nearly the greatest length and without a declaration there is no room for the unknown element behind
   the last ones; then the fault is in the first of these or behind it, and which of the two is not told. */
static size_t askable(const struct question *q)
{
    size_t most = q->count;
    while (q->refusal == ODM_WRITTEN_FORM && most > 0 && q->pieces[most].end + STRANGER > ODM_FILE_MOST)
        most--;
    return most;
}

static void count_lines(struct text file, size_t byte, struct place *place)
{
    place->line = 1;
    place->column = 1;
    for (size_t i = 0; i < byte; i++) {
        place->column = file.at[i] == '\n' ? 1 : place->column + 1;
        place->line += file.at[i] == '\n';
    }
}

/* The opening tag of a typed item, out of its closing tag: between them are a text or a section, or nothing. */
static size_t opening_of(const struct question *q, size_t closing)
{
    size_t opening = closing - 1;
    while (opening > 1 && !is_typed(q, q->pieces[opening].first, "<ItemData"))
        opening--;
    return opening;
}

static void show_piece(const struct question *q, size_t number, struct place *place)
{
    struct piece piece = q->pieces[number];
    bool text = q->text[piece.first] != '<';
    place->kind = text ? PLACE_TEXT : PLACE_TAG;
    place->exact = piece.end;
    if (begins(q, piece.first, section) || (text && is_body_behind(q, number - 1)))
        place->exact = piece.first;
    if (q->refusal != ODM_WRITTEN_FORM && is_typed(q, piece.first, "</ItemData")) {
        struct piece opening = q->pieces[opening_of(q, number)];
        place->kind = PLACE_ITEM;
        place->exact = opening.end;
        piece.first = opening.first;
    }
    place->first = piece.first + q->left_out;
    place->exact += q->left_out;
    place->end = piece.end + q->left_out;
}

static struct place look_for(const struct question *q, size_t length)
{
    struct place place = {.kind = PLACE_END, .first = length, .end = length};
    size_t most = askable(q), piece = halve(q, most);
    bool found = piece <= most;
    if (found && ask(q, q->pieces[piece].end, false) == ODM_ACCEPTED)
        piece++;
    if (piece <= q->count) {
        show_piece(q, piece, &place);
        place.or_behind = !found;
    }
    return place;
}

struct place place_of(const struct image *store, struct text file, uint32_t refusal)
{
    struct place place = {.kind = PLACE_NONE};
    struct question q;
    if (refusal == ODM_FILE_TOO_LONG) {
        place = (struct place){.kind = PLACE_BYTE, .first = ODM_FILE_MOST, .end = ODM_FILE_MOST + 1};
    } else {
        bool begun = begin(&q, store, file, refusal);
        if (begun)
            place = look_for(&q, file.length);
        free(q.text);
        free(q.pieces);
    }
    count_lines(file, place.first, &place);
    return place;
}

/* One byte as it is shown. */
static int shown(uint8_t byte, char *to, size_t room)
{
    if (byte < 32 || byte > 126)
        return snprintf(to, room, "\\x%02x", byte);
    return snprintf(to, room, "%c", byte);
}

/* Cut at a space, so that an attribute is shown whole or not at all; where there is none, or in a body, at the room's end. */
static void cut_excerpt(char *excerpt, size_t length, bool in_body)
{
    size_t space = in_body ? 0 : length;
    while (space > 0 && excerpt[space - 1] != ' ')
        space--;
    if (space > 0)
        length = space;
    snprintf(excerpt + length, EXCERPT_ROOM - length, "%s", space > 0 ? ".." : " ..");
}

void place_excerpt(const struct place *place, struct text file, char excerpt[EXCERPT_ROOM])
{
    size_t length = 0;
    for (size_t i = place->first; i < place->end; i++) {
        bool white = i < place->exact && is_white(file.at[i]);
        if (white && i > place->first && is_white(file.at[i - 1]))
            continue;
        if (length + sizeof "\\xNN" + sizeof " .." > EXCERPT_ROOM) {
            cut_excerpt(excerpt, length, i >= place->exact);
            return;
        }
        length += (size_t)shown(white ? ' ' : file.at[i], excerpt + length, EXCERPT_ROOM - length);
    }
    while (place->exact >= place->end && length > 0 && excerpt[length - 1] == ' ')
        length--;
    excerpt[length] = '\0';
}
