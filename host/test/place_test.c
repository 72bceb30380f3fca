/* The place of a fault, against files whose fault was put in on purpose, and against every beginning of them.
 *
 *   known:  files with one fault, of each number 4 to 13 and 16, at each depth, at opening and closing tags, in text, in bodies, at the end; items are
 *           untyped and of each type; the place is the one where the fault was put in.
 *   long:   the same numbers in files of exactly 262,144 bytes, near the front, in the middle and near the end; and single bodies as long as that.
 *   random: files broken at random, with items of either sort, or both.
 *
 * Each small file is also tried byte by byte (oracle.h).
 */
#include <stdarg.h>
#include <stdio.h>
#include <stdlib.h>
#include <string.h>

#include "oracle.h"

/* odm_import is wrapped by the linker, so that the imports that are asked for one place can be counted. */
odm_answer __real_odm_import(uint32_t *, size_t, uint8_t *, size_t, const uint8_t *, size_t);
odm_answer __wrap_odm_import(uint32_t *, size_t, uint8_t *, size_t, const uint8_t *, size_t);

static size_t imports;

odm_answer __wrap_odm_import(uint32_t *numbers, size_t numbers_length, uint8_t *bytes, size_t bytes_length, const uint8_t *file, size_t file_length)
{
    imports++;
    return __real_odm_import(numbers, numbers_length, bytes, bytes_length, file, file_length);
}

static struct {
    size_t known, typed, at_long, random, byte_by_byte, most_imports, failures;
    size_t by_number[ODM_MIXED_ITEMS + 1];
} counts;

static void fail(const char *name, const char *format, ...)
{
    va_list arguments;
    va_start(arguments, format);
    printf("FAILED: %s: ", name);
    vprintf(format, arguments);
    putchar('\n');
    va_end(arguments);
    counts.failures++;
}

/* A file in the making, with the place where its fault was put, and where that ends, 0 if that is not looked at. */
struct file {
    size_t length;
    size_t fault;
    size_t fault_end;
    uint8_t at[ODM_FILE_MOST + 4096];
};

static void add(struct file *file, const char *format, ...)
{
    va_list arguments;
    va_start(arguments, format);
    size_t room = sizeof file->at - file->length;
    int length = vsnprintf((char *)file->at + file->length, room, format, arguments);
    va_end(arguments);
    if (length < 0 || (size_t)length >= room)
        abort();
    file->length += (size_t)length;
}

static struct text text_in(const struct file *file)
{
    return (struct text){file->at, file->length};
}

/* The sorts of items, the untyped one first; a body that a type takes, and one that it does not. */
static const struct sort {
    const char *name, *good, *bad;
} sorts[] = {
    {"ItemData", "", ""},
    {"ItemDataString", "a > \"b\" ]] '", "This is a text of one byte more than 40.."},
    {"ItemDataInteger", "-120", "1.5"},
    {"ItemDataFloat", "36.6", "1."},
    {"ItemDataDate", "2014-03-01", "2014-02-29"},
    {"ItemDataDatetime", "2014-03-01T09:00:00", "2014-03-01"},
};

enum { SORTS = sizeof sorts / sizeof *sorts };

/* That of the items at hand. */
static const struct sort *items = sorts, *const first_type = sorts + 1;

/* ---- one file ---- */

static void check_byte_by_byte(const char *name, const struct image *store, const struct file *file, uint32_t refusal, const struct place *place)
{
    counts.byte_by_byte++;
    if (!oracle_agrees(store, text_in(file), refusal, place))
        fail(name, "refused %u, told at %zu to %zu, but byte by byte elsewhere", refusal, place->first, place->end);
}

static size_t log2_up(size_t number)
{
    size_t log = 0;
    while (((size_t)1 << log) < number)
        log++;
    return log;
}

static struct place find(const char *name, const struct image *store, const struct file *file, uint32_t refusal)
{
    imports = 0;
    struct place place = place_of(store, text_in(file), refusal);
    if (imports > counts.most_imports)
        counts.most_imports = imports;
    if (imports > log2_up(file->length + 2) + 2)
        fail(name, "%zu imports to find the place in %zu bytes", imports, file->length);
    return place;
}

/* A file with one fault that is known. */
static void check_known(const char *name, const struct image *store, const struct file *file, uint32_t refusal, enum place_kind kind)
{
    uint32_t answer = refusal_of(store, file->at, file->length);
    if (answer != refusal) {
        fail(name, "answered %u, %u was meant", answer, refusal);
        return;
    }
    struct place place = find(name, store, file, refusal);
    if (place.kind != kind || place.first != file->fault || place.or_behind)
        fail(name, "refused %u, told at %zu (kind %d), put in at %zu (kind %d)", refusal, place.first, place.kind, file->fault, kind);
    if (file->fault_end && place.end != file->fault_end)
        fail(name, "refused %u, told up to %zu, put in up to %zu", refusal, place.end, file->fault_end);
    /* Of the types one will do; the files broken at random have all. */
    if (file->length <= ORACLE_MOST && items <= first_type)
        check_byte_by_byte(name, store, file, refusal, &place);
    counts.known++;
    counts.by_number[refusal]++;
}

/* ---- files with one fault ---- */

#define XMLNS "http://www.cdisc.org/ns/odm/v1.3"
#define DECLARATION "<?xml version=\"1.0\" encoding=\"UTF-8\"?>\n"

enum { LEVELS = 7, ODM = 0, CLINICAL = 1, SUBJECT = 2, ITEM = 6 };

static const struct {
    const char *name, *own; /* the attributes that an element must have */
} elements[LEVELS] = {
    {"ODM", "xmlns=\"" XMLNS "\" FileType=\"Transactional\" FileOID=\"F\" CreationDateTime=\"2014-03-01T09:00:00\" ODMVersion=\"1.3.2\" "
            "Description='a \"b\" > c'"},
    {"ClinicalData", "StudyOID=\"ST\" MetaDataVersionOID=\"V1\""},
    {"SubjectData", "SubjectKey=\"S\""},
    {"StudyEventData", "StudyEventOID=\"E\""},
    {"FormData", "FormOID='F'"},
    {"ItemGroupData", "ItemGroupOID=\"G\" ItemGroupRepeatKey=\"1\""},
    {"ItemData", "ItemOID=\"I\""},
};

static bool are_typed(void)
{
    return items != sorts;
}

static const char *name_at(int level)
{
    return level == ITEM ? items->name : elements[level].name;
}

static const char *upsert_at(int level)
{
    return level == SUBJECT ? " TransactionType=\"Upsert\"" : "";
}

/* The opening tags above a level; all are taken by any store. */
static void add_above(struct file *file, int level)
{
    file->length = 0;
    add(file, DECLARATION);
    for (int above = 0; above < level; above++)
        add(file, "%*s<%s %s%s>\n", above * 2, "", elements[above].name, elements[above].own, upsert_at(above));
    add(file, "%*s", level * 2, "");
    file->fault = file->length;
    file->fault_end = 0;
}

static void add_closings(struct file *file, int level)
{
    add(file, "\n");
    while (level-- > 0)
        add(file, "</%s>\n", elements[level].name);
}

/* One tag in the place of a right one at this level, and then all closing tags. */
static void check_tag(const char *name, const struct image *store, int level, uint32_t refusal, enum place_kind kind, const char *tag)
{
    static struct file file;
    add_above(&file, level);
    add(&file, "%s", tag);
    add_closings(&file, level);
    check_known(name, store, &file, refusal, kind);
}

/* The written form of a tag, its name, its attributes and their values: 4, 5, 6, 7. */
static void check_opening_forms(const struct image *store, int level)
{
    static const char *const broken[] = {
        "<%s %s Q=\"1\" Q=\"2\"/>", "<%s %s Q=1/>", "<%s %s Q=\"a<b\"/>", "<%s %s Q=\"&x;\"/>", "<%s %s Q/>", "<%s %s Q=\"1\"R=\"2\"/>",
        "<%s %s / >", "< %s %s/>", "<%s %s Q=\"\x01\"/>", "<%s %s", "<%s %s Q=\"", "<%s %s Q='", "<%s\"%s/>", "<%s %s !/>",
    };
    char tag[512];
    for (size_t i = 0; i < sizeof broken / sizeof *broken; i++) {
        snprintf(tag, sizeof tag, broken[i], name_at(level), elements[level].own);
        check_tag("broken opening tag", store, level, 4, PLACE_TAG, tag);
    }
    check_tag("unknown element", store, level, 5, PLACE_TAG, "<AdminData/>");
    check_tag("element elsewhere", store, level, 5, PLACE_TAG, level == ITEM ? "<ODM/>" : "<ItemData ItemOID=\"I\"/>");
    check_tag("typed item elsewhere", store, level, 5, PLACE_TAG,
              level == ITEM ? "<ItemDataAny ItemOID=\"I\">a</ItemDataAny>" : "<ItemDataDate ItemOID=\"I\">a</ItemDataDate>");
    snprintf(tag, sizeof tag, "<%s %s Sex=\"F\"/>", name_at(level), elements[level].own);
    check_tag("unknown attribute", store, level, 6, PLACE_TAG, tag);
    snprintf(tag, sizeof tag, "<%s/>", name_at(level));
    check_tag("attribute missing", store, level, 6, PLACE_TAG, tag);
    const char *quote = strpbrk(elements[level].own, "\"'");
    snprintf(tag, sizeof tag, "<%s %.*s ?%s/>", name_at(level), (int)(quote + 1 - elements[level].own), elements[level].own, quote + 1);
    check_tag("value of no form", store, level, 7, PLACE_TAG, tag);
    check_tag("text", store, level, 4, PLACE_TEXT, "text");
    check_tag("text before a tag", store, level, 4, PLACE_TEXT, "&amp; <X/>");
    check_tag("comment", store, level, 4, PLACE_TAG, "<!-- a comment -->");
    check_tag("section between tags", store, level, 4, PLACE_TAG, "<![CDATA[a > \" b]]>");
    check_tag("declaration in the midst", store, level, 4, PLACE_TAG, DECLARATION);
}

/* Closing tags that are wrong or missing. With nothing open yet every closing tag is wrong. */
static void check_closing_forms(const struct image *store, int level)
{
    static const char *const broken[] = {"</Wrong>", "</%s Q=\"1\">", "</ %s>", "</%s", "</%s/>", "</>"};
    static struct file file;
    char tag[64];
    for (size_t i = 0; i < sizeof broken / sizeof *broken; i++) {
        snprintf(tag, sizeof tag, broken[i], level ? elements[level - 1].name : "ODM");
        check_tag("wrong closing tag", store, level, 4, PLACE_TAG, tag);
    }
    snprintf(tag, sizeof tag, "</%s>", elements[level > 1 ? level - 2 : 1].name);
    check_tag("closing tag of another", store, level, 4, PLACE_TAG, tag);
    add_above(&file, level);
    file.fault = file.length;
    check_known("closing tags missing", store, &file, 4, PLACE_END);
}

/* Entities down to a level are made, and then removed: under Remove nothing may be inserted. */
static void check_word_under_remove(const struct image *store, int level)
{
    static struct file file;
    add_above(&file, level);
    for (int made = level - 1; made >= SUBJECT; made--)
        add(&file, "</%s>", elements[made].name);
    for (int removed = SUBJECT; removed < level; removed++)
        add(&file, "<%s %s%s>\n", elements[removed].name, elements[removed].own, removed == SUBJECT ? " TransactionType=\"Remove\"" : "");
    file.fault = file.length;
    add(&file, "<%s %s TransactionType=\"Insert\"/>", name_at(level), elements[level].own);
    add_closings(&file, level);
    check_known("not Remove under Remove", store, &file, 10, PLACE_TAG);
}

static void check_word_in_snapshot(const struct image *store, int level)
{
    static struct file file;
    file.length = 0;
    add(&file, "<ODM xmlns=\"" XMLNS "\" FileType=\"Snapshot\" FileOID=\"F\" CreationDateTime=\"2014-03-01T09:00:00\" ODMVersion=\"1.3.2\">");
    for (int above = CLINICAL; above < level; above++)
        add(&file, "<%s %s>", elements[above].name, elements[above].own);
    file.fault = file.length;
    add(&file, "<%s %s TransactionType=\"Upsert\"/>", name_at(level), elements[level].own);
    add_closings(&file, level);
    check_known("not Insert in a Snapshot", store, &file, 10, PLACE_TAG);
}

/* Words, and what is live: 10, 11, 12 at each depth of an entity. */
static void check_words(const struct image *store, int level)
{
    static struct file file;
    char tag[256];
    const char *name = name_at(level), *own = elements[level].own;
    if (level == SUBJECT)
        check_tag("word missing", store, level, 10, PLACE_TAG, "<SubjectData SubjectKey=\"S\"/>");
    else
        check_word_under_remove(store, level);
    check_word_in_snapshot(store, level);
    snprintf(tag, sizeof tag, "<%s %s TransactionType=\"Context\"/>", name, own);
    check_tag("not live", store, level, 12, PLACE_TAG, tag);
    add_above(&file, level);
    add(&file, "<%s %s TransactionType=\"Insert\"/>\n", name, own);
    file.fault = file.length;
    add(&file, "<%s %s TransactionType=\"Insert\"/>", name, own);
    add_closings(&file, level);
    check_known("already live", store, &file, 11, PLACE_TAG);
}

/* The 513th live entity, at each depth. */
static void check_live_limit(const struct image *store, int level)
{
    static struct file file;
    add_above(&file, SUBJECT);
    for (int i = 0; i < (int)ODM_LIVE_MOST - (level - SUBJECT); i++)
        add(&file, "<SubjectData SubjectKey=\"N%d\" TransactionType=\"Insert\"/>\n", i);
    for (int above = SUBJECT; above < level; above++)
        add(&file, "<%s %s%s>\n", elements[above].name, elements[above].own, upsert_at(above));
    file.fault = file.length;
    add(&file, "<%s %s%s/>", name_at(level), elements[level].own, upsert_at(level));
    add_closings(&file, level);
    check_known("513th live", store, &file, 13, PLACE_TAG);
}

/* Changes up to the limit by writing one item again and again; then a Remove of a chain of this depth. Its innermost end is the 2,049th change, so the
   fault is at that closing tag, or at the tag itself where it closes itself, and not at the opening tags, at which a file closed there fails, too. The end
   of a typed item is told at the item. */
static void check_remove_limit(const struct image *store, int level, int room, bool itself)
{
    static struct file file;
    bool at_item = are_typed() && level == ITEM && !itself && room == 0;
    add_above(&file, ITEM);
    for (int i = ITEM - SUBJECT; i < (int)ODM_CHANGES_MOST - room; i++)
        add(&file, are_typed() ? "<%s ItemOID=\"I\"/>\n" : "<%s ItemOID=\"I\" Value=\"1\"/>\n", items->name);
    for (int above = ITEM - 1; above >= SUBJECT; above--)
        add(&file, "</%s>\n", elements[above].name);
    for (int at = SUBJECT; at < level; at++)
        add(&file, "<%s %s%s>\n", elements[at].name, elements[at].own, at == SUBJECT ? " TransactionType=\"Remove\"" : "");
    file.fault = file.length;
    add(&file, "<%s %s%s%s>", name_at(level), elements[level].own, level == SUBJECT ? " TransactionType=\"Remove\"" : "", itself ? "/" : "");
    for (int at = itself ? level - 1 : level; at >= SUBJECT; at--) {
        /* The ends that still have room come first. */
        if (level - at == room && !at_item)
            file.fault = file.length;
        add(&file, "</%s>\n", name_at(at));
    }
    add_closings(&file, SUBJECT);
    check_known("2,049th change at a Remove's end", store, &file, 13, at_item ? PLACE_ITEM : PLACE_TAG);
}

/* Above the items it does not matter of what sort they are. */
static void check_remove_limits(const struct image *store)
{
    for (int level = are_typed() ? ITEM : SUBJECT; level <= ITEM; level++)
        for (int room = 0; room <= level - SUBJECT; room++)
            for (int itself = 0; itself <= 1; itself++)
                check_remove_limit(store, level, room, itself);
}

/* The head of a file, and what may stand around ODM. */
static void check_frame(const struct image *store, const struct image *full)
{
    static struct file file;
    static const char *const heads[] = {
        "<ODM %s PriorFileOID=\"P\">", "<ODM %s AsOfDateTime=\"2014-03-01T09:00:01\">",
    };
    char tag[512];
    for (size_t i = 0; i < sizeof heads / sizeof *heads; i++) {
        snprintf(tag, sizeof tag, heads[i], elements[ODM].own);
        check_tag("series", store, ODM, 9, PLACE_TAG, tag);
    }
    snprintf(tag, sizeof tag, "<ODM %s PriorFileOID=\"F63\">", elements[ODM].own);
    check_tag("65th file", full, ODM, 13, PLACE_TAG, tag);
    check_tag("study", store, CLINICAL, 8, PLACE_TAG, "<ClinicalData StudyOID=\"SU\" MetaDataVersionOID=\"V1\"/>");
    file.length = file.fault = 0;
    check_known("empty file", store, &file, 4, PLACE_END);
    static const char *const behind[] = {"<X/>", "<ODM/>", "text", "<", "</ODM>", "\x01", "<!-- -->", ">"};
    for (size_t i = 0; i < sizeof behind / sizeof *behind; i++) {
        add_above(&file, SUBJECT);
        add_closings(&file, SUBJECT);
        file.fault = file.length;
        add(&file, "%s\n", behind[i]);
        check_known("behind ODM", store, &file, 4, strchr(behind[i], '<') ? PLACE_TAG : PLACE_TEXT);
    }
    static const char *const before[] = {"<?xml version='1.0' encoding='UTF-8'?>\n", " " DECLARATION, "\xef\xbb\xbf" DECLARATION, DECLARATION DECLARATION};
    for (size_t i = 0; i < sizeof before / sizeof *before; i++) {
        file.length = 0;
        add(&file, "%s<ODM %s/>", before[i], elements[ODM].own);
        file.fault = i == 1 ? 1 : i == 3 ? strlen(DECLARATION) : 0;
        check_known("before ODM", store, &file, 4, i == 2 ? PLACE_TEXT : PLACE_TAG);
    }
}

/* ---- bodies ---- */

/* A text in which `@` stands for the place where the fault begins, and once more where it ends, `$` for the name of the items at hand, `#` for a body that
   they take, `~` for one that they do not. */
static void add_marked(struct file *file, const char *text)
{
    for (; *text; text++) {
        if (*text == '@' && file->fault)
            file->fault_end = file->length;
        else if (*text == '@')
            file->fault = file->length;
        else if (*text == '$')
            add(file, "%s", items->name);
        else if (*text == '#' || *text == '~')
            add(file, "%s", *text == '#' ? items->good : items->bad);
        else
            add(file, "%c", *text);
    }
}

/* Bodies that are taken, and in which a tag, a section or a quote seems to begin or to end. */
static const char *const hostile[] = {
    ">", "'", "\"", "]]", "]]&gt;", "/>", "-->", " ", "", "&lt;/ItemDataString&gt;", "<![CDATA[<ItemDataString ItemOID=\"X\">]]>",
    "<![CDATA[</ItemDataString>]]>", "<![CDATA[<![CDATA[]]>", "<![CDATA[\"]]>", "<![CDATA[']]>", "<![CDATA[<!--]]>", "<![CDATA[>]] ]>]]>", "<![CDATA[]]]]>",
    "<![CDATA[]]>", "<![CDATA[&x;]]>", "<![CDATA[a=\"/>]]>", "<![CDATA[<]]>",
};

/* Some of them; with one number after another, all. */
static void add_hostile(struct file *file, size_t number)
{
    for (size_t i = 0; i < 5; i++)
        add(file, "<ItemDataString ItemOID=\"H\">%s</ItemDataString>\n", hostile[(number + 5 * i) % (sizeof hostile / sizeof *hostile)]);
}

/* The faults that one typed item can have, at its opening tag, in its body and at its closing tag. */
static const struct {
    uint32_t refusal;
    enum place_kind kind;
    const char *text;
} typed[] = {
    {4, PLACE_TAG, "@<$ ItemOID='I' ItemOID='I'>@#</$>"},
    {6, PLACE_TAG, "@<$>@#</$>"},
    {6, PLACE_TAG, "@<$ ItemOID='I' Value='1'>@#</$>"},
    {6, PLACE_TAG, "@<$ ItemOID='I' IsNull='Yes'/>@"},
    {6, PLACE_TAG, "@<$ ItemOID='I' MeasurementUnitOID='>'>@a&b</$>"},
    {7, PLACE_TAG, "@<$ ItemOID='a b'>@#</$>"},
    {7, PLACE_TAG, "@<$ ItemOID='a > b'>@a&b</$>"},
    {7, PLACE_TAG, "@<$ ItemOID='I' TransactionType='insert'>@<![CDATA[#]]></$>"},
    {5, PLACE_TAG, "@<$s ItemOID='I'>@#</$s>"},
    /* What the body says. */
    {7, PLACE_ITEM, "@<$ ItemOID='I'>~</$>@"},
    {7, PLACE_ITEM, "@<$\n  ItemOID='I'\n>~</$\n>@"},
    {7, PLACE_ITEM, "@<$ ItemOID='I'><![CDATA[~]]></$>@"},
    {7, PLACE_ITEM, "@<$ ItemOID='I'>1234567890123456789012345678901234567890&amp;</$>@"},
    {7, PLACE_ITEM, "@<$ ItemOID='I'><![CDATA[<$ ItemOID='A'><![CDATA[></$><<<<<<>>>>>>>>>>>>>>]]></$>@"},
    {7, PLACE_ITEM, "<$ ItemOID='I'>#</$>\n@<$ ItemOID='I' TransactionType='Insert'>~</$>@"},
    {7, PLACE_ITEM, "@<$ ItemOID='Z' TransactionType='Context'>~</$>@"},
    {11, PLACE_ITEM, "<$ ItemOID='I'>#</$>\n@<$ ItemOID='I' TransactionType='Insert'>#</$>@"},
    {11, PLACE_ITEM, "<$ ItemOID='I'/>@<$ ItemOID='I' TransactionType='Insert'><![CDATA[#]]></$>@"},
    {11, PLACE_ITEM, "<$ ItemOID='I'/>@<$ ItemOID='I' TransactionType='Insert'></$>@"},
    {11, PLACE_TAG, "<$ ItemOID='I'></$>@<$ ItemOID='I' TransactionType='Insert'/>@"},
    {12, PLACE_ITEM, "@<$ ItemOID='Z' TransactionType='Update'>#</$>@"},
    {12, PLACE_ITEM, "@<$ ItemOID='Z' TransactionType='Context'><![CDATA[#]]></$>@"},
    {12, PLACE_ITEM, "@<$ ItemOID='Z' TransactionType='Remove'></$>@"},
    {12, PLACE_TAG, "@<$ ItemOID='Z' TransactionType='Remove'/>@"},
    /* How the text is written. */
    {4, PLACE_TEXT, "<$ ItemOID='I'>@a&b@</$>"},
    {4, PLACE_TEXT, "<$ ItemOID='I'>@&@</$>"},
    {4, PLACE_TEXT, "<$ ItemOID='I'>@&x;@<![CDATA[#]]></$>"},
    {4, PLACE_TEXT, "<$ ItemOID='I'>@a&b@<Foo/></$>"},
    {4, PLACE_TEXT, "<$ ItemOID='I'>@&amp@</$>"},
    {4, PLACE_TEXT, "<$ ItemOID='I'>@a]]>b@</$>"},
    {4, PLACE_TEXT, "<$ ItemOID='I'>@]]>@<![CDATA[#]]></$>"},
    {4, PLACE_TEXT, "<$ ItemOID='I'>@\x01@</$>"},
    {4, PLACE_TEXT, "<$ ItemOID='I'>@\n@</$>"},
    {4, PLACE_TEXT, "<$ ItemOID='I'>@#\n@</$>"},
    {4, PLACE_TEXT, "<$ ItemOID='I'>@ \t #@</$>"},
    {4, PLACE_TEXT, "<$ ItemOID='I'>@\n  @<![CDATA[#]]>\n</$>"},
    {4, PLACE_TEXT, "<$ ItemOID='I'><![CDATA[#]]>@\n@</$>"},
    {4, PLACE_TEXT, "<$ ItemOID='I'><![CDATA[#]]>@ @</$>"},
    {4, PLACE_TEXT, "<$ ItemOID='I'><![CDATA[]]>@#@</$>"},
    {4, PLACE_TEXT, "<$ ItemOID='I'><![CDATA[a]]>@b]]>c@</$>"},
    /* Sections. */
    {4, PLACE_TAG, "<$ ItemOID='I'>#@<![CDATA[#]]>@</$>"},
    {4, PLACE_TAG, "<$ ItemOID='I'> @<![CDATA[a > b \" < c]]>@</$>"},
    {4, PLACE_TAG, "<$ ItemOID='I'><![CDATA[#]]>@<![CDATA[#]]>@</$>"},
    {4, PLACE_TAG, "<$ ItemOID='I'><![CDATA[]]>@<![CDATA[]]>@</$>"},
    {4, PLACE_TAG, "<$ ItemOID='I'>@<![CDATA[\n<>\n]]>@</$>"},
    {4, PLACE_TAG, "<$ ItemOID='I'>@<![CDATA[> \x01 ]] >]]>@</$>"},
    {4, PLACE_TAG, "<$ ItemOID='I'>@<![CDATA [>@]]></$>"},
    {4, PLACE_TAG, "<$ ItemOID='I'>@<![cdata[>@]]></$>"},
    {4, PLACE_TAG, "<$ ItemOID='I'>@<![CDATA[#</$> ]] > ]>"},
    /* The tag behind it. */
    {4, PLACE_TAG, "<$ ItemOID='I'>#@</$/>@"},
    {4, PLACE_TAG, "<$ ItemOID='I'>#@</ItemData>@"},
    {4, PLACE_TAG, "<$ ItemOID='I'>#@</ItemGroupData>@"},
    {4, PLACE_TAG, "<$ ItemOID='I'><![CDATA[#]]>@</$s>@"},
    {4, PLACE_TAG, "<$ ItemOID='I'>~@</$ ItemOID='I'>@"},
    {4, PLACE_TAG, "<$ ItemOID='I'>#@<!-- >@ --></$>"},
    {4, PLACE_TAG, "<$ ItemOID='I'>#@< Foo>@</$>"},
    {4, PLACE_TAG, "<$ ItemOID='I'/>@</$>@"},
    {4, PLACE_TAG, "<$ ItemOID='I'>@<Foo ItemOID='>' ItemOID='>'>@"},
    {5, PLACE_TAG, "<$ ItemOID='I'>@<Foo/>@</$>"},
    {5, PLACE_TAG, "<$ ItemOID='I'>#@<AuditRecord>@</AuditRecord></$>"},
    {5, PLACE_TAG, "<$ ItemOID='I'>~@<Foo Bar='a > b'>@"},
    {5, PLACE_TAG, "<$ ItemOID='I'><![CDATA[#]]>@<$ ItemOID='J'>@#</$></$>"},
    /* The other sort. */
    {16, PLACE_TAG, "<$ ItemOID='I'>#</$>@<ItemData ItemOID='J'/>@"},
    {16, PLACE_TAG, "<$ ItemOID='I'/>@<ItemData ItemOID='a b' TransactionType='Context'/>@"},
    {6, PLACE_TAG, "<$ ItemOID='I'/>@<ItemData/>@"},
};

static void check_typed(const struct image *store)
{
    static struct file file;
    for (size_t i = 0; i < sizeof typed / sizeof *typed; i++) {
        add_above(&file, ITEM);
        add_hostile(&file, i);
        file.fault = 0;
        add_marked(&file, typed[i].text);
        add_closings(&file, ITEM);
        check_known(typed[i].text, store, &file, typed[i].refusal, typed[i].kind);
        counts.typed++;
    }
}

/* Behind an untyped item. */
static void check_mixed(const struct image *store)
{
    static const struct {
        uint32_t refusal;
        const char *tag;
    } faults[] = {
        {16, "@<$ ItemOID='I'>@#</$>"}, {16, "@<$ ItemOID='I'/>@"}, {16, "@<$ ItemOID='a b'>@a&b</$>"},
        {16, "@<$ ItemOID='I' TransactionType='Remove'>@~"}, {6, "@<$>@#</$>"}, {5, "@<ItemDataURI ItemOID='I'>@#</ItemDataURI>"}, {4, "@<$ ItemOID='I'ItemOID='I'>@"},
    };
    static struct file file;
    for (size_t i = 0; i < sizeof faults / sizeof *faults; i++) {
        add_above(&file, ITEM);
        file.fault = 0;
        add(&file, "<ItemData ItemOID=\"A\" Value=\"1 > 2\"/>\n");
        add_marked(&file, faults[i].tag);
        add_closings(&file, ITEM);
        check_known(faults[i].tag, store, &file, faults[i].refusal, PLACE_TAG);
        counts.typed++;
    }
}

/* A file that ends in a body: the end is at fault, unless a section or an entity has not ended. */
static void check_cut_bodies(const struct image *store)
{
    static const struct {
        enum place_kind kind;
        const char *body;
    } ends[] = {
        {PLACE_END, ""}, {PLACE_END, "#"}, {PLACE_END, "~"}, {PLACE_END, " "}, {PLACE_END, "]]"}, {PLACE_END, "<![CDATA[#]]>"},
        {PLACE_TAG, "@<@"}, {PLACE_TAG, "#@</$@"}, {PLACE_TAG, "@<![CDATA[@"}, {PLACE_TAG, "@<![CDATA[#]]@"}, {PLACE_TAG, "@<![CDATA@"},
        {PLACE_TEXT, "@#&am@"}, {PLACE_TEXT, "@\n@"}, {PLACE_TEXT, "<![CDATA[#]]>@ @"},
    };
    static struct file file;
    for (size_t i = 0; i < sizeof ends / sizeof *ends; i++) {
        add_above(&file, ITEM);
        add_hostile(&file, i);
        file.fault = 0;
        add_marked(&file, "<$ ItemOID='I'>");
        add_marked(&file, ends[i].body);
        if (ends[i].kind == PLACE_END)
            file.fault = file.length;
        check_known("file that ends in a body", store, &file, 4, ends[i].kind);
        counts.typed++;
    }
}

/* The 513th live entity, and the 2,049th change, at the closing tag of a typed item. */
static void check_typed_limits(const struct image *store)
{
    static struct file file;
    for (int live = 0; live <= 1; live++) {
        add_above(&file, ITEM);
        for (int i = ITEM - SUBJECT; i < (int)(live ? ODM_LIVE_MOST : ODM_CHANGES_MOST); i++)
            add(&file, "<%s ItemOID=\"N%d\">%s</%s>\n", items->name, live ? i : 0, live ? items->good : "", items->name);
        file.fault = 0;
        add_marked(&file, "@<$ ItemOID='I' TransactionType='Upsert'>#</$>@");
        add_closings(&file, ITEM);
        check_known("limit at a typed item", store, &file, 13, PLACE_ITEM);
        counts.typed++;
    }
}

/* ---- files of the greatest length ---- */

/* An item that adds no change. */
static void add_filler(struct file *file, bool as_section)
{
    add_marked(file, !are_typed()  ? "<ItemData ItemOID=\"I\" TransactionType=\"Context\"/>\n"
                     : as_section ? "<$ ItemOID=\"I\" TransactionType=\"Context\"><![CDATA[#]]></$>\n"
                                  : "<$ ItemOID=\"I\" TransactionType=\"Context\">#</$>\n");
}

/* Such items fill the file; the fault stands after so many bytes, and the rest is white space. */
static void check_long(const char *name, const struct image *store, const char *tag, uint32_t refusal, enum place_kind kind, size_t after)
{
    static struct file file;
    file.length = file.fault_end = 0;
    add(&file, DECLARATION);
    for (int above = 0; above < ITEM; above++)
        add(&file, "<%s %s%s>\n", elements[above].name, elements[above].own, upsert_at(above));
    add_marked(&file, "<$ ItemOID=\"I\"/>\n<$ ItemOID=\"N\" TransactionType=\"Insert\"/>\n");
    for (size_t i = 0; file.length < after; i++)
        add_filler(&file, i % 2);
    file.fault = 0;
    add_marked(&file, tag);
    for (size_t i = 0; file.length + 250 < ODM_FILE_MOST; i++)
        add_filler(&file, i % 2);
    add_closings(&file, ITEM);
    if (file.length > ODM_FILE_MOST)
        abort();
    memset(file.at + file.length, ' ', ODM_FILE_MOST - file.length);
    file.length = ODM_FILE_MOST;
    check_known(name, store, &file, refusal, kind);
    counts.at_long++;
}

static void check_all_long(const struct image *store)
{
    static const struct {
        uint32_t refusal;
        enum place_kind kind;
        const char *tag;
    } faults[] = {
        {4, PLACE_TAG, "@<$ ItemOID=\"I\" ItemOID=\"I\"/>@"}, {4, PLACE_TAG, "@</FormData>@"}, {4, PLACE_TEXT, "@text\n@"}, {4, PLACE_TAG, "@<$ Value=\""},
        {5, PLACE_TAG, "@<AuditRecord/>@"}, {6, PLACE_TAG, "@<$/>@"}, {7, PLACE_TAG, "@<$ ItemOID=\"I\" TransactionType=\"No\"/>@"},
        {11, PLACE_TAG, "@<$ ItemOID=\"N\" TransactionType=\"Insert\"/>@"}, {12, PLACE_TAG, "@<$ ItemOID=\"Z\" TransactionType=\"Update\"/>@"},
    }, bodies[] = {
        {4, PLACE_TEXT, "<$ ItemOID=\"I\">@a&b@</$>"}, {4, PLACE_TAG, "<$ ItemOID=\"I\">@<![CDATA["}, {4, PLACE_TAG, "<$ ItemOID=\"I\">#@<![CDATA[#]]>@</$>"},
        {5, PLACE_TAG, "<$ ItemOID=\"I\">#@<AuditRecord/>@</$>"}, {7, PLACE_ITEM, "@<$ ItemOID=\"I\">~</$>@"},
        {11, PLACE_ITEM, "@<$ ItemOID=\"N\" TransactionType=\"Insert\">#</$>@"}, {12, PLACE_ITEM, "@<$ ItemOID=\"Z\" TransactionType=\"Update\">#</$>@"},
        {16, PLACE_TAG, "@<ItemData ItemOID=\"I\"/>@"},
    };
    static const size_t places[] = {0, 131072, 261000};
    for (size_t at = 0; at < sizeof places / sizeof *places; at++) {
        for (size_t i = 0; i < sizeof faults / sizeof *faults; i++)
            check_long("long file", store, faults[i].tag, faults[i].refusal, faults[i].kind, places[at]);
        for (size_t i = 0; are_typed() && i < sizeof bodies / sizeof *bodies; i++)
            check_long("long file of typed items", store, bodies[i].tag, bodies[i].refusal, bodies[i].kind, places[at]);
    }
}

/* One body that fills a file of the greatest length with the same bytes again and again, and what the item is then refused with, and where. */
static void check_long_bodies(const struct image *store)
{
    static const struct {
        uint32_t refusal;
        enum place_kind kind;
        const char *before, *again, *behind;
    } bodies[] = {
        {7, PLACE_ITEM, "@<$ ItemOID='I'>", " ", "</$>@"},
        {7, PLACE_ITEM, "@<$ ItemOID='I'>", ">", "</$>@"},
        {7, PLACE_ITEM, "@<$ ItemOID='I'>", "]", "</$>@"},
        {7, PLACE_ITEM, "@<$ ItemOID='I'>", "\"", "</$>@"},
        {7, PLACE_ITEM, "@<$ ItemOID='I'>", "&amp;", "</$>@"},
        {7, PLACE_ITEM, "@<$ ItemOID='I'>", "]]&gt;", "</$>@"},
        {7, PLACE_ITEM, "@<$ ItemOID='I'><![CDATA[", "]]", "]]></$>@"},
        {7, PLACE_ITEM, "@<$ ItemOID='I'><![CDATA[", "]>", "]]></$>@"},
        {7, PLACE_ITEM, "@<$ ItemOID='I'><![CDATA[", "<", "]]></$>@"},
        {7, PLACE_ITEM, "@<$ ItemOID='I'><![CDATA[", "</$>", "]]></$>@"},
        {7, PLACE_ITEM, "@<$ ItemOID='I'><![CDATA[", "<a b=\"", "]]></$>@"},
        {7, PLACE_ITEM, "@<$ ItemOID='I'><![CDATA[", "<![CDATA[", "]]></$>@"},
        {4, PLACE_TEXT, "<$ ItemOID='I'>@", "&amp;", "&@</$>"},
        {4, PLACE_TEXT, "<$ ItemOID='I'>@", "]]", "]]>@</$>"},
        {4, PLACE_TEXT, "<$ ItemOID='I'>@", "\n", "@</$>"},
        {4, PLACE_TAG, "<$ ItemOID='I'>@<![CDATA[", "]] >", "</$>"},
        {4, PLACE_TAG, "<$ ItemOID='I'>@<![CDATA[", "<![CDATA[", "</$>"},
        {4, PLACE_TAG, "<$ ItemOID='I'>@<![CDATA[\n", ">", "]]>@</$>"},
        {4, PLACE_TAG, "<$ ItemOID='I'><![CDATA[]]>@<![CDATA[]]>@", "<![CDATA[]]>", "</$>"},
        {5, PLACE_TAG, "<$ ItemOID='I'>", ">", "@<Foo/>@</$>"},
        {5, PLACE_TAG, "<$ ItemOID='I'>@<Foo/>@", "<Foo/>", "</$>"},
        {5, PLACE_TAG, "<$ ItemOID='I'>@<Foo>@", "<>a", "</$>"},
    };
    static struct file file;
    for (size_t i = 0; i < sizeof bodies / sizeof *bodies; i++) {
        add_above(&file, ITEM);
        file.fault = 0;
        add_marked(&file, bodies[i].before);
        while (file.length + 250 < ODM_FILE_MOST)
            add_marked(&file, bodies[i].again);
        add_marked(&file, bodies[i].behind);
        add_closings(&file, ITEM);
        if (file.length > ODM_FILE_MOST)
            abort();
        memset(file.at + file.length, ' ', ODM_FILE_MOST - file.length);
        file.length = ODM_FILE_MOST;
        check_known("long body", store, &file, bodies[i].refusal, bodies[i].kind);
        counts.at_long++;
        counts.typed++;
    }
}

/* 8, 9, 10 and 13 have their own places, or need more before them. */
static void check_long_others(const struct image *store)
{
    static struct file file;
    static const struct {
        uint32_t refusal;
        const char *head, *clinical, *subject;
    } files[] = {
        {9, " PriorFileOID=\"P\"", "StudyOID=\"ST\"", " TransactionType=\"Upsert\""},
        {8, "", "StudyOID=\"SU\"", " TransactionType=\"Upsert\""},
        {10, "", "StudyOID=\"ST\"", ""},
        {13, "", "StudyOID=\"ST\"", " TransactionType=\"Upsert\""},
    };
    for (size_t i = 0; i < sizeof files / sizeof *files; i++) {
        file.length = file.fault = 0;
        add(&file, "<ODM %s%s>", elements[ODM].own, files[i].head);
        file.fault = files[i].refusal == 9 ? 0 : file.length;
        add(&file, "<ClinicalData %s MetaDataVersionOID=\"V1\">", files[i].clinical);
        for (int subject = 0; file.length + 100 < ODM_FILE_MOST; subject++) {
            if ((files[i].refusal == 10 && subject == 0) || (files[i].refusal == 13 && subject == (int)ODM_LIVE_MOST))
                file.fault = file.length;
            add(&file, "<SubjectData SubjectKey=\"N%d\"%s/>", subject, files[i].subject);
        }
        add(&file, "%*s</ClinicalData></ODM>", (int)(ODM_FILE_MOST - file.length - strlen("</ClinicalData></ODM>")), "");
        if (file.length != ODM_FILE_MOST)
            abort();
        check_known("long file", store, &file, files[i].refusal, PLACE_TAG);
        counts.at_long++;
    }
}

/* A file of the greatest length that ends with an opening tag, or in a body behind one. Only with a declaration is there room to see that the end is at
   fault. */
static void check_open_at_limit(const struct image *store, bool declared, int level, const char *tag)
{
    static struct file file;
    file.length = 0;
    add(&file, "%s", declared ? DECLARATION : "");
    for (int above = 0; above < level; above++)
        add(&file, "<%s %s%s>", elements[above].name, elements[above].own, upsert_at(above));
    size_t first = ODM_FILE_MOST - strlen(tag);
    add(&file, "%*s%s", (int)(first - file.length), "", tag);
    struct place place = find("limit", store, &file, refusal_of(store, file.at, file.length));
    bool at_end = place.kind == PLACE_END && !place.or_behind;
    bool at_tag = place.kind == PLACE_TAG && place.or_behind && place.first == first;
    if (declared ? !at_end : !at_tag)
        fail("closing tags missing at the limit", "told at %zu, kind %d", place.first, place.kind);
    counts.known++;
    counts.at_long++;
    counts.by_number[4]++;
}

static void check_too_long(const struct image *store)
{
    static struct file file;
    file.length = 0;
    add(&file, "%*s", (int)ODM_FILE_MOST + 1, "");
    file.fault = ODM_FILE_MOST;
    check_known("too long", store, &file, 3, PLACE_BYTE);
    counts.at_long++;
}

/* ---- files broken at random ---- */

static uint32_t state = 1;

static uint32_t random_below(uint32_t most)
{
    state = state * 1664525u + 1013904223u;
    return (uint32_t)(((uint64_t)(state >> 4) * most) >> 28);
}

static const char *const keys[] = {"A", "B", "C"};
#define WORD(word) " TransactionType=\"" word "\""
static const char *const words[] = {
    "", "", "", "", "", WORD("Upsert"), WORD("Upsert"), WORD("Upsert"), WORD("Insert"), WORD("Update"), WORD("Remove"), WORD("Context"),
};

static const char *pick_word(int level)
{
    return level == SUBJECT ? words[5 + random_below(7)] : words[random_below(12)];
}

/* The items of a file are all untyped, or all typed, or both. */
static enum { UNTYPED, TYPED, BOTH } random_sort;

static void pick_sort(void)
{
    bool is_typed = random_sort == TYPED || (random_sort == BOTH && random_below(2));
    items = is_typed ? first_type + random_below(SORTS - 1) : sorts;
}

/* What follows the attributes of an item: of a typed one mostly a body that is taken. */
static void add_item_end(struct file *file)
{
    static const char *const bodies[] = {
        "#", "#", "#", "#", "<![CDATA[#]]>", "<![CDATA[#]]>", "", " ", "&amp;", "<![CDATA[<a b=\">]] >]]>", "~", "#<![CDATA[#]]>", "\n#", "#<X/>",
    };
    if (!are_typed())
        add(file, "%s/>\n", random_below(2) ? " Value=\"1 &lt; '2' > 1\"" : "");
    else if (random_below(8) == 0)
        add(file, "/>\n");
    else {
        add(file, ">");
        add_marked(file, bodies[random_below(sizeof bodies / sizeof *bodies)]);
        add_marked(file, "</$>\n");
    }
}

/* A tree of entities below a level. */
static void add_random(struct file *file, int level)
{
    static const char *const oids[] = {"SubjectKey", "StudyEventOID", "FormOID", "ItemGroupOID", "ItemOID"};
    for (uint32_t times = random_below(level == SUBJECT ? 4 : 3) + (level == SUBJECT); times > 0; times--) {
        pick_sort();
        add(file, "<%s %s=\"%s\"%s", name_at(level), oids[level - SUBJECT], keys[random_below(3)], pick_word(level));
        if (level == ITEM) {
            add_item_end(file);
            continue;
        }
        add(file, ">\n");
        add_random(file, level + 1);
        add(file, "</%s>\n", elements[level].name);
    }
}

/* A few bytes are changed, dropped, put in, or moved. */
static void break_file(struct file *file)
{
    static const char strange[] = "<>/\"'=& \nAX;!?:[]\x01";
    for (uint32_t times = random_below(3); times > 0 && file->length > 10; times--) {
        size_t at = random_below((uint32_t)file->length), length = 1 + random_below(40);
        uint32_t how = random_below(4);
        if (how == 0) {
            file->at[at] = (uint8_t)strange[random_below(sizeof strange - 1)];
        } else if (how == 1 && at + length < file->length) {
            memmove(file->at + at, file->at + at + length, file->length - at - length);
            file->length -= length;
        } else if (how == 2 && at + length < file->length) {
            memmove(file->at + at + length, file->at + at, file->length - at);
            file->length += length;
        } else if (how == 3) {
            file->length = random_below(8) ? file->length : at;
        }
    }
}

static void check_random(const struct image *store, size_t times)
{
    static struct file file;
    while (counts.random < times) {
        file.length = 0;
        random_sort = random_below(5) < 2 ? UNTYPED : random_below(8) ? TYPED : BOTH;
        add(&file, "%s<ODM %s>\n<ClinicalData %s>\n", random_below(2) ? DECLARATION : "", elements[ODM].own, elements[CLINICAL].own);
        add_random(&file, SUBJECT);
        add(&file, "</ClinicalData>\n</ODM>\n");
        break_file(&file);
        uint32_t refusal = refusal_of(store, file.at, file.length);
        if (refusal == ODM_ACCEPTED || file.length > ORACLE_MOST)
            continue;
        struct place place = find("random file", store, &file, refusal);
        check_byte_by_byte("random file", store, &file, refusal, &place);
        counts.random++;
        counts.by_number[refusal]++;
    }
}

/* ---- all of it ---- */

static void open_store(struct image *store)
{
    if (image_open(store, text_of("ST"), text_of("V1")).refusal != ODM_ACCEPTED)
        abort();
}

/* A store with all files that it can have. */
static void fill_store(struct image *store)
{
    static struct file file;
    char prior[64] = "";
    open_store(store);
    for (int i = 0; i < (int)ODM_FILES_MOST; i++) {
        file.length = 0;
        add(&file, "<ODM xmlns=\"" XMLNS "\" FileType=\"Transactional\" FileOID=\"F%d\"%s CreationDateTime=\"2014-01-01T09:00:00\" ODMVersion=\"1.3.2\"/>", i, prior);
        if (image_import(store, text_in(&file)).refusal != ODM_ACCEPTED)
            abort();
        snprintf(prior, sizeof prior, " PriorFileOID=\"F%d\"", i);
    }
}

/* All that can happen at the items of one sort. */
static void check_items(const struct image *store)
{
    check_opening_forms(store, ITEM);
    check_closing_forms(store, ITEM);
    check_words(store, ITEM);
    check_live_limit(store, ITEM);
    check_remove_limits(store);
    /* In a long file it does not matter of which type they are. */
    if (items <= first_type)
        check_all_long(store);
    if (items == first_type)
        check_long_bodies(store);
    if (!are_typed())
        return;
    check_typed(store);
    check_mixed(store);
    check_cut_bodies(store);
    check_typed_limits(store);
}

int main(int argc, char **argv)
{
    static struct image store, full;
    size_t times = argc > 1 ? strtoul(argv[1], NULL, 10) : 1000;
    open_store(&store);
    fill_store(&full);
    check_frame(&store, &full);
    for (int level = ODM; level < ITEM; level++) {
        check_opening_forms(&store, level);
        check_closing_forms(&store, level);
    }
    for (int level = SUBJECT; level < ITEM; level++) {
        check_words(&store, level);
        check_live_limit(&store, level);
    }
    for (items = sorts; items < sorts + SORTS; items++)
        check_items(&store);
    items = sorts;
    check_long_others(&store);
    for (int declared = 0; declared <= 1; declared++) {
        check_open_at_limit(&store, declared, CLINICAL, "<ClinicalData StudyOID='ST' MetaDataVersionOID='V1'>");
        check_open_at_limit(&store, declared, ITEM, "<ItemDataDate ItemOID='I'>");
        check_open_at_limit(&store, declared, ITEM, "<ItemDataDate ItemOID='I'>]]");
    }
    check_too_long(&store);
    check_random(&store, times);
    printf("%zu files with a known fault, %zu of them for bodies and mixed items, %zu of 262,144 bytes or more; %zu broken at random; %zu tried byte by byte; "
           "at most %zu imports; by number",
           counts.known, counts.typed, counts.at_long, counts.random, counts.byte_by_byte, counts.most_imports);
    for (int i = 3; i <= 16; i += i == 13 ? 3 : 1)
        printf(" %d: %zu%s", i, counts.by_number[i], i < 16 ? "," : "\n");
    return counts.failures ? 1 : 0;
}
