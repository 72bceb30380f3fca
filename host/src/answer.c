/* The answers of the calls, as they are told. */
#include <inttypes.h>
#include <string.h>

#include "answer.h"
#include "print.h"

/* The kinds of places, as JSON has them. */
static const char *const kinds[] = {
    [PLACE_NONE] = "unknown", [PLACE_TAG] = "tag",   [PLACE_ITEM] = "item",
    [PLACE_TEXT] = "text",    [PLACE_BYTE] = "byte", [PLACE_END] = "end",
};

/* A check speaks of what would be: nothing is said to be accepted that is not kept. */
static const char *mood(const struct call *call)
{
    return call->command->run == run_check ? "would be " : "";
}

static void print_place(FILE *to, const struct subject *subject)
{
    char excerpt[EXCERPT_ROOM];
    const struct place *place = subject->place;
    place_excerpt(place, subject->file, excerpt);
    fputs(place->or_behind ? " at or behind " : " at ", to);
    if (place->kind == PLACE_TAG || place->kind == PLACE_ITEM)
        fputs(excerpt, to);
    else if (place->kind == PLACE_TEXT)
        fprintf(to, "the text \"%s\"", excerpt);
    else if (place->kind == PLACE_BYTE)
        fprintf(to, "byte %zu", place->end);
    else
        fputs("the end", to);
}

static void print_text(FILE *to, const struct call *call, const struct subject *subject, odm_answer answer)
{
    const struct place *place = subject->place && subject->place->kind != PLACE_NONE ? subject->place : NULL;
    fputs(subject->name, to);
    if (answer.refusal == ODM_ACCEPTED) {
        fprintf(to, ": %saccepted %" PRIu32 "\n", mood(call), answer.count);
        return;
    }
    if (place)
        fprintf(to, ":%zu:%zu", place->line, place->column);
    fprintf(to, ": %srefused %" PRIu32 " (%s)", mood(call), answer.refusal, odm_refusal_text(answer.refusal));
    if (place)
        print_place(to, subject);
    fputc('\n', to);
}

static void print_json_place(FILE *to, const struct subject *subject)
{
    const struct place *place = subject->place;
    fprintf(to, ",\"place\":{\"kind\":\"%s\",\"line\":%zu,\"column\":%zu", kinds[place->kind], place->line, place->column);
    if (place->or_behind)
        fputs(",\"or_behind\":true", to);
    if (place->kind == PLACE_TAG || place->kind == PLACE_ITEM || place->kind == PLACE_TEXT) {
        char excerpt[EXCERPT_ROOM];
        place_excerpt(place, subject->file, excerpt);
        fputs(",\"text\":", to);
        json_word(to, excerpt);
    }
    fputc('}', to);
}

static void print_json(FILE *to, const struct call *call, const struct subject *subject, odm_answer answer)
{
    bool accepted = answer.refusal == ODM_ACCEPTED;
    fprintf(to, "{\"command\":\"%s\"", call->command->name);
    if (subject->key) {
        fprintf(to, ",\"%s\":", subject->key);
        json_word(to, subject->name);
    }
    fprintf(to, ",\"accepted\":%s,\"refusal\":%" PRIu32 ",\"words\":", accepted ? "true" : "false", answer.refusal);
    json_word(to, odm_refusal_text(answer.refusal));
    fprintf(to, ",\"count\":%" PRIu32, answer.count);
    if (!accepted && subject->place)
        print_json_place(to, subject);
    fputs("}\n", to);
}

int tell_answer(const struct call *call, const struct subject *subject, odm_answer answer)
{
    struct page page;
    FILE *to = page_begin(&page);
    if (call->json)
        print_json(to, call, subject, answer);
    else
        print_text(to, call, subject, answer);
    return page_print(&page, answer.refusal == ODM_ACCEPTED ? STATUS_DONE : STATUS_REFUSED);
}
