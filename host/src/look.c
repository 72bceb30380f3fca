/* The commands that tell what a store holds: its standing files, how much of it is used, and whether it is sound. */
#include <inttypes.h>

#include "grid.h"
#include "print.h"
#include "store_file.h"
#include "table.h"

static const char *const file_headings[] = {"FileOID", "Date", "Changes", "Bytes"};

static void write_standing(const void *rows, size_t row, size_t column, char cell[CELL_ROOM])
{
    struct standing standing = image_standing(rows, (uint32_t)row);
    if (column == 0)
        cell_text(cell, standing.file_oid);
    else if (column == 1)
        cell_text(cell, standing.date);
    else
        snprintf(cell, CELL_ROOM, "%" PRIu32, column == 2 ? standing.changes : standing.bytes);
}

static void print_standing_json(FILE *to, const struct image *image)
{
    fputs("{\"command\":\"files\",\"files\":[", to);
    for (uint32_t i = 0; i < image_files(image); i++) {
        struct standing standing = image_standing(image, i);
        fputs(i ? ",{\"file_oid\":" : "{\"file_oid\":", to);
        json_text(to, standing.file_oid);
        fputs(",\"date\":", to);
        json_text(to, standing.date);
        fprintf(to, ",\"changes\":%" PRIu32 ",\"bytes\":%" PRIu32 "}", standing.changes, standing.bytes);
    }
    fputs("]}\n", to);
}

int run_files(const struct call *call)
{
    struct image image;
    struct head head;
    struct page page;
    int status = store_read(call, &image, &head);
    if (status != STATUS_DONE)
        return status;
    const struct grid grid = {file_headings, 4, image_files(&image), &image, write_standing};
    FILE *to = page_begin(&page);
    if (call->json)
        print_standing_json(to, &image);
    else
        print_grid(to, &grid, call->options & OPTION_TSV);
    return page_print(&page, STATUS_DONE);
}

/* How much of what a store holds at most is used. */
struct use {
    const char *name;
    uint32_t used, most;
};

enum { USES = 4 };

static void print_status(FILE *to, const struct image *image, const struct use uses[USES])
{
    struct text study = image_study(image), version = image_version(image);
    fprintf(to, "%-9s%.*s\n", "study", (int)study.length, (const char *)study.at);
    fprintf(to, "%-9s%.*s\n", "version", (int)version.length, (const char *)version.at);
    for (int i = 0; i < USES; i++)
        fprintf(to, "%-9s%" PRIu32 " of %" PRIu32 "\n", uses[i].name, uses[i].used, uses[i].most);
}

static void print_status_json(FILE *to, const struct image *image, const struct use uses[USES])
{
    fputs("{\"command\":\"status\",\"study\":", to);
    json_text(to, image_study(image));
    fputs(",\"version\":", to);
    json_text(to, image_version(image));
    for (int i = 0; i < USES; i++)
        fprintf(to, ",\"%s\":{\"used\":%" PRIu32 ",\"most\":%" PRIu32 "}", uses[i].name, uses[i].used, uses[i].most);
    fputs("}\n", to);
}

int run_status(const struct call *call)
{
    struct image image;
    struct table table;
    struct page page;
    int status = read_table(call, &image, &table);
    if (status != STATUS_DONE)
        return status;
    const struct use uses[USES] = {
        {"files", image_files(&image), ODM_FILES_MOST},
        {"changes", image_changes(&image), ODM_CHANGES_MOST},
        {"bytes", image_change_bytes(&image), ODM_CHANGE_BYTES_MOST},
        {"live", (uint32_t)table.rows, ODM_LIVE_MOST},
    };
    FILE *to = page_begin(&page);
    if (call->json)
        print_status_json(to, &image, uses);
    else
        print_status(to, &image, uses);
    return page_print(&page, STATUS_DONE);
}

/* Reading a store judges it, so there is nothing left to do but to say so. */
int run_verify(const struct call *call)
{
    struct image image;
    struct head head;
    struct page page;
    int status = store_read(call, &image, &head);
    if (status != STATUS_DONE)
        return status;
    FILE *to = page_begin(&page);
    if (call->json)
        fprintf(to, "{\"command\":\"verify\",\"sound\":true,\"layout\":%" PRIu32 ",\"checksum\":\"%08" PRIx32 "\"}\n", head.layout, head.checksum);
    else
        fprintf(to, "%s: sound, layout %" PRIu32 ", checksum %08" PRIx32 "\n", call->store, head.layout, head.checksum);
    return page_print(&page, STATUS_DONE);
}
