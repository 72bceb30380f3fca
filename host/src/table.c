/* The command that lists the live entities. */
#include <string.h>

#include "grid.h"
#include "print.h"
#include "store_file.h"
#include "table.h"

int read_table(const struct call *call, struct image *image, struct table *table)
{
    struct head head;
    int status = store_read(call, image, &head);
    if (status == STATUS_DONE && !live_table(image, table))
        return tell(call, STATUS_DAMAGED, call->store, "its snapshot has a line that this program does not know");
    return status;
}

/* The columns: the depth, the names of the key, the value. */
enum { DEPTH_COLUMN = 0, VALUE_COLUMN = NAMES + 1, TABLE_COLUMNS = NAMES + 2 };

static const char *const short_headings[TABLE_COLUMNS] = {
    "Depth", "Subject", "Event", "Repeat", "Form", "Repeat", "Group", "Repeat", "Item", "Value",
};

/* For people a value stands in quotes, so that its spaces are seen and a null item differs from every text. */
static void write_live(const void *rows, size_t row, size_t column, char cell[CELL_ROOM])
{
    const struct live *live = &((const struct table *)rows)->row[row];
    if (column == DEPTH_COLUMN)
        snprintf(cell, CELL_ROOM, "%d", live->depth);
    else if (column < VALUE_COLUMN)
        cell_text(cell, live->names[column - 1]);
    else if (live->depth < DEPTHS)
        *cell = '\0';
    else if (live->value_length == 0)
        snprintf(cell, CELL_ROOM, "null");
    else
        snprintf(cell, CELL_ROOM, "\"%s\"", live->value);
}

/* For programs it stands as it is. The value of a null item has no byte, and no other value has none. */
static void write_live_tsv(const void *rows, size_t row, size_t column, char cell[CELL_ROOM])
{
    const struct live *live = &((const struct table *)rows)->row[row];
    if (column == VALUE_COLUMN)
        snprintf(cell, CELL_ROOM, "%s", live->value);
    else
        write_live(rows, row, column, cell);
}

static void print_table(FILE *to, const struct table *table, bool tsv)
{
    const char *headings[TABLE_COLUMNS] = {[DEPTH_COLUMN] = "Depth", [VALUE_COLUMN] = "Value"};
    memcpy(headings + 1, name_attributes, sizeof name_attributes);
    const struct grid aligned = {short_headings, TABLE_COLUMNS, table->rows, table, write_live};
    const struct grid separated = {headings, TABLE_COLUMNS, table->rows, table, write_live_tsv};
    print_grid(to, tsv ? &separated : &aligned, tsv);
}

static void print_live_json(FILE *to, const struct live *live)
{
    fprintf(to, "{\"Depth\":%d", live->depth);
    for (int i = 0; i < NAMES; i++)
        if (live->names[i].length > 0) {
            fprintf(to, ",\"%s\":", name_attributes[i]);
            json_text(to, live->names[i]);
        }
    if (live->depth == DEPTHS)
        fputs(",\"Value\":", to);
    if (live->depth == DEPTHS && live->value_length > 0)
        json_word(to, live->value);
    else if (live->depth == DEPTHS)
        fputs("null", to);
    fputc('}', to);
}

int run_table(const struct call *call)
{
    struct image image;
    struct table table;
    struct page page;
    int status = read_table(call, &image, &table);
    if (status != STATUS_DONE)
        return status;
    FILE *to = page_begin(&page);
    if (call->json) {
        fputs("{\"command\":\"table\",\"entities\":[", to);
        for (size_t i = 0; i < table.rows; i++) {
            fputs(i ? "," : "", to);
            print_live_json(to, &table.row[i]);
        }
        fputs("]}\n", to);
    } else {
        print_table(to, &table, call->options & OPTION_TSV);
    }
    return page_print(&page, STATUS_DONE);
}
