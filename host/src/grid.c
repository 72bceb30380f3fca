/* A table of cells, in aligned columns or with tabulators between them. */
#include <stdio.h>
#include <string.h>

#include "grid.h"

void cell_text(char cell[CELL_ROOM], struct text text)
{
    snprintf(cell, CELL_ROOM, "%.*s", (int)text.length, text.length ? (const char *)text.at : "");
}

static void write_cell(const struct grid *grid, size_t row, size_t column, char cell[CELL_ROOM])
{
    if (row == 0)
        snprintf(cell, CELL_ROOM, "%s", grid->headings[column]);
    else
        grid->write(grid->data, row - 1, column, cell);
}

static size_t width_of(const struct grid *grid, size_t column)
{
    char cell[CELL_ROOM];
    size_t width = 0;
    for (size_t row = 0; row <= grid->rows; row++) {
        write_cell(grid, row, column, cell);
        if (strlen(cell) > width)
            width = strlen(cell);
    }
    return width;
}

/* Spaces are written only when something follows them, so that no line ends in them. */
static void print_row(FILE *to, const struct grid *grid, size_t row, const size_t *widths, bool tsv)
{
    char cell[CELL_ROOM];
    size_t due = 0;
    for (size_t column = 0; column < grid->columns; column++) {
        write_cell(grid, row, column, cell);
        if (tsv) {
            fprintf(to, "%s%s", column ? "\t" : "", cell);
        } else if (*cell) {
            fprintf(to, "%*s%s", (int)due, "", cell);
            due = widths[column] - strlen(cell) + 2;
        } else {
            due += widths[column] + 2;
        }
    }
    fputc('\n', to);
}

void print_grid(FILE *to, const struct grid *grid, bool tsv)
{
    size_t widths[COLUMNS_MOST];
    for (size_t column = 0; column < grid->columns; column++)
        widths[column] = width_of(grid, column);
    for (size_t row = 0; row <= grid->rows; row++)
        print_row(to, grid, row, widths, tsv);
}
