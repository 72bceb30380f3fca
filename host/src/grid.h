/* A table of cells, in aligned columns or with tabulators between them. */
#ifndef HOST_GRID_H
#define HOST_GRID_H

#include <stdio.h>

#include "image.h"

/* What stands in a cell is asked from its writer, which gets room for any. */
#define CELL_ROOM 128
#define COLUMNS_MOST 16
typedef void cell_writer(const void *rows, size_t row, size_t column, char cell[CELL_ROOM]);

struct grid {
    const char *const *headings;
    size_t columns, rows;
    const void *data;
    cell_writer *write;
};

/* Writes a text into a cell. */
void cell_text(char cell[CELL_ROOM], struct text text);

void print_grid(FILE *to, const struct grid *grid, bool tsv);

#endif
