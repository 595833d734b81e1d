// Tables that are printed in Markdown, their columns aligned.
#ifndef TABLE_H
#define TABLE_H

#include <stddef.h>
#include <stdint.h>

enum { MOST_CELLS = 1024, LONGEST_CELL = 48 };

// The cells row after row, the headings first.
typedef struct {
    size_t column_count;
    size_t cell_count;
    char cells[MOST_CELLS][LONGEST_CELL];
} Table;

// Starts a table with headings, which end with a null.
void table_start(Table *table, const char *const *headings);

// Adds the next cell: a text, a whole number, or a number with one decimal. A number below 0 is
// shown as 0.
void table_text(Table *table, const char *text);
void table_whole(Table *table, double number);
void table_decimal(Table *table, double number);

// Prints the table: the first column leans to the left, the others to the right.
void table_print(const Table *table);

#endif
