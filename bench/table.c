// Tables in Markdown.
#include "table.h"

#include <inttypes.h>
#include <stdio.h>
#include <stdlib.h>
#include <string.h>

// Room for the next cell.
static char *next_cell(Table *table) {
    if (table->cell_count == MOST_CELLS) {
        fputs("bench: a table has too many cells\n", stderr);
        exit(2);
    }
    return table->cells[table->cell_count++];
}

void table_start(Table *table, const char *const *headings) {
    table->column_count = 0;
    table->cell_count = 0;
    for (; headings[table->column_count] != NULL; table->column_count++) {
        table_text(table, headings[table->column_count]);
    }
}

void table_text(Table *table, const char *text) {
    snprintf(next_cell(table), LONGEST_CELL, "%s", text);
}

// The digits of a number with a comma before each group of three.
static void write_grouped(uint64_t number, char *text) {
    char digits[24];
    int count = snprintf(digits, sizeof digits, "%" PRIu64, number);
    for (int index = 0; index < count; index++) {
        if (index > 0 && (count - index) % 3 == 0) {
            *text++ = ',';
        }
        *text++ = digits[index];
    }
    *text = '\0';
}

// A number rounded to a whole one, and to 0 where it is below.
static uint64_t rounded(double number) {
    return number > 0 ? (uint64_t)(number + 0.5) : 0;
}

void table_whole(Table *table, double number) {
    write_grouped(rounded(number), next_cell(table));
}

void table_decimal(Table *table, double number) {
    uint64_t tenths = rounded(number * 10);
    char *cell = next_cell(table);
    write_grouped(tenths / 10, cell);
    size_t length = strlen(cell);
    snprintf(cell + length, LONGEST_CELL - length, ".%" PRIu64, tenths % 10);
}

static int column_width(const Table *table, size_t column) {
    size_t width = 3;
    for (size_t cell = column; cell < table->cell_count; cell += table->column_count) {
        size_t length = strlen(table->cells[cell]);
        width = length > width ? length : width;
    }
    return (int)width;
}

// The line under the headings.
static void print_rule(const Table *table) {
    for (size_t column = 0; column < table->column_count; column++) {
        fputs(column == 0 ? "|:" : "|-", stdout);
        for (int index = column_width(table, column); index > 0; index--) {
            putchar('-');
        }
        putchar(column == 0 ? '-' : ':');
    }
    puts("|");
}

void table_print(const Table *table) {
    for (size_t cell = 0; cell < table->cell_count; cell++) {
        size_t column = cell % table->column_count;
        int width = column_width(table, column);
        printf("| %*s ", column == 0 ? -width : width, table->cells[cell]);
        if (column + 1 == table->column_count) {
            puts("|");
        }
        if (cell + 1 == table->column_count) {
            print_rule(table);
        }
    }
    putchar('\n');
}
