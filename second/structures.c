// All small structures, by running through every combination of nodes.
#include "structures.h"

#include <stdlib.h>

// A node of a structure with `count` nodes, by number: two atoms, then each of two features
// without an arc or with one to each node.
static uint32_t node_kinds(uint32_t count) {
    return 2 + (count + 1) * (count + 1);
}

static Cell node_of_kind(uint32_t kind, uint32_t count, uint32_t place) {
    Cell cell = {.forward = place};
    if (kind < 2) {
        cell.has_atom = true;
        cell.atom = STRUCTURE_ATOM + kind;
        return cell;
    }
    uint32_t first = (kind - 2) / (count + 1);
    uint32_t second = (kind - 2) % (count + 1);
    if (first > 0) {
        cell.links[cell.link_count++] = (Link){STRUCTURE_FEATURE, first - 1};
    }
    if (second > 0) {
        cell.links[cell.link_count++] = (Link){STRUCTURE_FEATURE + 1, second - 1};
    }
    return cell;
}

// Marks the targets of a cell as met; false when one is out of turn.
static bool meet_links(const Cell *cell, uint32_t *met) {
    bool in_turn = true;
    for (uint32_t index = 0; index < cell->link_count; index++) {
        uint32_t target = cell->links[index].target;
        in_turn &= target <= *met;
        *met += target == *met;
    }
    return in_turn;
}

static bool numbered_by_arrival(const Sheet *sheet) {
    uint32_t met = 1;
    bool in_turn = true;
    for (uint32_t place = 0; in_turn && place < sheet->count; place++) {
        in_turn = place < met && meet_links(&sheet->cells[place], &met);
    }
    return in_turn;
}

// The structure of the given number among all combinations of so many nodes.
static Sheet combination(uint32_t number, uint32_t count) {
    Sheet sheet;
    sheet_open(&sheet, count);
    sheet.count = count;
    for (uint32_t place = 0; place < count; place++) {
        sheet.cells[place] = node_of_kind(number % node_kinds(count), count, place);
        number /= node_kinds(count);
    }
    return sheet;
}

static uint32_t combination_count(uint32_t count) {
    uint32_t combinations = 1;
    for (uint32_t place = 0; place < count; place++) {
        combinations *= node_kinds(count);
    }
    return combinations;
}

static void add_structures(Structures *structures, uint32_t count) {
    for (uint32_t number = 0; number < combination_count(count); number++) {
        Sheet sheet = combination(number, count);
        if (!numbered_by_arrival(&sheet)) {
            sheet_free(&sheet);
            continue;
        }
        structures->sheets = resized(structures->sheets, structures->count + 1, sizeof sheet);
        structures->sheets[structures->count++] = sheet;
    }
}

Structures all_structures(void) {
    Structures structures = {0};
    for (uint32_t count = 1; count <= STRUCTURE_NODES; count++) {
        add_structures(&structures, count);
    }
    return structures;
}

void structures_free(Structures *structures) {
    for (size_t index = 0; index < structures->count; index++) {
        sheet_free(&structures->sheets[index]);
    }
    free(structures->sheets);
}
