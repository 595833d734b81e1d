// Texts that are formulas: the grammar is a table of rules, and all ways to read the text by them
// are kept side by side, byte by byte (Earley's method). A way is alive only if some text completes
// it, so where none is left no formula can go on.
#include "formula_text.h"

#include "description.h"

#include <stdlib.h>
#include <string.h>

typedef struct {
    char made;
    const char *of;
} Rule;

// What the rules make: a formula w, a conjunction c, a unit u, a list of paths l, a path p, the
// features s of a path, a feature x, a number n, and spaces _. Other small letters but a and f are
// digits. All other bytes stand for themselves.
static const char MADE[] = {'w', 'c', 'u', 'l', 'p', 's', 'x', 'n', '_'};
static const char WHOLE = 'w';

enum { MADE_COUNT = sizeof MADE };

static const Rule rules[] = {
    {'w', "c"},     // a formula: conjunctions
    {'w', "w_|_c"}, // parted by |
    {'c', "u"},     // a conjunction: units
    {'c', "c_&_u"}, // parted by &
    {'u', "NIL"},   // a unit: no information,
    {'u', "TOP"},   // inconsistent information,
    {'u', "an"},    // an atom,
    {'u', "x_:_u"}, // a feature and a unit,
    {'u', "[_l_]"}, // paths that share a value,
    {'u', "(_w_)"}, // or a formula
    {'l', "p"},     // one path or more,
    {'l', "l_,_p"}, // parted by commas
    {'p', "<_s>"},  // a path: features,
    {'s', ""},      // perhaps none,
    {'s', "sx_"},   // parted by spaces or by nothing
    {'x', "fn"},    // a feature
    {'n', "0"},     // a number without leading zeros: one digit,
    {'n', "e"},     // which may be another,
    {'n', "ed"},    // two,
    {'n', "edd"},   // three,
    {'n', "eddd"},  // four,
    {'n', "gdddd"}, // up to 59,999,
    {'n', "6hddd"}, // up to 64,999,
    {'n', "65hdd"}, // up to 65,499,
    {'n', "655id"}, // up to 65,529,
    {'n', "6553j"}, // up to 65,535
    {'_', ""},      // spaces, perhaps none
    {'_', "_ "},    // or more
};

enum { RULES = sizeof rules / sizeof *rules };

// A rule of which the first `done` symbols have been read, from byte `start` on.
typedef struct {
    uint32_t rule;
    uint32_t done;
    size_t start;
} Way;

// The ways alive after each number of bytes, one set after the other.
typedef struct {
    Way *ways;
    size_t count;
    size_t room;
    size_t *sets;               // by number of bytes: where the set begins
    size_t bytes;               // how many bytes have been read
    bool predicted[MADE_COUNT]; // by place in MADE: whether its rules stand in the last set
} Chart;

static char next_symbol(const Way *way) {
    return rules[way->rule].of[way->done];
}

// The place of a symbol among those that rules make; -1 for one that stands for bytes.
static int place_made(char symbol) {
    int place = MADE_COUNT - 1;
    while (place >= 0 && MADE[place] != symbol) {
        place--;
    }
    return place;
}

static bool can_be_empty(char made) {
    return made == 's' || made == '_';
}

static bool is_between(char byte, char least, char most) {
    return least <= byte && byte <= most;
}

// Whether a symbol that no rule makes stands for a byte.
static bool stands_for(char symbol, char byte) {
    switch (symbol) {
    case 'd':
        return is_between(byte, '0', '9');
    case 'e':
        return is_between(byte, '1', '9');
    case 'g':
        return is_between(byte, '1', '5');
    case 'h':
        return is_between(byte, '0', '4');
    case 'i':
        return is_between(byte, '0', '2');
    case 'j':
        return is_between(byte, '0', '5');
    default:
        return symbol == byte;
    }
}

// Adds a way to the last set, unless it is there.
static void add_way(Chart *chart, Way way) {
    for (size_t index = chart->sets[chart->bytes]; index < chart->count; index++) {
        const Way *known = &chart->ways[index];
        if (known->rule == way.rule && known->done == way.done && known->start == way.start) {
            return;
        }
    }
    if (chart->count == chart->room) {
        chart->room = chart->room == 0 ? 64 : 2 * chart->room;
        chart->ways = resized(chart->ways, chart->room, sizeof way);
    }
    chart->ways[chart->count++] = way;
}

static void add_advanced(Chart *chart, Way way) {
    way.done++;
    add_way(chart, way);
}

// Begins every rule that makes a symbol here, once.
static void predict(Chart *chart, char made) {
    bool *predicted = &chart->predicted[place_made(made)];
    if (*predicted) {
        return;
    }
    *predicted = true;
    for (uint32_t rule = 0; rule < RULES; rule++) {
        if (rules[rule].made == made) {
            add_way(chart, (Way){rule, 0, chart->bytes});
        }
    }
}

// Something has been made since `start`: every way that waited for it there goes on.
static void complete(Chart *chart, char made, size_t start) {
    size_t end = start == chart->bytes ? chart->count : chart->sets[start + 1];
    for (size_t index = chart->sets[start]; index < end; index++) {
        if (next_symbol(&chart->ways[index]) == made) {
            add_advanced(chart, chart->ways[index]);
        }
    }
}

// Adds to the last set what follows from it without reading a byte.
static void close_set(Chart *chart) {
    memset(chart->predicted, 0, sizeof chart->predicted);
    for (size_t index = chart->sets[chart->bytes]; index < chart->count; index++) {
        Way way = chart->ways[index];
        char symbol = next_symbol(&way);
        if (symbol == '\0') {
            complete(chart, rules[way.rule].made, way.start);
        } else if (place_made(symbol) >= 0) {
            predict(chart, symbol);
            if (can_be_empty(symbol)) {
                add_advanced(chart, way);
            }
        }
    }
}

// Reads a byte; false when no way goes on.
static bool read_byte(Chart *chart, char byte) {
    size_t first = chart->sets[chart->bytes];
    size_t end = chart->count;
    chart->bytes++;
    chart->sets[chart->bytes] = end;
    for (size_t index = first; index < end; index++) {
        Way way = chart->ways[index];
        char symbol = next_symbol(&way);
        if (symbol != '\0' && place_made(symbol) < 0 && stands_for(symbol, byte)) {
            add_advanced(chart, way);
        }
    }
    close_set(chart);
    return chart->count > end;
}

// Whether a way of the last set has made a formula of the whole text.
static bool whole_is_made(const Chart *chart) {
    bool made = false;
    for (size_t index = chart->sets[chart->bytes]; index < chart->count; index++) {
        const Way *way = &chart->ways[index];
        made |= rules[way->rule].made == WHOLE && next_symbol(way) == '\0' && way->start == 0;
    }
    return made;
}

bool formula_reads(const char *text, size_t length, size_t *byte) {
    Chart chart = {.sets = zeroed(length + 2, sizeof(size_t))};
    predict(&chart, WHOLE);
    close_set(&chart);
    size_t read = 0;
    while (read < length && read_byte(&chart, text[read])) {
        read++;
    }
    bool whole = read == length && whole_is_made(&chart);
    free(chart.ways);
    free(chart.sets);
    *byte = read;
    return whole;
}
