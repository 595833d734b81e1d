// Damaged texts: bytes replaced, put in, taken out or cut off, and pieces that no formula has.
#include "formula_texts.h"

#include "damage.h"

#include <string.h>

// Bytes that stand in formulas, and some that are near to them.
static const char LIKELY[] = "NILTOPaf0123456789:[<>,]&|() \n\t";

// Pieces that are no formula by themselves; most spoil a text wherever they stand.
static const char *const pieces[] = {
    "a",      "f",         "f1",          "f1:",      "NI",     "nil",      "TO",     "Top",
    "TOPP",   "a00",       "a01",         "f00:a1",   "a65536", "a65540",   "a65600", "a66000",
    "a70000", "a99999",    "a100000",     "f65536:",  "a 1",    "f 1:a1",   "a1a2",   "a1 a2",
    "a-1",    "a+1",       "a1.0",        "[]",       "[ ]",    "[<>",      "[<>,]",  "[,<>]",
    "[<f1>",  "[<f1,f2>]", "[<a1>]",      "[f1]",     "<f1>",   "<>",       "()",     "( )",
    "(a1",    "a1)",       "a1&",         "&a1",      "a1&&a2", "a1||a2",   "|a1",    "a1|",
    "f1::a1", "f1:&a1",    ":a1",         "f1 f2:a1", "f1&a1",  "(a1)(a2)", "NILNIL", "[<>][<>]",
    "a1\n",   "\ta1",      "a1\r\n",      "a1,",      "a1;",    "A1",       "F1:a1",  "\xC3\xA9",
    "f1=a1",  "!a1",       "[<f1>;<f2>]", "{a1}",     "a1^a2",  " ",        "  ",     "[<f1>,<f2>)",
};

enum { PIECES = sizeof pieces / sizeof *pieces };

static char random_byte(Random *random) {
    if (random_one_in(random, 4)) {
        return (char)(unsigned char)random_below(random, 256);
    }
    return LIKELY[random_below(random, sizeof LIKELY - 1)];
}

static void put_piece(Random *random, Bytes *text, size_t place) {
    const char *piece = pieces[random_below(random, PIECES)];
    if (random_one_in(random, 3)) {
        text->count = 0;
        place = 0;
    }
    bytes_put(text, place, 0, piece, strlen(piece));
}

// Puts a space or a newline at one of the ends.
static void put_at_end(Random *random, Bytes *text) {
    char byte = random_one_in(random, 3) ? '\n' : ' ';
    size_t place = random_one_in(random, 2) ? 0 : text->count;
    bytes_put(text, place, 0, &byte, 1);
}

// The damage at a place within a text that is not empty.
static void damage_at(Random *random, Bytes *text, size_t place) {
    char byte = random_byte(random);
    uint32_t kind = random_below(random, BYTE_DAMAGES + 4);
    if (kind < BYTE_DAMAGES) {
        damage_byte(text, place, (ByteDamage)kind, byte);
    } else if (kind == BYTE_DAMAGES) {
        damage_byte(text, place, BYTE_PUT_IN, text->at[place]);
    } else if (kind == BYTE_DAMAGES + 1) {
        put_at_end(random, text);
    } else {
        put_piece(random, text, place);
    }
}

void damage_text(Random *random, Bytes *text) {
    damage_somewhere(random, text, damage_at);
}
