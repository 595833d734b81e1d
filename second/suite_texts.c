// Seeded texts of suites, good ones and damaged ones.
#include "suite_spell.h"

#include "damage.h"
#include "hexadecimal.h"
#include "suite_shapes.h"
#include "suite_text.h"

#include <stdlib.h>
#include <string.h>

// Pieces that spoil a text where they stand, or only look like that.
static const char *const pieces[] = {
    "#",
    "# a\n",
    "#\n",
    "\n# a\n",
    "\n#",
    " ",
    "\n",
    "0",
    " 0 ",
    " 1 ",
    "\t",
    "\r\n",
    "-",
    "+",
    ".",
    "x",
    ";",
    "\x7F",
    "\x80",
    "#\t\n",
    "\r",
    " 3 ",
    " 9 ",
    " 12 ",
    " 2049 ",
    " 4294967295 ",
    " 4294967296 ",
    "99999999999999999999",
};

enum { PIECES = sizeof pieces / sizeof *pieces };

// Where a line begins or ends, or anywhere.
static size_t random_spot(Random *random, const Bytes *text) {
    size_t place = random_below(random, (uint32_t)text->count);
    if (random_one_in(random, 2)) {
        while (place > 0 && text->at[place] != '\n') {
            place--;
        }
        return place + (text->at[place] == '\n' && random_one_in(random, 2));
    }
    return place;
}

// After the number of tests, where a name belongs to no test.
static size_t spot_before_tests(const Bytes *text) {
    size_t place = 0;
    while (place < text->count && (text->at[place] == ' ' || text->at[place] == '\n')) {
        place++;
    }
    while (place < text->count && text->at[place] >= '0' && text->at[place] <= '9') {
        place++;
    }
    return place;
}

// The damage at a place within a text that is not empty, or at one that is likelier to matter.
static void damage_at(Random *random, Bytes *text, size_t place) {
    char byte = (char)(unsigned char)random_below(random, 256);
    const char *piece = pieces[random_below(random, PIECES)];
    uint32_t kind = random_below(random, BYTE_DAMAGES + 9);
    if (kind < BYTE_DAMAGES) {
        damage_byte(text, place, (ByteDamage)kind, byte);
    } else if (kind == BYTE_DAMAGES) {
        damage_byte(text, place, BYTE_REPLACED, '\n');
    } else if (kind == BYTE_DAMAGES + 1) {
        bytes_put(text, text->count, 0, piece, strlen(piece));
    } else if (kind == BYTE_DAMAGES + 2) {
        bytes_put(text, spot_before_tests(text), 0, "# a\n", 4);
    } else {
        bytes_put(text, random_spot(random, text), 0, piece, strlen(piece));
    }
}

void damage_suite_text(Random *random, Bytes *text) {
    damage_somewhere(random, text, damage_at);
}

// Adds spaces, up to the longest text or one byte more.
static void make_long(Random *random, Bytes *text) {
    size_t length = LONGEST_SUITE_TEXT + random_below(random, 2);
    while (text->count < length) {
        bytes_add(text, ' ');
    }
}

// A text of a suite, now and then damaged or as long as a text may be.
static Bytes random_suite_text(Random *random) {
    Suite suite = random_suite_within(random, SUITE_ROOM, WORKING_NEEDED);
    Bytes *names = zeroed(suite.count, sizeof *names);
    Bytes text = suite_spell(random, &suite, names);
    for (size_t index = 0; index < suite.count; index++) {
        bytes_free(&names[index]);
    }
    free(names);
    suite_free(&suite);
    if (random_one_in(random, 3)) {
        damage_suite_text(random, &text);
    }
    if (random_one_in(random, 200)) {
        make_long(random, &text);
    }
    return text;
}

void print_suite_text(Random *random) {
    Bytes text = random_suite_text(random);
    print_hexadecimal(&text, stdout);
    putchar('\n');
    bytes_free(&text);
}
