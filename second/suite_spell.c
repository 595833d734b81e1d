// Spelling suites: numbers with blanks between them, and names where names may stand.
#include "suite_spell.h"

#include <inttypes.h>
#include <stdio.h>
#include <string.h>

// What stands between two numbers.
typedef enum {
    OUTSIDE, // what stands here is a remark
    INSIDE,  // a name may stand here
    AT_END   // a name may stand on the line of the number before, and remarks after it
} Gap;

typedef struct {
    Random *random;
    Bytes text;
    Bytes *name;   // of the test that is spelt
    bool has_name; // it stands there already
    bool is_plain; // mostly single spaces
} Spelling;

static void add(Spelling *spelling, const char *piece) {
    bytes_add_all(&spelling->text, piece, strlen(piece));
}

static void spell_number(Spelling *spelling, uint32_t number) {
    static const char *const zeros[] = {"0", "00", "0000000000000"};
    char digits[16];
    if (random_one_in(spelling->random, 60)) {
        add(spelling, zeros[random_below(spelling->random, 3)]);
    }
    snprintf(digits, sizeof digits, "%" PRIu32, number);
    add(spelling, digits);
}

static void spell_blanks(Spelling *spelling) {
    static const char *const blanks[] = {" ", "\n", "  ", " \n", "\n\n ", " \n \n"};
    bool single = spelling->is_plain && random_below(spelling->random, 12) > 0;
    add(spelling, blanks[single ? 0 : random_below(spelling->random, 6)]);
}

// A name or a remark, perhaps empty or with spaces around it, and the end of its line. The first name
// of a test is kept without the spaces before it.
static void spell_name(Spelling *spelling, bool is_remark) {
    static const char *const pieces[] = {"a",  "night", " ", "  ", "#",
                                         "12", ":",     "-", "~",  "\xC3\xA9"};
    static const char *const ends[] = {"", " ", "   "};
    Random *random = spelling->random;
    bool empty = random_one_in(random, 8);
    Bytes name = {0};
    while (!empty && (name.count == 0 || random_below(random, 3) > 0)) {
        bool outer = name.count == 0;
        const char *piece = pieces[outer ? random_below(random, 2) : random_below(random, 10)];
        bytes_add_all(&name, piece, strlen(piece));
    }
    const char *end = ends[empty ? 0 : random_below(random, 3)];
    bytes_add_all(&name, end, strlen(end));
    add(spelling, "#");
    add(spelling, ends[random_below(random, 3)]);
    bytes_add_all(&spelling->text, name.at, name.count);
    add(spelling, "\n");
    if (!is_remark && !spelling->has_name) {
        bytes_add_all(spelling->name, name.at, name.count);
        spelling->has_name = true;
    }
    bytes_free(&name);
}

static bool is_named(Random *random, Gap gap) {
    return random_one_in(random, gap == INSIDE ? 24 : 3);
}

// What stands after a number: a name or a remark with the end of its line, or blanks alone.
static void spell_gap(Spelling *spelling, Gap gap) {
    Random *random = spelling->random;
    if (!is_named(random, gap)) {
        spell_blanks(spelling);
        return;
    }
    if (gap != AT_END && random_one_in(random, 2)) {
        spell_blanks(spelling);
    } else {
        add(spelling, random_one_in(random, 4) ? "" : " ");
    }
    spell_name(spelling, gap == OUTSIDE);
    while (gap == AT_END && random_one_in(random, 6)) {
        spell_name(spelling, true);
    }
}

static void spell_words(Spelling *spelling, const Words *area, Place place, Gap last) {
    spell_number(spelling, place.words);
    for (uint32_t index = 0; index < place.words; index++) {
        spell_gap(spelling, INSIDE);
        spell_number(spelling, area->at[place.start + index]);
    }
    spell_gap(spelling, last);
}

static void spell_test(Spelling *spelling, const Suite *suite, const Test *test) {
    spell_number(spelling, test->mode);
    spell_gap(spelling, INSIDE);
    spell_number(spelling, test->number);
    spell_gap(spelling, INSIDE);
    spell_number(spelling, test->readings);
    spell_gap(spelling, INSIDE);
    spell_words(spelling, &suite->words, test->first, INSIDE);
    spell_words(spelling, &suite->words, test->second, AT_END);
}

Bytes suite_spell(Random *random, const Suite *suite, Bytes *names) {
    Spelling spelling = {.random = random, .is_plain = random_below(random, 4) > 0};
    if (random_one_in(random, 4)) {
        spell_blanks(&spelling);
    }
    spell_number(&spelling, (uint32_t)suite->count);
    spell_gap(&spelling, OUTSIDE);
    for (size_t index = 0; index < suite->count; index++) {
        spelling.name = &names[index];
        spelling.has_name = false;
        spell_test(&spelling, suite, &suite->tests[index]);
    }
    if (random_one_in(random, 3)) {
        spelling.text.count--;
    }
    return spelling.text;
}
