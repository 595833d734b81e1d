// Plain enumeration of formulas: what a stretch of the text can be is worked out from what shorter
// stretches can be, cut at every place.
#include "formula_cuts.h"

#include <string.h>

// To complete a text takes a byte for each parenthesis, and four at most for what was begun last.
enum { MOST_BYTES = 2 * LONGEST_CUT + 4, UNKNOWN = -1 };

// What a stretch can be.
typedef enum {
    CUT_FORMULA,
    CUT_CONJUNCTION,
    CUT_UNIT,
    CUT_PATHS,
    CUT_PATH,
    CUT_FEATURES,
    CUT_FEATURE,
    CUT_KINDS
} CutKind;

typedef struct {
    int bytes[MOST_BYTES];
    // by kind, start and end: 1 for yes, -1 for no, 0 for not yet worked out
    signed char known[CUT_KINDS][MOST_BYTES + 1][MOST_BYTES + 1];
} Cuts;

static bool can_be(const Cuts *cuts, size_t place, char byte) {
    return cuts->bytes[place] == UNKNOWN || cuts->bytes[place] == (unsigned char)byte;
}

static bool spelt(const Cuts *cuts, size_t start, size_t end, const char *word) {
    bool same = end - start == strlen(word);
    for (size_t index = 0; same && index < end - start; index++) {
        same = can_be(cuts, start + index, word[index]);
    }
    return same;
}

// The least that a stretch of digits can be; 65,536 when it cannot be a number.
static long least_number(const Cuts *cuts, size_t start, size_t end) {
    long least = 0;
    for (size_t place = start; place < end; place++) {
        int byte = cuts->bytes[place];
        int least_byte = place == start && end - start > 1 ? '1' : '0';
        if (byte == UNKNOWN) {
            byte = least_byte;
        }
        if (byte < least_byte || byte > '9' || end - start > 5) {
            return 65536;
        }
        least = 10 * least + (byte - '0');
    }
    return start < end ? least : 65536;
}

static bool numbered(const Cuts *cuts, size_t start, size_t end, char letter) {
    return start < end && can_be(cuts, start, letter) &&
           least_number(cuts, start + 1, end) <= 65535;
}

static bool is(Cuts *cuts, CutKind kind, size_t start, size_t end);

// Something of a kind, and spaces after it.
static bool is_then_spaces(Cuts *cuts, CutKind kind, size_t start, size_t end) {
    bool found = is(cuts, kind, start, end);
    while (!found && end > start && can_be(cuts, end - 1, ' ')) {
        found = is(cuts, kind, start, --end);
    }
    return found;
}

// Something of a kind, and spaces before it.
static bool spaces_then_is(Cuts *cuts, CutKind kind, size_t start, size_t end) {
    bool found = is(cuts, kind, start, end);
    while (!found && start < end && can_be(cuts, start, ' ')) {
        found = is(cuts, kind, ++start, end);
    }
    return found;
}

// Two things parted by a sign, with spaces around it.
static bool parted(Cuts *cuts, CutKind left, char sign, CutKind right, size_t start, size_t end) {
    bool found = false;
    for (size_t place = start; !found && place < end; place++) {
        found = can_be(cuts, place, sign) && is_then_spaces(cuts, left, start, place) &&
                spaces_then_is(cuts, right, place + 1, end);
    }
    return found;
}

// Something between two signs, with spaces around it.
static bool enclosed(Cuts *cuts, char opening, CutKind kind, char closing, size_t start,
                     size_t end) {
    if (end - start < 2 || !can_be(cuts, start, opening) || !can_be(cuts, end - 1, closing)) {
        return false;
    }
    bool found = is_then_spaces(cuts, kind, start + 1, end - 1);
    for (size_t place = start + 1; !found && place < end - 1 && can_be(cuts, place, ' '); place++) {
        found = is_then_spaces(cuts, kind, place + 1, end - 1);
    }
    return found;
}

// Features one after the other, perhaps none, with spaces between them.
static bool is_features(Cuts *cuts, size_t start, size_t end) {
    bool found = start == end;
    for (size_t place = start + 1; !found && place <= end; place++) {
        found =
            is(cuts, CUT_FEATURE, start, place) && spaces_then_is(cuts, CUT_FEATURES, place, end);
    }
    return found;
}

static bool is_unit(Cuts *cuts, size_t start, size_t end) {
    return spelt(cuts, start, end, "NIL") || spelt(cuts, start, end, "TOP") ||
           numbered(cuts, start, end, 'a') ||
           parted(cuts, CUT_FEATURE, ':', CUT_UNIT, start, end) ||
           enclosed(cuts, '[', CUT_PATHS, ']', start, end) ||
           enclosed(cuts, '(', CUT_FORMULA, ')', start, end);
}

static bool work_out(Cuts *cuts, CutKind kind, size_t start, size_t end) {
    switch (kind) {
    case CUT_FORMULA:
        return is(cuts, CUT_CONJUNCTION, start, end) ||
               parted(cuts, CUT_FORMULA, '|', CUT_CONJUNCTION, start, end);
    case CUT_CONJUNCTION:
        return is(cuts, CUT_UNIT, start, end) ||
               parted(cuts, CUT_CONJUNCTION, '&', CUT_UNIT, start, end);
    case CUT_UNIT:
        return is_unit(cuts, start, end);
    case CUT_PATHS:
        return is(cuts, CUT_PATH, start, end) || parted(cuts, CUT_PATHS, ',', CUT_PATH, start, end);
    case CUT_PATH:
        return enclosed(cuts, '<', CUT_FEATURES, '>', start, end);
    case CUT_FEATURES:
        return is_features(cuts, start, end);
    default:
        return numbered(cuts, start, end, 'f');
    }
}

static bool is(Cuts *cuts, CutKind kind, size_t start, size_t end) {
    signed char *known = &cuts->known[kind][start][end];
    if (*known == 0) {
        *known = work_out(cuts, kind, start, end) ? 1 : -1;
    }
    return *known == 1;
}

static void lay(Cuts *cuts, const char *text, size_t length) {
    memset(cuts, 0, sizeof *cuts);
    for (size_t place = 0; place < MOST_BYTES; place++) {
        cuts->bytes[place] = place < length ? (unsigned char)text[place] : UNKNOWN;
    }
}

bool cuts_read(const char *text, size_t length) {
    static Cuts cuts;
    lay(&cuts, text, length);
    return is(&cuts, CUT_FORMULA, 0, length);
}

bool cuts_start(const char *text, size_t length) {
    static Cuts cuts;
    lay(&cuts, text, length);
    bool found = false;
    for (size_t end = length; !found && end <= 2 * length + 4; end++) {
        found = is(&cuts, CUT_FORMULA, 0, end);
    }
    return found;
}
