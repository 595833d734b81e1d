// Reading suites: lines are parted into numbers and names, all numbers are taken apart into tests,
// and then each name is given to the test in which it stands.
#include "suite_text.h"

#include "call.h"

#include <stdlib.h>
#include <string.h>

enum { LARGEST_COUNT = 2048 };

// A line with a name, and the numbers before it and up to its name.
typedef struct {
    size_t numbers_before;
    size_t numbers;
    const char *name;
    size_t length;
} NamedLine;

typedef struct {
    NamedLine *at;
    size_t count;
    size_t room;
} NamedLines;

static void lines_add(NamedLines *lines, NamedLine line) {
    if (lines->count == lines->room) {
        lines->room = lines->room == 0 ? 16 : 2 * lines->room;
        lines->at = resized(lines->at, lines->room, sizeof *lines->at);
    }
    lines->at[lines->count++] = line;
}

// The bytes before the first of one kind; all where there is none.
static size_t length_up_to(const char *text, size_t length, char byte) {
    const char *found = length == 0 ? NULL : memchr(text, byte, length);
    return found == NULL ? length : (size_t)(found - text);
}

static bool has_control(const char *name, size_t length) {
    bool found = false;
    for (size_t index = 0; !found && index < length; index++) {
        unsigned char byte = (unsigned char)name[index];
        found = byte < 32 || byte == 127;
    }
    return found;
}

// The numbers of a line, and its name if it has one.
static bool part_line(const char *line, size_t length, Words *numbers, NamedLines *lines) {
    size_t before = numbers->count;
    size_t digits = length_up_to(line, length, '#');
    if (!parse_numbers(line, digits, numbers)) {
        return false;
    }
    if (digits == length) {
        return true;
    }
    NamedLine named = {before, numbers->count, line + digits + 1, length - digits - 1};
    lines_add(lines, named);
    return !has_control(named.name, named.length);
}

static bool part_text(const char *text, size_t length, Words *numbers, NamedLines *lines) {
    bool good = true;
    while (good && length > 0) {
        size_t line = length_up_to(text, length, '\n');
        size_t taken = line + (line < length);
        good = part_line(text, line, numbers, lines);
        text += taken;
        length -= taken;
    }
    return good;
}

// A word count and so many words, which stay where they are among the numbers.
static bool take_place(const Words *numbers, size_t *position, Place *place) {
    if (*position >= numbers->count || numbers->at[*position] > LARGEST_COUNT) {
        return false;
    }
    place->words = numbers->at[*position];
    place->start = (uint32_t)*position + 1;
    *position += 1 + place->words;
    return *position <= numbers->count;
}

static bool take_test(const Words *numbers, size_t *position, Test *test) {
    if (numbers->count - *position < 3) {
        return false;
    }
    test->mode = numbers->at[*position];
    test->number = numbers->at[*position + 1];
    test->readings = numbers->at[*position + 2];
    *position += 3;
    return take_place(numbers, position, &test->first) &&
           take_place(numbers, position, &test->second);
}

// The number of tests and the tests; no number may be missing or left over. The numbers are the
// word area.
static bool take_tests(Suite *suite) {
    const Words *numbers = &suite->words;
    bool good = numbers->count > 0;
    size_t position = 1;
    while (good && position < numbers->count) {
        Test test;
        good = take_test(numbers, &position, &test);
        if (good) {
            suite_add(suite, test);
        }
    }
    return good && suite->count == numbers->at[0];
}

// How many numbers of the text are read when those of a test are.
static size_t end_of(const Test *test) {
    return (size_t)test->second.start + test->second.words;
}

// Whether a name stands in the test that ends so: before its last number, or on the line of it.
static bool stands_in(const NamedLine *line, size_t end) {
    return line->numbers < end || (line->numbers == end && line->numbers_before < end);
}

static void set_name(const NamedLine *line, Bytes *name) {
    const char *from = line->name;
    const char *to = line->name + line->length;
    while (from < to && *from == ' ') {
        from++;
    }
    bytes_add_all(name, from, (size_t)(to - from));
}

// Gives the first name that stands in a test to it. What stands in none is a remark.
static void give_names(const NamedLines *lines, NamedSuite *named) {
    const Suite *suite = &named->suite;
    named->names = zeroed(suite->count, sizeof *named->names);
    size_t test = 0;
    size_t unnamed = 0; // no test from here on has a name yet
    for (size_t index = 0; index < lines->count; index++) {
        const NamedLine *line = &lines->at[index];
        while (test < suite->count && end_of(&suite->tests[test]) < line->numbers) {
            test++;
        }
        bool inside = line->numbers > 1 && test < suite->count &&
                      stands_in(line, end_of(&suite->tests[test]));
        if (inside && test >= unnamed) {
            set_name(line, &named->names[test]);
            unnamed = test + 1;
        }
    }
}

bool suite_parse(const char *text, size_t length, NamedSuite *named) {
    NamedLines lines = {0};
    *named = (NamedSuite){0};
    bool good = length <= LONGEST_SUITE_TEXT &&
                part_text(text, length, &named->suite.words, &lines) && take_tests(&named->suite);
    if (good) {
        give_names(&lines, named);
    }
    free(lines.at);
    return good;
}

void named_suite_free(NamedSuite *named) {
    for (size_t index = 0; named->names != NULL && index < named->suite.count; index++) {
        bytes_free(&named->names[index]);
    }
    free(named->names);
    suite_free(&named->suite);
    *named = (NamedSuite){0};
}
