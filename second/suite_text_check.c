// The self-check of suites' texts: what is spelt is read back, and byte after byte it is decided in
// another way whether a text is one of a suite.
#include "suite_check.h"

#include "suite_shapes.h"
#include "suite_spell.h"
#include "suite_text.h"

#include <stdlib.h>
#include <string.h>

// What the next number is.
typedef enum { TEST_COUNT, MODE, NUMBER, READINGS, FIRST_COUNT, SECOND_COUNT, WORD, NOTHING } Next;

// How far a text is read.
typedef struct {
    Next next;
    Next after_words;    // what comes after the words that are read
    uint32_t words_left; // of those
    uint32_t tests_left;
    bool in_name;    // within a name
    bool in_number;  // within a number
    uint64_t number; // as far as it is read
    bool bad;
} Reader;

static Next after_test(const Reader *reader) {
    return reader->tests_left == 0 ? NOTHING : MODE;
}

// After a word count or a word: the next word, or what comes after the last.
static void go_on(Reader *reader, uint32_t words_left, Next after) {
    reader->words_left = words_left;
    reader->after_words = after;
    if (words_left > 0) {
        reader->next = WORD;
    } else {
        reader->next = after == SECOND_COUNT ? after : after_test(reader);
    }
}

static void take_number(Reader *reader, uint32_t number) {
    switch (reader->next) {
    case TEST_COUNT:
        reader->tests_left = number;
        reader->next = after_test(reader);
        break;
    case MODE:
        reader->tests_left--;
        reader->next = NUMBER;
        break;
    case NUMBER:
        reader->next = READINGS;
        break;
    case READINGS:
        reader->next = FIRST_COUNT;
        break;
    case FIRST_COUNT:
        reader->bad = number > 2048;
        go_on(reader, number, SECOND_COUNT);
        break;
    case SECOND_COUNT:
        reader->bad = number > 2048;
        go_on(reader, number, MODE);
        break;
    case WORD:
        go_on(reader, reader->words_left - 1, reader->after_words);
        break;
    default:
        reader->bad = true;
    }
}

static void end_number(Reader *reader) {
    if (reader->in_number) {
        reader->in_number = false;
        take_number(reader, (uint32_t)reader->number);
        reader->number = 0;
    }
}

static void end_line(Reader *reader) {
    end_number(reader);
    reader->in_name = false;
}

static void take_byte(Reader *reader, unsigned char byte) {
    if (byte == '\n') {
        end_line(reader);
    } else if (reader->in_name) {
        reader->bad = byte < ' ' || byte == 127;
    } else if (byte >= '0' && byte <= '9') {
        reader->in_number = true;
        reader->number = 10 * reader->number + (uint64_t)(byte - '0');
        reader->bad = reader->number > UINT32_MAX;
    } else if (byte == '#') {
        end_number(reader);
        reader->in_name = true;
    } else {
        end_number(reader);
        reader->bad = reader->bad || byte != ' ';
    }
}

// Whether a text is one of a suite.
static bool is_suite_text(const Bytes *text) {
    Reader reader = {.next = TEST_COUNT};
    for (size_t index = 0; !reader.bad && index < text->count; index++) {
        take_byte(&reader, (unsigned char)text->at[index]);
    }
    if (!reader.bad) {
        end_number(&reader);
    }
    return !reader.bad && reader.next == NOTHING && text->count <= 1048576;
}

static bool same_words_at(const Suite *left, Place at_left, const Suite *right, Place at_right) {
    return at_left.words == at_right.words &&
           (at_left.words == 0 ||
            memcmp(left->words.at + at_left.start, right->words.at + at_right.start,
                   at_left.words * sizeof(uint32_t)) == 0);
}

static bool same_test(const Suite *left, const Suite *right, size_t index) {
    const Test *one = &left->tests[index];
    const Test *other = &right->tests[index];
    return one->mode == other->mode && one->number == other->number &&
           one->readings == other->readings &&
           same_words_at(left, one->first, right, other->first) &&
           same_words_at(left, one->second, right, other->second);
}

static bool same_bytes(const Bytes *left, const Bytes *right) {
    return left->count == right->count &&
           (left->count == 0 || memcmp(left->at, right->at, left->count) == 0);
}

// Whether all inputs have at most 2,048 words.
static bool is_spellable(const Suite *suite) {
    bool spellable = true;
    for (size_t index = 0; spellable && index < suite->count; index++) {
        const Test *test = &suite->tests[index];
        spellable = test->first.words <= 2048 && test->second.words <= 2048;
    }
    return spellable;
}

// What is read from the text of a suite is the suite.
static void check_read_back(SuiteCheck *check, const Suite *suite, const Bytes *text,
                            const Bytes *names) {
    NamedSuite named;
    bool good = suite_parse(text->at, text->count, &named);
    bool spellable = is_spellable(suite) && text->count <= LONGEST_SUITE_TEXT;
    suite_demand(check, good == spellable, "the text of a suite is bad input");
    suite_demand(check, !good || named.suite.count == suite->count, "not all tests are read back");
    for (size_t index = 0; good && check->failure == NULL && index < suite->count; index++) {
        suite_demand(check, same_test(&named.suite, suite, index), "another test is read back");
        suite_demand(check, same_bytes(&named.names[index], &names[index]),
                     "another name is read back");
    }
    named_suite_free(&named);
}

// A text is good exactly when it is so byte after byte.
static void check_verdict(SuiteCheck *check, const Bytes *text) {
    NamedSuite named;
    bool good = suite_parse(text->at, text->count, &named);
    suite_demand(check, good == is_suite_text(text), "a text is judged otherwise byte by byte");
    check->texts += good;
    check->bad += !good;
    named_suite_free(&named);
}

// A text damaged in some way or other is judged alike; one time in four it is the text itself.
static void check_damaged(SuiteCheck *check, const Bytes *text) {
    for (int time = 0; time < 4; time++) {
        Bytes copy = {0};
        bytes_add_all(&copy, text->at, text->count);
        if (time > 0) {
            damage_suite_text(&check->random, &copy);
        }
        check_verdict(check, &copy);
        bytes_free(&copy);
    }
}

void check_suite_text(SuiteCheck *check) {
    Suite suite = random_suite_within(&check->random, SUITE_ROOM, WORKING_NEEDED);
    Bytes *names = zeroed(suite.count, sizeof *names);
    Bytes text = suite_spell(&check->random, &suite, names);
    check_read_back(check, &suite, &text, names);
    check_damaged(check, &text);
    for (size_t index = 0; index < suite.count; index++) {
        bytes_free(&names[index]);
    }
    bytes_free(&text);
    free(names);
    suite_free(&suite);
}
