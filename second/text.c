// Reading calls as text: the interface of `meet`, and the batch format.
#include "bytes.h"
#include "call.h"

#include <inttypes.h>
#include <string.h>

enum { LONGEST_TEXT = 65536, LARGEST_COUNT = 2048, MEET_ROOM = 2048 };

static bool is_separator(char character) {
    return character == ' ' || character == '\n';
}

static bool is_digit(char character) {
    return character >= '0' && character <= '9';
}

// Reads the digits at the position as a number; false over 4,294,967,295.
static bool parse_number(const char *text, size_t length, size_t *position, uint32_t *number) {
    uint64_t value = 0;
    while (*position < length && is_digit(text[*position]) && value <= UINT32_MAX) {
        value = 10 * value + (uint64_t)(text[*position] - '0');
        (*position)++;
    }
    *number = (uint32_t)value;
    return value <= UINT32_MAX;
}

bool parse_numbers(const char *text, size_t length, Words *numbers) {
    size_t position = 0;
    while (position < length) {
        if (is_separator(text[position])) {
            position++;
            continue;
        }
        uint32_t number;
        if (!is_digit(text[position]) || !parse_number(text, length, &position, &number)) {
            return false;
        }
        words_add(numbers, number);
    }
    return true;
}

// Takes a count and so many words from the numbers.
static bool take_counted(const Words *numbers, size_t *position, size_t largest, Words *taken) {
    if (*position >= numbers->count) {
        return false;
    }
    uint32_t count = numbers->at[(*position)++];
    if (count > largest || count > numbers->count - *position) {
        return false;
    }
    words_add_all(taken, numbers->at + *position, count);
    *position += count;
    return true;
}

// Takes both inputs of a call; no number may be left over.
static bool take_inputs(const Words *numbers, size_t position, size_t largest, Call *call) {
    return take_counted(numbers, &position, largest, &call->first) &&
           take_counted(numbers, &position, largest, &call->second) && position == numbers->count;
}

bool parse_inputs(const char *text, size_t length, Call *call) {
    Words numbers = {0};
    *call = (Call){0};
    bool good = parse_numbers(text, length, &numbers) && take_inputs(&numbers, 0, SIZE_MAX, call);
    words_free(&numbers);
    return good;
}

// A call of `meet`: mode and both inputs; the areas have fixed sizes.
static bool parse_meet(const char *text, size_t length, Call *call) {
    Words numbers = {0};
    *call = (Call){.room = MEET_ROOM, .work = WORKING_NEEDED};
    bool good = length <= LONGEST_TEXT && parse_numbers(text, length, &numbers) &&
                numbers.count > 0 && take_inputs(&numbers, 1, LARGEST_COUNT, call);
    if (good) {
        call->mode = numbers.at[0];
    }
    words_free(&numbers);
    return good;
}

static void print_answer(const Outcome *outcome) {
    printf("answer %" PRIu32 " words %" PRIu32 " readings %" PRIu32, outcome->number,
           outcome->length, outcome->readings);
}

Outcome answer_meet(const Call *call) {
    Outcome outcome = call_run(call);
    print_answer(&outcome);
    putchar('\n');
    if (outcome.number == SUCCESS) {
        words_print(&outcome.result, stdout);
        putchar('\n');
    }
    words_free(&outcome.result);
    return outcome;
}

bool meet_read(Call *call) {
    static char text[LONGEST_TEXT + 1];
    size_t length = fread(text, 1, sizeof text, stdin);
    return parse_meet(text, length, call);
}

int run_meet(void) {
    Call call;
    if (meet_read(&call)) {
        answer_meet(&call);
    } else {
        puts("bad input");
    }
    call_free(&call);
    return 0;
}

// The text after a keyword that is followed by a space, or null.
static const char *after_keyword(const char *line, const char *keyword) {
    size_t length = strlen(keyword);
    bool starts = strncmp(line, keyword, length) == 0 && line[length] == ' ';
    return starts ? line + length : NULL;
}

// `fit N words.. M words..`
static bool parse_fit(const Words *numbers, Call *call) {
    *call = (Call){.is_fit = true};
    return take_inputs(numbers, 0, SIZE_MAX, call);
}

// `unify MODE ROOM WORK N words.. M words..`
static bool parse_unify(const Words *numbers, Call *call) {
    *call = (Call){0};
    if (numbers->count < 3) {
        return false;
    }
    call->mode = numbers->at[0];
    call->room = numbers->at[1];
    call->work = numbers->at[2];
    return take_inputs(numbers, 3, SIZE_MAX, call);
}

static bool parse_line(const char *line, size_t length, Call *call) {
    const char *unify_text = after_keyword(line, "unify");
    const char *rest = unify_text != NULL ? unify_text : after_keyword(line, "fit");
    Words numbers = {0};
    bool good = rest != NULL && parse_numbers(rest, length - (size_t)(rest - line), &numbers);
    *call = (Call){0};
    if (good) {
        good = unify_text != NULL ? parse_unify(&numbers, call) : parse_fit(&numbers, call);
    }
    words_free(&numbers);
    return good;
}

static void answer_line(const Call *call) {
    Outcome outcome = call_run(call);
    if (call->is_fit) {
        printf("answer %" PRIu32, outcome.number);
    } else {
        print_answer(&outcome);
    }
    if (!call->is_fit && outcome.number == SUCCESS) {
        fputs(" : ", stdout);
        words_print(&outcome.result, stdout);
    }
    putchar('\n');
    words_free(&outcome.result);
}

int run_batch(void) {
    Bytes line = {0};
    while (line_next(&line)) {
        Call call;
        if (parse_line(line.at, line.count, &call)) {
            answer_line(&call);
        } else {
            puts("bad input");
        }
        call_free(&call);
    }
    bytes_free(&line);
    return 0;
}
