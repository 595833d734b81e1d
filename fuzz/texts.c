// The fuzzer's target for texts: the bytes are what `meet` reads. What it prints is worked out
// again from the bytes, by tokens, and the answer of the unifier.
#define _POSIX_C_SOURCE 200809L
#include "call.h"

#include <inttypes.h>
#include <stdlib.h>
#include <string.h>

enum { LONGEST_TEXT = 65536, LARGEST_COUNT = 2048, ROOM = 2048, DIGITS = 10 };

int LLVMFuzzerTestOneInput(const uint8_t *data, size_t size);

// What `meet` of the second program prints for the bytes; freed by the caller. The C library of GNU
// lets both streams be replaced.
static char *printed(const uint8_t *data, size_t size) {
    FILE *old_in = stdin;
    FILE *old_out = stdout;
    char *text = NULL;
    size_t length = 0;
    static const char empty[1];
    stdin = fmemopen(size > 0 ? (void *)data : (void *)empty, size > 0 ? size : 1, "r");
    stdout = open_memstream(&text, &length);
    if (stdin == NULL || stdout == NULL) {
        exit(2);
    }
    if (size == 0) {
        getchar();
    }
    run_meet();
    fclose(stdin);
    fclose(stdout);
    stdin = old_in;
    stdout = old_out;
    return text;
}

// Whether the bytes are digits, spaces and newlines, and not too many.
static bool good_characters(const char *text, size_t size) {
    return size <= LONGEST_TEXT && strspn(text, "0123456789 \n") == size;
}

// Adds the number of a token; false when it has no 32 bits.
static bool add_number(const char *token, Words *numbers) {
    token += strspn(token, "0");
    size_t digits = strlen(token);
    if (digits > DIGITS || (digits == DIGITS && strcmp(token, "4294967295") > 0)) {
        return false;
    }
    words_add(numbers, (uint32_t)strtoull(token, NULL, 10));
    return true;
}

static bool split(char *text, Words *numbers) {
    bool good = true;
    for (char *token = strtok(text, " \n"); good && token != NULL; token = strtok(NULL, " \n")) {
        good = add_number(token, numbers);
    }
    return good;
}

// Where both inputs start; false when the counts do not fit the numbers.
static bool find_inputs(const Words *numbers, size_t *first, size_t *second) {
    if (numbers->count < 3 || numbers->at[1] > LARGEST_COUNT) {
        return false;
    }
    *first = 2;
    *second = *first + numbers->at[1] + 1;
    return *second <= numbers->count && numbers->at[*second - 1] <= LARGEST_COUNT &&
           *second + numbers->at[*second - 1] == numbers->count;
}

static void print_call(const Words *numbers, size_t first, size_t second, FILE *to) {
    Outcome outcome = unify(numbers->at[0], numbers->at + first, second - first - 1,
                            numbers->at + second, numbers->count - second, ROOM, WORKING_NEEDED);
    fprintf(to, "answer %" PRIu32 " words %" PRIu32 " readings %" PRIu32 "\n", outcome.number,
            outcome.length, outcome.readings);
    for (size_t index = 0; index < outcome.result.count; index++) {
        fprintf(to, "%" PRIu32 "%c", outcome.result.at[index],
                index + 1 == outcome.result.count ? '\n' : ' ');
    }
    words_free(&outcome.result);
}

// What document 01 says is printed for the text; freed by the caller.
static char *expected(char *text, size_t size) {
    char *print = NULL;
    size_t length = 0;
    size_t first;
    size_t second;
    Words numbers = {0};
    FILE *to = open_memstream(&print, &length);
    if (to == NULL) {
        exit(2);
    }
    if (good_characters(text, size) && split(text, &numbers) &&
        find_inputs(&numbers, &first, &second)) {
        print_call(&numbers, first, second, to);
    } else {
        fputs("bad input\n", to);
    }
    fclose(to);
    words_free(&numbers);
    return print;
}

int LLVMFuzzerTestOneInput(const uint8_t *data, size_t size) {
    char *text = zeroed(size + 1, 1);
    memcpy(text, data, size);
    char *print = printed(data, size);
    char *wanted = expected(text, size);
    if (strcmp(print, wanted) != 0) {
        fprintf(stderr, "fuzz: meet prints\n%sand not\n%s", print, wanted);
        abort();
    }
    free(print);
    free(wanted);
    free(text);
    return 0;
}
