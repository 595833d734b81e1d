// Calls of the entry of request One: making, reading and printing them, and printing answers.
#include "formula_call.h"

#include "call.h"
#include "hexadecimal.h"

#include <inttypes.h>
#include <stdlib.h>
#include <string.h>

void formula_call_free(FormulaCall *call) {
    bytes_free(&call->text);
}

FormulaOutcome formula_call_run(const FormulaCall *call) {
    return formula(call->text.at, call->text.count, call->room);
}

void formula_call_print(const FormulaCall *call, FILE *to) {
    fprintf(to, "formula %" PRIu32 " ", call->room);
    print_hexadecimal(&call->text, to);
    fputc('\n', to);
}

// The first line of an answer, without its newline.
static void print_answer(const FormulaOutcome *outcome) {
    printf("answer %" PRIu32, outcome->number);
    if (outcome->number == 0 || outcome->number == FORMULA_NO_ROOM) {
        printf(" words %" PRIu32, outcome->told);
    } else if (outcome->number == FORMULA_BAD) {
        printf(" byte %" PRIu32, outcome->told);
    }
}

// Prints an answer, which is consumed, its words after `before`.
static void answer(FormulaOutcome outcome, const char *before) {
    print_answer(&outcome);
    if (outcome.number == 0) {
        fputs(before, stdout);
        words_print(&outcome.result, stdout);
    }
    putchar('\n');
    words_free(&outcome.result);
}

// Standard input is read to its end, so that nobody who still writes is cut off; but no more is kept
// than shows that a text is too long.
int run_formula(void) {
    static char text[LONGEST_FORMULA + 1];
    size_t length = fread(text, 1, sizeof text, stdin);
    while (getchar() != EOF) {
    }
    answer(formula(text, length, LONGEST_DESCRIBED), "\n");
    return 0;
}

// Reads the digits of a room; the text after them, or null when they are not as they should be.
static const char *parse_room(const char *digits, uint32_t *room) {
    char *end = NULL;
    if (digits[0] < '0' || digits[0] > '9') {
        return NULL;
    }
    unsigned long long value = strtoull(digits, &end, 10);
    *room = (uint32_t)value;
    return value <= UINT32_MAX ? end : NULL;
}

// `formula ROOM HEXTEXT`; the text may be empty, and then the space before it may be missing.
static bool parse_call(const Bytes *line, FormulaCall *call) {
    static const char keyword[] = "formula ";
    size_t length = strlen(keyword);
    *call = (FormulaCall){0};
    if (strlen(line->at) != line->count || strncmp(line->at, keyword, length) != 0) {
        return false;
    }
    const char *rest = parse_room(line->at + length, &call->room);
    if (rest == NULL || rest[0] == '\0') {
        return rest != NULL;
    }
    return rest[0] == ' ' && parse_hexadecimal(rest + 1, &call->text);
}

int run_formulas(void) {
    Bytes line = {0};
    while (line_next(&line)) {
        FormulaCall call;
        if (parse_call(&line, &call)) {
            answer(formula_call_run(&call), " : ");
        } else {
            puts("bad input");
        }
        formula_call_free(&call);
    }
    bytes_free(&line);
    return 0;
}
