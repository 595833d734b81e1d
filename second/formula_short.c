// All short texts over small alphabets, judged as by all ways to cut them.
#include "check.h"

#include "formula_cuts.h"
#include "formula_text.h"

#include <stdio.h>
#include <string.h>

typedef struct {
    const char *bytes;
    size_t most; // bytes of a text
} Alphabet;

// Of the last, `x` and the newline stand in no formula.
static const Alphabet alphabets[] = {
    {"NIL&( )", 7}, {"TOP|( )", 7}, {"af01:|(", 7},  {"[]<>,f0 ", 8},
    {"a0356", 7},   {"f653:a", 6},  {"[<f1>]&", 11}, {"NILTOPaf0156:[<>,]&|() x\n", 4},
};

enum { ALPHABETS = sizeof alphabets / sizeof *alphabets };

// The text being made, which is the start of a formula.
typedef struct {
    Alphabet alphabet;
    char text[LONGEST_CUT];
    size_t length;
    unsigned long formulas;
    unsigned long starts;
    unsigned long differences;
} Short;

static void differ(Short *this, bool differs) {
    if (differs) {
        printf("short text differs: %.*s\n", (int)this->length, this->text);
        this->differences++;
    }
}

// The text that is being made is no start, and was one without its last byte.
static void check_dead(Short *this) {
    size_t byte;
    bool reads = formula_reads(this->text, this->length, &byte);
    differ(this, reads || byte != this->length - 1);
}

static void check_start(Short *this) {
    size_t byte;
    bool reads = formula_reads(this->text, this->length, &byte);
    differ(this, reads != cuts_read(this->text, this->length) || byte != this->length);
    this->formulas += reads;
    this->starts++;
}

// Every text that begins like the one being made. What follows a byte at which no formula can go on
// changes nothing, and is left out.
static void extend(Short *this) {
    check_start(this);
    if (this->length == this->alphabet.most) {
        return;
    }
    for (const char *byte = this->alphabet.bytes; *byte != '\0'; byte++) {
        this->text[this->length++] = *byte;
        if (cuts_start(this->text, this->length)) {
            extend(this);
        } else {
            check_dead(this);
        }
        this->length--;
    }
}

int run_short_texts(void) {
    Short this = {0};
    for (size_t index = 0; index < ALPHABETS; index++) {
        this.alphabet = alphabets[index];
        extend(&this);
    }
    printf(
        "known: all short texts over %d alphabets, %lu starts of formulas and %lu formulas: %s\n",
        (int)ALPHABETS, this.starts, this.formulas,
        this.differences == 0 ? "as all ways to cut them say" : "DIFFERENT");
    return this.differences == 0 ? 0 : 1;
}
