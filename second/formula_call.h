// A call of the entry of request One, and the ways to run a program on texts.
#ifndef FORMULA_CALL_H
#define FORMULA_CALL_H

#include "bytes.h"
#include "formula.h"

#include <stdio.h>

typedef struct {
    uint32_t room;
    Bytes text;
} FormulaCall;

void formula_call_free(FormulaCall *call);

FormulaOutcome formula_call_run(const FormulaCall *call);

// Prints the call as one line of the form `formula ROOM HEXTEXT`.
void formula_call_print(const FormulaCall *call, FILE *to);

// One text from standard input, answered on standard output; the result area has 1,024 words.
int run_formula(void);

// One call a line from standard input, one answer a line.
int run_formulas(void);

#endif
