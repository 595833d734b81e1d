// Formulas as they are printed, into descriptions: the entry of request One.
#ifndef FORMULA_H
#define FORMULA_H

#include "description.h"

enum { LONGEST_FORMULA = 4096, LONGEST_DESCRIBED = 1024 };

// The numbers that come back besides 0.
enum {
    FORMULA_BAD = 20,      // tells the byte
    FORMULA_DEEP = 21,     // more than four disjunctions nested in the text
    FORMULA_CLASH = 22,    //
    FORMULA_LARGE = 23,    // over 1,024 words
    FORMULA_NO_ROOM = 24,  // tells the words needed
    FORMULA_TOO_LONG = 25, // over 4,096 bytes
};

typedef struct {
    uint32_t number;
    uint32_t told; // the words of the result after 0 and 24, the byte after 20, otherwise 0
    Words result;  // empty unless the number is 0; freed by the caller
} FormulaOutcome;

// Describes a text, for a result area of the given size.
FormulaOutcome formula(const char *text, size_t length, size_t room);

#endif
