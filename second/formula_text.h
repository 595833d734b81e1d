// Which texts are formulas, and where a text stops being the start of one.
#ifndef FORMULA_TEXT_H
#define FORMULA_TEXT_H

#include <stdbool.h>
#include <stddef.h>

// Whether a text is a formula. Otherwise `byte` is the first byte, from 0, at which no formula can
// go on; it is the length when the text only ends too early.
bool formula_reads(const char *text, size_t length, size_t *byte);

#endif
