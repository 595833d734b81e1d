// Formulas by plain enumeration, for the self-check: every way to cut a text into its parts is
// tried, and the bytes that are still to come may be any. Nothing is shared with the recogniser.
#ifndef FORMULA_CUTS_H
#define FORMULA_CUTS_H

#include <stdbool.h>
#include <stddef.h>

enum { LONGEST_CUT = 16 };

// Whether a text of at most so many bytes is a formula.
bool cuts_read(const char *text, size_t length);

// Whether a text of at most so many bytes is the start of a formula.
bool cuts_start(const char *text, size_t length);

#endif
