// Texts of suites.
#ifndef SUITE_SPELL_H
#define SUITE_SPELL_H

#include "bytes.h"
#include "random.h"
#include "suite.h"

// A suite as a text, with names at random and blanks of every kind. Adds to each of the names, one a
// test and empty before, what is to be read as such.
Bytes suite_spell(Random *random, const Suite *suite, Bytes *names);

// Spoils a text, or does what only looks like that.
void damage_suite_text(Random *random, Bytes *text);

// Prints the text of a suite in hexadecimal digits, on a line.
void print_suite_text(Random *random);

#endif
