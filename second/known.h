// The descriptions that document 01 names and a few others, as texts of their words.
#ifndef KNOWN_H
#define KNOWN_H

#include "description.h"

#define N "1 0 0 "
#define A "2 1 1 1 65546 0 "
#define B "2 1 1 1 65547 0 "
#define C "2 1 2 1 65546 0 "
#define D "2 1 2 1 65547 0 "
#define E "2 2 1 1 2 1 0 0 "
#define A_AND_C "3 2 1 1 2 2 65546 65546 0 "
#define P "1 0 1 2 " A B
#define S "1 0 1 2 " A A_AND_C
#define L "1 1 1 0 0 "

// Feature 1 is atom 12; it is atom 13; it is one or the other.
#define TWELVE "2 1 1 1 65548 0 "
#define THIRTEEN "2 1 1 1 65549 0 "
#define TWELVE_OR_THIRTEEN "1 0 1 2 " TWELVE THIRTEEN

// Features 1 and 2 share a value, and feature 1 is atom 10 or atom 11.
#define E_AND_P "2 2 1 1 2 1 0 1 2 " A B

// Feature 3 of the value of feature 1 is atom 10, and feature 3 of the value of feature 2 atom 11.
#define TWO_BELOW "5 2 1 1 2 2 1 3 3 1 3 4 65546 65547 0 "

// The words in a text of numbers.
Words words_from(const char *text);

#endif
