// Bytes in hexadecimal digits, two a byte.
#ifndef HEXADECIMAL_H
#define HEXADECIMAL_H

#include "bytes.h"

#include <stdio.h>

void print_hexadecimal(const Bytes *bytes, FILE *to);

// Adds the bytes that the digits stand for; false when there are others than digits, or an odd
// number.
bool parse_hexadecimal(const char *digits, Bytes *bytes);

#endif
