// Calls out of bytes, for the fuzzer.
#ifndef DECODE_H
#define DECODE_H

#include "call.h"

// The call that the bytes stand for; every run of bytes stands for one. The first four bytes give
// the way to read the others, the mode, the result area and the working area. The others are
// - instructions that build two descriptions, always well formed; or
// - small words, with codes for atoms and for words at the edges of the layout; or
// - any words, four bytes each.
Call decode_call(const uint8_t *bytes, size_t count);

#endif
