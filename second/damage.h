// Damage of texts, for formulas and for suites.
#ifndef DAMAGE_H
#define DAMAGE_H

#include "bytes.h"
#include "random.h"

// What is done to one byte: another stands in its place, another is put before it, it is taken out, or
// the text is cut off before it.
typedef enum { BYTE_REPLACED, BYTE_PUT_IN, BYTE_TAKEN_OUT, CUT_OFF, BYTE_DAMAGES } ByteDamage;

// Puts bytes in the place of so many others.
void bytes_put(Bytes *text, size_t place, size_t gone, const char *bytes, size_t count);

void damage_byte(Bytes *text, size_t place, ByteDamage damage, char byte);

// Damages a text at a random place, or now and then at two; a text that is empty stays so.
void damage_somewhere(Random *random, Bytes *text,
                      void (*damage_at)(Random *random, Bytes *text, size_t place));

#endif
