// The refusals of request Eight, judged by its rules one after the other.
#ifndef LIBRARY_RULES_H
#define LIBRARY_RULES_H

#include "library.h"

// 40, 41, 42, or 0.
uint32_t rule_of_start(const Bytes *file);

// 40 to 45 for the identifier, or 0.
uint32_t rule_of_read(const Bytes *file, uint32_t identifier);

// 47 or 45, or 0.
uint32_t rule_of_write(const Words *entries, const Words *words);

#endif
