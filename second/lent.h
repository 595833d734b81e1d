// What is lent to a suite, with a pattern in it before.
#ifndef LENT_H
#define LENT_H

#include "suite.h"

typedef struct {
    Words result;
    Words working;
    Report report;
} Lent;

// What stands at a place before; never 0.
uint32_t word_before(size_t place);

// Areas of the given sizes and a report, filled with what stands there before.
Lent lent_before(size_t result_room, size_t working_room);
void lent_free(Lent *lent);

// The words of an area up to the last that is not as it was before.
size_t words_changed(const Words *area);

// Whether the first 16,384 words of a working area are zero and the others as they were before.
bool is_cleared(const Words *working);

// The words of a report: run, good, first, and the counts by mode and number.
Words report_words(const Report *report);

#endif
