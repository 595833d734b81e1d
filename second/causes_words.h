// Random words for every cause.
#ifndef CAUSES_WORDS_H
#define CAUSES_WORDS_H

#include "description.h"
#include "random.h"

// A word that is small, or at one of the bounds of the layout.
uint32_t random_word(Random *random);

// The words of a description of at most 1,024 words, mostly far fewer.
Words random_sound_words(Random *random);

// At most 1,024 words, mostly malformed; every cause is common, and so is every role where words
// end.
Words random_words_with_cause(Random *random);

#endif
