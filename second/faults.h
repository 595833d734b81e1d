// Words that break a rule of the word layout.
#ifndef FAULTS_H
#define FAULTS_H

#include "description.h"
#include "random.h"

// The words of a description with one rule broken.
Words malformed_words(Random *random, const Description *description);

// A few random words, mostly small; or the description's words with one word at random. These
// are seldom well formed.
Words arbitrary_words(Random *random, const Description *description);

#endif
