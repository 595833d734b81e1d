// Seeded inputs of `meet`, most of them malformed.
#include "explain.h"

#include "call.h"
#include "causes_words.h"

// More than 1,024 words.
static Words long_words(Random *random) {
    Words words = random_sound_words(random);
    while (words.count <= LONGEST_INPUT) {
        words_add(&words, random_word(random));
    }
    return words;
}

// Mostly malformed words, well-formed ones, or now and then too many.
static Words random_input(Random *random) {
    uint32_t kind = random_below(random, 16);
    if (kind == 0) {
        return long_words(random);
    }
    return kind < 6 ? random_sound_words(random) : random_words_with_cause(random);
}

void print_broken(Random *random) {
    Call call = {0};
    call.first = random_one_in(random, 2) ? random_sound_words(random) : random_input(random);
    call.second = random_input(random);
    call.mode = random_one_in(random, 40) ? 3 : random_below(random, 3);
    meet_print(&call, stdout);
    call_free(&call);
}
