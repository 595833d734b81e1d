// Drawing calls: those of the second program's generator, and small ones.
#include "draw.h"

#include "faults.h"
#include "generate.h"
#include "shapes.h"

static Words words_of(Description description) {
    Words words = {0};
    description_write(&description, &words);
    description_free(&description);
    return words;
}

// The words of a small description, which now and then are spoilt.
static Words small_words(Random *random, Vocabulary vocabulary, Size size) {
    Description description = random_description(random, vocabulary, size);
    Words words;
    if (random_one_in(random, 30)) {
        words = malformed_words(random, &description);
    } else if (random_one_in(random, 30)) {
        words = arbitrary_words(random, &description);
    } else {
        return words_of(description);
    }
    description_free(&description);
    return words;
}

static Size small_size(Random *random) {
    Size size;
    size.most_nodes = 1 + random_below(random, 5);
    size.most_disjunctions = random_below(random, 4);
    size.most_alternatives = 2 + random_below(random, 2);
    size.deepest = (int)random_below(random, DEEPEST + 1);
    return size;
}

static uint32_t drawn_mode(Random *random) {
    static const uint32_t unknown[] = {3, 3, 4, 256, 65536, UINT32_MAX - 1, UINT32_MAX};
    return random_one_in(random, 40) ? unknown[random_below(random, 7)] : random_below(random, 3);
}

// Around 16,384 words, on both sides.
static uint32_t drawn_work(Random *random) {
    static const uint32_t small[] = {0, 1, 8192, 16382, 16383, 16383};
    static const uint32_t large[] = {16385, 16386, 16400, 20000, 32767, MOST_WORK};
    if (random_one_in(random, 30)) {
        return small[random_below(random, 6)];
    }
    return random_one_in(random, 4) ? large[random_below(random, 6)] : WORKING_NEEDED;
}

// Ample; or any size; or about the length of the result.
static uint32_t drawn_room(Random *random, Call *call) {
    static const uint32_t usual[] = {2044, 2045, 2048, MOST_ROOM};
    uint32_t kind = random_below(random, 8);
    if (kind > 3) {
        return usual[random_below(random, 4)];
    }
    if (kind == 3) {
        return random_below(random, 60);
    }
    call->room = MOST_ROOM;
    Outcome outcome = call_run(call);
    words_free(&outcome.result);
    return outcome.length == 0 ? kind : outcome.length - 1 + kind;
}

// A call with two small inputs, or with one and the last result.
static Call small_call(Random *random, const Words *last) {
    Call call = {.is_fit = random_one_in(random, 5)};
    Vocabulary vocabulary = random_vocabulary(random);
    Size size = small_size(random);
    call.first = small_words(random, vocabulary, size);
    call.second = small_words(random, vocabulary, size);
    if (last->count > 0 && random_one_in(random, 6)) {
        Words *again = random_one_in(random, 2) ? &call.first : &call.second;
        again->count = 0;
        words_add_all(again, last->at, last->count);
    }
    return call;
}

// Gives a call of unification a mode and areas.
static void draw_areas(Random *random, Call *call) {
    call->mode = drawn_mode(random);
    call->work = drawn_work(random);
    call->room = drawn_room(random, call);
}

Call draw_call(Random *random, const Words *last) {
    if (random_one_in(random, 3)) {
        return random_call(random);
    }
    Call call = small_call(random, last);
    if (!call.is_fit) {
        draw_areas(random, &call);
    }
    return call;
}
